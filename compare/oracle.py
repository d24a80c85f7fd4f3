#!/usr/bin/env python3
"""A second monitor, in plain Python, written to docs/RULES.md.

    oracle.py < input            does what the program `pedal` does
    oracle.py --bench < script   does what the program `bench` does

It shares no code with the monitor, and is made to be compared with it. It is slow and plain on purpose.

The script of `bench` is lines, each ended by byte 10 (the last one need not be):

    order=ladder | order=badges                       line 1
    rule=separation[,a,b[,a,b..]] | rule=quota,group,n  line 2
    start                       the lines behind it, up to an empty line or the end, are a start text: start=n,line
    request=k,x,v,r,y,z,l,m     answer=n
    list=n                      the n lines behind it, all requests, form one list: list=n, and if that is 0, answer=n for each
    question=q,a,b,m            yes, no or refused=n
    report=length               a buffer of that length, up to 1,048,576: report=length and the report's lines, or refused=n
    replay                      the accepted requests that give, on a fresh block of the same start:
                                replay=count,accepted and stands=yes or stands=no

Numbers are written as in a start text, and are at most 4,294,967,295. A line of another form, an order or a rule that cannot be,
and a line that is missing print script=number, with the number of the line from 1, and end the run.
"""
import sys

BIG = 1 << 32  # stands for every number from 2^32 on
READ, WRITE, EXECUTE, OWN = 1, 2, 4, 8
RIGHTS = (READ, WRITE, EXECUTE, OWN)
ACCESSES = (READ, WRITE, OWN)
ROOT = 64

# ---------------------------------------------------------------------------------------------------------------- orders


class Ladder:
    top = 15

    def knows(self, a):
        return 0 <= a <= 15

    def below(self, a, b):
        return self.knows(a) and self.knows(b) and a <= b


class Badges:
    top = 255

    def knows(self, a):
        return 0 <= a <= 255

    def below(self, a, b):
        return self.knows(a) and self.knows(b) and (a & ~b) == 0


# ----------------------------------------------------------------------------------------------------------- house rules


class Separation:
    def __init__(self, pairs=()):
        pairs = list(pairs)
        if len(pairs) > 8:
            raise ValueError("over 8 pairs")
        for a, b in pairs:
            if not (0 <= a <= 31 and 0 <= b <= 31 and a != b):
                raise ValueError("no pair of two roles")
        self.pairs = pairs

    def allows(self, account, life, role):
        return not any((a in life and role == b) or (b in life and role == a) for a, b in self.pairs)


class Quota:
    def __init__(self, group, most):
        if not 0 <= most <= 32:
            raise ValueError("over 32")
        self.group, self.most = roles_of(group), most

    def allows(self, account, life, role):
        return len((life | {role}) & self.group) <= self.most


def roles_of(number):
    """The set that a number writes."""
    return frozenset(n for n in range(32) if number >> n & 1)


# ---------------------------------------------------------------------------------------------------------- lines, numbers


def numeral(field):
    """The number that the bytes write (BIG for all from 2^32 on), or None."""
    if not field or any(c not in b"0123456789" for c in field):
        return None
    if len(field) > 1 and field[:1] == b"0":
        return None
    return BIG if len(field) > 10 else min(int(field), BIG)


def entry(line):
    """The key and the numbers of a line without its byte 10, or None."""
    key, sign, rest = line.partition(b"=")
    if not sign:
        return None
    numbers = tuple(numeral(f) for f in rest.split(b","))
    return None if None in numbers else (key.decode("latin-1"), numbers)


def small(line, key, count):
    """The numbers of a line with this key and count of numbers, each below 2^32, or None."""
    found = entry(line)
    if found is None or found[0] != key or len(found[1]) != count or BIG in found[1]:
        return None
    return found[1]


def lines_of(data):
    """The lines of data; a last one without byte 10 counts."""
    lines = data.split(b"\n")
    return lines[:-1] if lines[-1] == b"" else lines


# --------------------------------------------------------------------------------------------------------------- records


class Account:
    def __init__(self, level, guarded, takes, key):
        self.level, self.guarded, self.takes, self.key = level, guarded, roles_of(takes), key


class Role:
    def __init__(self, level, kind, manages, key):
        self.level, self.administrative, self.manages, self.key = level, kind == 1, roles_of(manages), key


class Item:
    """sort is 'session', 'object' or 'container'."""

    def __init__(self, sort, level, mark=0):
        self.sort, self.level, self.mark = sort, level, mark


class Session:
    def __init__(self, account, program, parent):
        self.account, self.program, self.parent, self.life = account, program, parent, frozenset()


class Records:
    """All that a block holds."""

    def __init__(self):
        self.gate = 0
        self.accounts = {}  # number: Account
        self.roles = {}  # number: Role
        self.items = {}  # number: Item, of every number ever used
        self.sessions = {}  # number: Session, of every session's number ever used
        self.live = set()
        self.held = set()  # (session, role)
        self.rights = set()  # (role, item, right)
        self.accesses = set()  # (session, item, access)
        self.holdings = set()  # (container, entity)
        self.flows = {}  # item: set of items, as a sum of 2^n
        self.control = {}  # session: set of sessions, likewise

    # ---- what stands

    def level(self, item):
        return self.items[item].level

    def is_live(self, n, sort=None):
        return n in self.live and (sort is None or self.items[n].sort == sort)

    def is_defined(self, n, sort):
        return n in self.items and self.items[n].sort == sort

    def roles_held(self, s):
        return {r for (t, r) in self.held if t == s}

    def entitled(self, s, item, right):
        """A role that s holds has the right."""
        return any((r, item, right) in self.rights for r in self.roles_held(s))

    def has_flow(self, a, b):
        return bool(self.flows.get(a, 0) >> b & 1)

    def has_control(self, s, t):
        return bool(self.control.get(s, 0) >> t & 1)

    def guarded(self, s):
        return self.accounts[self.sessions[s].account].guarded

    def facts(self):
        out = {("lives", i, self.level(i)) for i in self.live}
        out |= {("held",) + f for f in self.held}
        out |= {("right",) + f for f in self.rights}
        out |= {("access",) + f for f in self.accesses}
        out |= {("holding",) + f for f in self.holdings}
        out |= {("flow", a, b) for a, row in self.flows.items() for b in members(row)}
        out |= {("control", s, t) for s, row in self.control.items() for t in members(row)}
        return out

    # ---- reach

    def passes(self, order, s, container):
        if not self.entitled(s, container, EXECUTE):
            return False
        it = self.items[container]
        return it.mark in (0, 2) or order.below(it.level, self.level(s))

    def reaches(self, order, s, item):
        if self.is_live(item, "session"):
            return True
        seen, todo = {ROOT}, [ROOT]
        while todo:
            c = todo.pop()
            if self.items[c].sort == "container" and self.passes(order, s, c):
                for holder, e in self.holdings:
                    if holder == c and e not in seen:
                        seen.add(e)
                        todo.append(e)
        return item in seen

    # ---- change

    def make(self, n, item, holder=None):
        self.items[n] = item
        self.live.add(n)
        if holder is not None:
            self.holdings.add((holder, n))

    def take(self, s, role):
        self.held.add((s, role))
        self.sessions[s].life = self.sessions[s].life | {role}

    def forget(self, n):
        """The item n is gone."""
        self.live.discard(n)
        self.held = {f for f in self.held if f[0] != n}
        self.rights = {f for f in self.rights if f[1] != n}
        self.accesses = {f for f in self.accesses if n not in f[:2]}
        self.holdings = {f for f in self.holdings if n not in f}
        for relation in (self.flows, self.control):
            relation.pop(n, None)
            for a in relation:
                relation[a] &= ~(1 << n)
        parent = self.sessions[n].parent if n in self.sessions else 0
        for t, session in self.sessions.items():
            if t == n or session.program == n:
                session.program = 0
            if n <= 63 and session.parent == n:
                session.parent = parent

    # ---- flows and control

    def settle(self):
        """The least relations that contain those left from before and obey the seven rules."""
        flows = {a: self.flows.get(a, 0) for a in self.live}
        control = {s: self.control.get(s, 0) for s in self.live if s <= 63}
        sessions = sorted(control)
        free = [s for s in sessions if not self.guarded(s)]
        reads = {s: [e for (t, e, m) in self.accesses if t == s and m == READ] for s in sessions}
        writes = {s: sum(1 << e for (t, e, m) in self.accesses if t == s and m == WRITE) for s in sessions}
        before = None
        while before != (flows, control):
            before = (dict(flows), dict(control))
            # itself, owner
            for s in sessions:
                control[s] |= 1 << s
            for s, t, m in self.accesses:
                if m == OWN and t <= 63:
                    control[s] |= 1 << t
            # onward
            for s in sessions:
                for t in members(control[s]):
                    control[s] |= control[t]
            # writing, reading
            for s in free:
                for t in members(control[s]):
                    flows[s] |= writes[t]
                    for e in reads[t]:
                        flows[e] |= 1 << s
            # passing
            for a in flows:
                for b in members(flows[a]):
                    flows[a] |= flows[b]
            # by program, by key
            for t in sessions:
                program = self.sessions[t].program
                key = self.accounts[self.sessions[t].account].key
                for s in sessions:
                    if program and flows[s] >> program & 1:
                        control[s] |= 1 << t
                    if key and flows[key] >> s & 1:
                        control[s] |= 1 << t
            # outward, inward
            for s in free:
                for t in members(control[s]):
                    flows[s] |= flows[t]
                for e in flows:
                    if flows[e] & control[s]:
                        flows[e] |= 1 << s
        self.flows, self.control = flows, control


def members(row):
    """The numbers of a set that is a sum of 2^n."""
    while row:
        low = row & -row
        yield low.bit_length() - 1
        row ^= low


# ------------------------------------------------------------------------------------------------------------ start text

KEYS = ["root", "gate", "account", "role", "container", "object", "session", "right", "held", "access"]
COUNTS = {"root": 2, "gate": 1, "account": 5, "role": 5, "container": 4, "object": 3, "session": 5, "right": 3, "held": 2, "access": 3}


def is_level(n):
    return 0 <= n <= 65535


def is_entity(n):
    return 64 <= n <= 255


def is_session(n):
    return 1 <= n <= 63


def is_item(n):
    return 1 <= n <= 255


def is_set(n):
    return 0 <= n < BIG


def in_range(key, n):
    """The ranges of a line's numbers."""
    if key == "root":
        return is_level(n[0]) and n[1] <= 3
    if key == "gate":
        return is_entity(n[0])
    if key == "account":
        return n[0] <= 15 and is_level(n[1]) and n[2] <= 1 and is_set(n[3]) and (n[4] == 0 or is_entity(n[4]))
    if key == "role":
        sound = n[0] <= 31 and is_level(n[1]) and n[2] <= 1 and is_set(n[3]) and (n[4] == 0 or is_entity(n[4]))
        return sound and not (n[2] == 0 and n[3] != 0)
    if key == "container":
        return is_entity(n[0]) and is_level(n[1]) and n[2] <= 3 and is_entity(n[3])
    if key == "object":
        return is_entity(n[0]) and is_level(n[1]) and is_entity(n[2])
    if key == "session":
        return is_session(n[0]) and n[1] <= 15 and is_level(n[2]) and (n[3] == 0 or is_entity(n[3])) and n[4] <= 63
    if key == "right":
        return n[0] <= 31 and is_item(n[1]) and n[2] in RIGHTS and (n[1] >= 64 or n[2] == OWN)
    if key == "held":
        return is_session(n[0]) and n[1] <= 31
    return is_session(n[0]) and is_item(n[1]) and n[2] in ACCESSES and (n[1] >= 64 or n[2] == OWN)


def first_reading(text):
    """(0, lines), or (refusal, line)."""
    if len(text) > 32768:
        return 10, 0
    lines = []
    while text:
        at = len(lines) + 1
        body, end, text = text.partition(b"\n")
        found = entry(body) if end else None
        if found is None or found[0] not in COUNTS or len(found[1]) != COUNTS[found[0]]:
            return 11, at
        place = KEYS.index(found[0])
        if at <= 2:
            if place != at - 1:
                return 12, at
        elif place <= 1 or not (KEYS.index(lines[-1][0]), lines[-1][1]) < (place, found[1]):
            return 12, at
        if not in_range(*found):
            return 13, at
        lines.append(found)
    if len(lines) < 2:
        return 12, len(lines) + 1
    return 0, lines


def add_line(s, key, n):
    """What a line adds, unless an earlier one defined its number."""
    if key == "root":
        s.make(ROOT, Item("container", n[0], n[1]))
    elif key == "gate":
        s.gate = n[0]
    elif key == "account":
        s.accounts.setdefault(n[0], Account(n[1], n[2] == 1, n[3], n[4]))
    elif key == "role":
        s.roles.setdefault(n[0], Role(n[1], n[2], n[3], n[4]))
    elif key == "container" and n[0] not in s.items:
        s.make(n[0], Item("container", n[1], n[2]), n[3])
    elif key == "object" and n[0] not in s.items:
        s.make(n[0], Item("object", n[1]), n[2])
    elif key == "session" and n[0] not in s.items:
        s.make(n[0], Item("session", n[2]))
        s.sessions[n[0]] = Session(n[1], n[3], n[4])
    elif key == "right":
        s.rights.add(n)
    elif key == "held":
        s.held.add(n)
        if n[0] in s.sessions:
            s.sessions[n[0]].life = s.sessions[n[0]].life | {n[1]}
    elif key == "access":
        s.accesses.add(n)


def line_needs(order, rule, everything, earlier, key, n):
    """The needs of a line in order: pairs of a refusal and a test."""
    al, ea = everything, earlier

    def thing(number):
        return number == 0 or al.is_defined(number, "object")

    def own_level(number):
        return 15, lambda: order.knows(number)

    if key == "root":
        return [own_level(n[0])]
    if key == "gate":
        return [
            (14, lambda: al.is_defined(n[0], "object")),
            (16, lambda: al.level(n[0]) == order.top),
        ]
    if key == "account":
        number, level, _, roles, k = n
        return [
            (14, lambda: number not in ea.accounts),
            (14, lambda: all(r in al.roles for r in roles_of(roles))),
            (14, lambda: thing(k)),
            own_level(level),
            (16, lambda: all(order.below(al.roles[r].level, level) for r in roles_of(roles))),
            (16, lambda: k == 0 or al.level(k) == level),
        ]
    if key == "role":
        number, level, _, manages, k = n
        return [
            (14, lambda: number not in ea.roles),
            (14, lambda: all(r in al.roles and not al.roles[r].administrative for r in roles_of(manages))),
            (14, lambda: thing(k)),
            own_level(level),
        ]
    if key == "container":
        number, level, _, holder = n
        return [
            (14, lambda: number not in ea.items),
            (14, lambda: al.is_defined(holder, "container") and holder < number),
            own_level(level),
            (16, lambda: order.below(level, al.level(holder))),
        ]
    if key == "object":
        number, level, holder = n
        return [
            (14, lambda: number not in ea.items),
            (14, lambda: al.is_defined(holder, "container")),
            own_level(level),
            (16, lambda: order.below(level, al.level(holder))),
        ]
    if key == "session":
        number, account, level, program, parent = n
        return [
            (14, lambda: number not in ea.items),
            (14, lambda: account in al.accounts),
            (14, lambda: thing(program)),
            (14, lambda: parent == 0 or (al.is_defined(parent, "session") and parent < number)),
            own_level(level),
            (16, lambda: order.below(level, al.accounts[account].level)),
            (16, lambda: parent == 0 or order.below(level, al.level(parent))),
        ]
    if key == "right":
        role, item, right = n
        return [
            (14, lambda: role in al.roles and item in al.items),
            (16, lambda: right not in (WRITE, OWN) or order.below(al.level(item), al.roles[role].level)),
        ]
    if key == "held":
        session, role = n
        return [
            (14, lambda: al.is_defined(session, "session") and role in al.roles),
            (14, lambda: role in al.accounts[al.sessions[session].account].takes),
            (16, lambda: order.below(al.roles[role].level, al.level(session))),
            (18, lambda: rule.allows(al.sessions[session].account, ea.sessions[session].life, role)),
        ]
    session, item, access = n
    return [
        (14, lambda: al.is_defined(session, "session") and item in al.items),
        (16, lambda: access not in (WRITE, OWN) or order.below(al.level(item), al.level(session))),
        (17, lambda: al.reaches(order, session, item)),
    ]


def first_failing(needs):
    for number, test in needs:
        if not test():
            return number
    return 0


def read_start(order, rule, text):
    """(0, 0, records), or (refusal, line, None)."""
    stop, found = first_reading(text)
    if stop:
        return stop, found, None
    everything = Records()
    for key, n in found:
        add_line(everything, key, n)
    earlier = Records()
    for at, (key, n) in enumerate(found, 1):
        stop = first_failing(line_needs(order, rule, everything, earlier, key, n))
        if stop:
            return stop, at, None
        add_line(earlier, key, n)
    everything.settle()
    return 0, 0, everything


# -------------------------------------------------------------------------------------------------------------- requests

NAMES = ["take", "drop", "grant", "revoke", "object", "container", "link", "unlink", "delete", "open", "close", "gain", "give up"]
GIVING = ("take", "grant", "object", "container", "link", "open", "gain")
FIELDS = ("k", "x", "v", "r", "y", "z", "l", "m")

ROLE = range(0, 32)
ENTITY = range(64, 256)
SESSION = range(1, 64)
ITEM = range(1, 256)
LEVEL = range(0, 65536)
MARK = range(0, 4)

# the numbers that each kind uses beside k, x and v
USES = {
    "take": {"r": ROLE},
    "drop": {"r": ROLE},
    "grant": {"r": ROLE, "y": ITEM, "m": RIGHTS},
    "revoke": {"r": ROLE, "y": ITEM, "m": RIGHTS},
    "object": {"r": ROLE, "y": ENTITY, "z": ENTITY, "l": LEVEL},
    "container": {"r": ROLE, "y": ENTITY, "z": ENTITY, "l": LEVEL, "m": MARK},
    "link": {"y": ENTITY, "z": ENTITY},
    "unlink": {"y": ENTITY, "z": ENTITY},
    "delete": {"y": ENTITY, "z": ENTITY},
    "open": {"r": ROLE, "y": ENTITY, "z": SESSION, "l": LEVEL},
    "close": {"y": SESSION},
    "gain": {"y": ITEM, "m": ACCESSES},
    "give up": {"y": ITEM, "m": ACCESSES},
}


class Request:
    def __init__(self, numbers):
        self.numbers = tuple(numbers)
        self.k, self.x, self.v, self.r, self.y, self.z, self.l, self.m = self.numbers
        self.name = NAMES[self.k - 1] if 1 <= self.k <= 13 else None


def form_of(numbers, used, always):
    """20 and 21 of named numbers: those used with their ranges, and those always used."""
    if any(n != 0 for field, n in numbers.items() if field not in used and field not in always):
        return 20
    ranges = {**always, **used}
    if any(numbers[field] not in allowed for field, allowed in ranges.items()):
        return 21
    return 0


def request_needs(s, order, rule, q):
    """The needs of a request of a good form, in order."""
    x, v, r, y, z, l, m = q.x, q.v, q.r, q.y, q.z, q.l, q.m

    def managed():
        return any(s.roles[a].administrative and r in s.roles[a].manages for a in s.roles_held(x))

    def unlocked():
        key = s.roles[r].key
        return key == 0 or (x, key, READ) in s.accesses

    def vouched(level):
        return level != order.top or (v, s.gate, WRITE) in s.accesses

    def is_free():
        keys = {a.key for a in s.accounts.values()} | {a.key for a in s.roles.values()}
        return y != ROOT and y != s.gate and y not in keys

    def holders():
        return {c for c, e in s.holdings if e == y}

    def may_empty():
        return (x, z, WRITE) in s.accesses and (s.items[z].mark not in (2, 3) or s.entitled(x, y, OWN))

    def role_level():
        return s.roles[r].level

    needs = [(30, lambda: s.is_live(x, "session") and s.is_live(v, "session"))]
    if q.name == "take":
        return needs + [
            (40, lambda: r in s.accounts[s.sessions[x].account].takes),
            (41, unlocked),
            (50, lambda: order.below(role_level(), s.level(x))),
            (51, lambda: vouched(role_level())),
            (60, lambda: rule.allows(s.sessions[x].account, s.sessions[x].life, r)),
        ]
    if q.name == "drop":
        return needs + [
            (40, lambda: (x, r) in s.held),
            (41, unlocked),
            (51, lambda: vouched(role_level())),
        ]
    if q.name == "grant":
        return needs + [
            (31, lambda: s.is_live(y)),
            (40, managed),
            (42, lambda: (x, y, OWN) in s.accesses),
            (50, lambda: order.below(role_level(), s.level(x))),
            (50, lambda: m not in (WRITE, OWN) or order.below(s.level(y), role_level())),
            (51, lambda: vouched(s.level(y))),
        ]
    if q.name == "revoke":
        return needs + [
            (31, lambda: s.is_live(y)),
            (40, managed),
            (42, lambda: (x, y, OWN) in s.accesses and (r, y, m) in s.rights),
            (50, lambda: order.below(role_level(), s.level(x))),
            (51, lambda: vouched(s.level(y))),
        ]
    if q.name in ("object", "container"):
        return needs + [
            (31, lambda: s.is_live(z, "container")),
            (32, lambda: y not in s.items),
            (40, managed),
            (42, lambda: (x, z, WRITE) in s.accesses),
            (50, lambda: order.below(l, role_level()) and order.below(role_level(), s.level(x)) and order.below(l, s.level(z))),
            (51, lambda: vouched(s.level(z))),
        ]
    if q.name == "link":
        return needs + [
            (31, lambda: s.is_live(y, "object") and s.is_live(z, "container")),
            (33, is_free),
            (42, lambda: (x, z, WRITE) in s.accesses),
            (50, lambda: order.below(s.level(y), s.level(z))),
            (51, lambda: vouched(s.level(z))),
        ]
    if q.name == "unlink":
        return needs + [
            (31, lambda: s.is_live(y, "object") and s.is_live(z, "container")),
            (33, is_free),
            (34, lambda: z in holders()),
            (35, lambda: holders() - {z}),
            (42, may_empty),
            (51, lambda: vouched(s.level(z))),
        ]
    if q.name == "delete":
        return needs + [
            (31, lambda: s.is_live(y) and s.is_live(z, "container")),
            (33, is_free),
            (34, lambda: z in holders()),
            (35, lambda: not holders() - {z} and not any(c == y for c, _ in s.holdings)),
            (42, may_empty),
            (51, lambda: vouched(s.level(z))),
        ]
    if q.name == "open":
        return needs + [
            (31, lambda: s.is_live(y, "object")),
            (32, lambda: z not in s.items),
            (40, managed),
            (42, lambda: s.entitled(x, y, EXECUTE)),
            (43, lambda: s.reaches(order, x, y)),
            (50, lambda: order.below(l, role_level()) and order.below(role_level(), s.level(x))),
            (51, lambda: vouched(l)),
        ]
    if q.name == "close":
        return needs + [
            (31, lambda: s.is_live(y, "session")),
            (42, lambda: (x, y, OWN) in s.accesses),
            (50, lambda: order.below(s.level(y), s.level(x))),
            (51, lambda: vouched(s.level(y))),
        ]
    if q.name == "gain":
        return needs + [
            (31, lambda: s.is_live(y)),
            (42, lambda: s.entitled(x, y, m)),
            (43, lambda: s.reaches(order, x, y)),
            (51, lambda: m == READ or vouched(s.level(y))),
        ]
    return needs + [
        (31, lambda: s.is_live(y)),
        (42, lambda: (x, y, m) in s.accesses),
    ]


def carry_out(s, q):
    """The effect of an accepted request, before flows and control follow."""
    x, r, y, z, l, m = q.x, q.r, q.y, q.z, q.l, q.m
    if q.name == "take":
        s.take(x, r)
    elif q.name == "drop":
        s.held.remove((x, r))
    elif q.name == "grant":
        s.rights.add((r, y, m))
    elif q.name == "revoke":
        s.rights.remove((r, y, m))
    elif q.name == "object":
        s.make(y, Item("object", l), z)
        s.rights.add((r, y, OWN))
    elif q.name == "container":
        s.make(y, Item("container", l, m), z)
        s.rights.add((r, y, OWN))
    elif q.name == "link":
        s.holdings.add((z, y))
    elif q.name == "unlink":
        s.holdings.remove((z, y))
    elif q.name in ("delete", "close"):
        s.forget(y)
    elif q.name == "open":
        s.make(z, Item("session", l))
        s.sessions[z] = Session(s.sessions[x].account, y, x)
        s.accesses.add((x, z, OWN))
        s.rights.add((r, z, OWN))
    elif q.name == "gain":
        s.accesses.add((x, y, m))
    else:
        s.accesses.remove((x, y, m))


# --------------------------------------------------------------------------------------------------------------- monitor

# the numbers that each question uses beside q
ASKS = {
    1: {"a": ROLE, "b": ITEM, "m": RIGHTS},
    2: {"a": SESSION, "b": ROLE},
    3: {"a": SESSION, "b": ITEM, "m": ACCESSES},
    4: {"a": ITEM, "b": ITEM},
    5: {"a": SESSION, "b": SESSION},
    6: {"a": SESSION, "b": ITEM},
}


class Monitor:
    """One block under one order and one rule, and its five calls."""

    def __init__(self, order, rule):
        self.order, self.rule = order, rule
        self.records = None  # blank
        self.text = None
        self.kept = []  # the accepted requests that give

    def start(self, text):
        """(answer, line)"""
        if self.records is not None:
            return 2, 0
        answer, line, records = read_start(self.order, self.rule, text)
        if answer == 0:
            self.records, self.text = records, text
        return answer, line

    def check(self, numbers):
        """The answer that a request would have; nothing is changed."""
        if self.records is None:
            return 1
        q = Request(numbers)
        if q.name is None:
            return 20
        used = USES[q.name]
        stop = form_of(dict(zip(FIELDS[1:], q.numbers[1:])), used, {"x": SESSION, "v": SESSION})
        if stop:
            return stop
        if used.get("m") in (RIGHTS, ACCESSES) and q.y <= 63 and q.m != OWN:
            return 21
        if "l" in used and not self.order.knows(q.l):
            return 22
        return first_failing(request_needs(self.records, self.order, self.rule, q))

    def request(self, numbers):
        answer = self.check(numbers)
        if answer == 0:
            q = Request(numbers)
            carry_out(self.records, q)
            self.records.settle()
            if q.name in GIVING:
                self.kept.append(q.numbers)
        return answer

    def list(self, requests):
        """(answer, answers of the records)"""
        if self.records is None:
            return 1, []
        if len(requests) > 1024:
            return 3, []
        return 0, [self.request(q) for q in requests]

    def question(self, q, a, b, m):
        """True, False, or the number of a refusal (which is an int and no bool)."""
        s = self.records
        if s is None:
            return 1
        if q not in ASKS:
            return 20
        stop = form_of({"a": a, "b": b, "m": m}, ASKS[q], {})
        if stop:
            return stop
        if q in (1, 3) and b <= 63 and m != OWN:
            return 21
        if q == 1:
            return (a, b, m) in s.rights
        if q == 2:
            return (a, b) in s.held
        if q == 3:
            return (a, b, m) in s.accesses
        if q == 4:
            return s.has_flow(a, b)
        if q == 5:
            return s.has_control(a, b)
        return s.is_live(a) and s.is_live(b) and s.reaches(self.order, a, b)

    def report(self, length=None):
        """(0, bytes), or (refusal, b'')"""
        s = self.records
        if s is None:
            return 1, b""
        pairs = sorted((a, b) for a in s.control for b in members(s.control[a]) if a != b)
        out = b"".join(b"control=%d,%d\n" % p for p in pairs)
        if length is not None and len(out) > length:
            return 4, b""
        return 0, out

    def replay(self):
        """(how many requests are kept, how many of them a fresh block accepts, whether all that stands here stands there)"""
        if self.records is None:
            return 0, 0, True
        fresh = Monitor(self.order, self.rule)
        fresh.start(self.text)
        accepted = sum(fresh.request(q) == 0 for q in self.kept)
        return len(self.kept), accepted, self.records.facts() <= fresh.records.facts()


# -------------------------------------------------------------------------------------------------------------- programs


def cut_text(data):
    """The start text, up to an empty line or the end, and what is behind the empty line."""
    if data.startswith(b"\n"):
        return b"", data[1:]
    text, end, rest = data.partition(b"\n\n")
    return (text + b"\n", rest) if end else (data, b"")


def pedal(data):
    monitor = Monitor(Ladder(), Separation())
    text, rest = cut_text(data)
    answer, line = monitor.start(text)
    if answer:
        return b"start=%d,%d\n" % (answer, line)
    out = []
    for body in lines_of(rest):
        numbers = small(body, "request", 8)
        out.append(b"answer=%d\n" % (11 if numbers is None else monitor.request(numbers)))
    return b"".join(out) + monitor.report()[1]


class Halt(Exception):
    """A line of the script at fault."""


def order_of(line):
    orders = {b"order=ladder": Ladder, b"order=badges": Badges}
    if line not in orders:
        raise Halt
    return orders[line]()


def rule_of(line):
    name, comma, rest = line.partition(b",")
    numbers = [numeral(f) for f in rest.split(b",")] if comma else []
    if None in numbers or BIG in numbers:
        raise Halt
    try:
        if name == b"rule=separation" and len(numbers) % 2 == 0:
            return Separation(zip(numbers[::2], numbers[1::2]))
        if name == b"rule=quota" and len(numbers) == 2:
            return Quota(*numbers)
    except ValueError:
        pass
    raise Halt


class Script:
    """The lines of a script, read in turn."""

    def __init__(self, data):
        self.left, self.at = data, 0

    def more(self):
        return self.left != b""

    def line(self):
        self.at += 1
        if not self.left:
            raise Halt
        body, _, self.left = self.left.partition(b"\n")
        return body

    def text(self):
        text, rest = cut_text(self.left)
        self.at += self.left[: len(self.left) - len(rest)].count(b"\n")
        self.left = rest
        return text


def bench_call(monitor, script, put):
    line = script.line()
    if line == b"start":
        put(b"start=%d,%d\n" % monitor.start(script.text()))
    elif line == b"replay":
        count, accepted, stands = monitor.replay()
        put(b"replay=%d,%d\n" % (count, accepted))
        put(b"stands=yes\n" if stands else b"stands=no\n")
    elif small(line, "request", 8):
        put(b"answer=%d\n" % monitor.request(small(line, "request", 8)))
    elif small(line, "list", 1):
        records = []
        for _ in range(small(line, "list", 1)[0]):
            numbers = small(script.line(), "request", 8)
            if numbers is None:
                raise Halt
            records.append(numbers)
        answer, answers = monitor.list(records)
        put(b"list=%d\n" % answer)
        for n in answers:
            put(b"answer=%d\n" % n)
    elif small(line, "question", 4):
        answer = monitor.question(*small(line, "question", 4))
        put(b"refused=%d\n" % answer if type(answer) is int else b"yes\n" if answer else b"no\n")
    elif small(line, "report", 1) and small(line, "report", 1)[0] <= 1048576:
        answer, report = monitor.report(small(line, "report", 1)[0])
        put(b"refused=%d\n" % answer if answer else b"report=%d\n" % len(report) + report)
    else:
        raise Halt


def bench(data):
    script, out = Script(data), []
    try:
        order = order_of(script.line())
        rule = rule_of(script.line())
        monitor = Monitor(order, rule)
        while script.more():
            bench_call(monitor, script, out.append)
    except Halt:
        out.append(b"script=%d\n" % script.at)
    return b"".join(out)


def main():
    if sys.argv[1:] not in ([], ["--bench"]):
        sys.exit("oracle.py [--bench] < input")
    program = bench if sys.argv[1:] else pedal
    sys.stdout.buffer.write(program(sys.stdin.buffer.read()))


if __name__ == "__main__":
    main()
