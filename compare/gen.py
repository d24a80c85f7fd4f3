#!/usr/bin/env python3
"""Random inputs for the programs `pedal` and `bench`.

    gen.py SEED N [DIR]            writes the N inputs SEED-1.in .. SEED-N.in for `pedal` into DIR (default: random)
    gen.py SEED --one I            writes the I-th of them to standard output
    gen.py --bench SEED N [DIR]    the same with scripts for `bench`; so does gen.py --bench SEED --one I

The same SEED gives the same inputs. Most start texts are sound and give many rights; about one in five is damaged. Requests are
proposed from what stands at that moment, so most are accepted; some are made of odd numbers, and a few lines are malformed. What
stands is followed with oracle.py, which decides nothing here but what is worth proposing.
"""
import os
import random
import sys

import oracle
from oracle import ACCESSES, EXECUTE, OWN, READ, RIGHTS, ROOT, WRITE

ODD = [0, 1, 2, 3, 4, 5, 7, 8, 9, 10, 13, 14, 15, 16, 31, 32, 63, 64, 65, 66, 128, 254, 255, 256, 65535, 65536, 4294967295]


# ---------------------------------------------------------------------------------------------------------- start texts


class Setup:
    """A sound start text, drawn at random."""

    def __init__(self, rng, order, rule):
        self.rng, self.order, self.rule = rng, order, rule
        self.codes = [0, 1, 3, 5, 7, 12, 14, 15] if order.top == 15 else [0, 1, 2, 3, 5, 6, 7, 85, 170, 254, 255]
        self.lines = []
        self.draw()

    def under(self, *tops):
        """A level at or below all of these; often one of them."""
        rng = self.rng
        fit = [c for c in self.codes + list(tops) if all(self.order.below(c, t) for t in tops)]
        same = [t for t in tops if t in fit]
        return rng.choice(same) if same and rng.random() < 0.5 else rng.choice(fit)

    def some(self, things, chance):
        return [t for t in things if self.rng.random() < chance]

    def draw(self):
        rng, order = self.rng, self.order
        top = order.top
        wide = rng.random() < 0.1
        # entities
        numbers = list(range(65, 256))
        if rng.random() < 0.3:
            rng.shuffle(numbers)
        count = rng.randint(1, 40 if wide else 6)
        containers = sorted(numbers[:count])
        free = numbers[count:]
        self.level = {ROOT: top}
        self.mark = {ROOT: rng.choice([0, 0, 0, 1, 2, 3])}
        self.holder = {}
        held_in = [ROOT]
        for c in containers:
            h = rng.choice(held_in)
            self.holder[c] = h
            self.level[c] = self.under(self.level[h])
            self.mark[c] = rng.choice([0, 0, 1, 2, 3])
            held_in.append(c)
        objects = sorted(free[: rng.randint(2, 60 if wide else 9)])
        for e in objects:
            h = rng.choice(held_in)
            self.holder[e] = h
            self.level[e] = self.under(self.level[h])
        high = [e for e in objects if self.level[e] == top]
        if not high:
            self.holder[objects[0]], self.level[objects[0]] = ROOT, top
            high = objects[:1]
        gate = rng.choice(high)
        # roles and accounts
        pool = range(32) if wide or rng.random() < 0.4 else range(8)
        roles = sorted(rng.sample(pool, rng.randint(2, 20 if wide else 7)))
        kind = {r: 1 if rng.random() < 0.4 else 0 for r in roles}
        if rng.random() < 0.9:
            kind[rng.choice(roles)] = 1
        role_level = {r: rng.choice(self.codes + [top] * 4) for r in roles}
        plain = [r for r in roles if kind[r] == 0]
        manages = {r: self.some(plain, 0.8) if kind[r] else [] for r in roles}
        role_key = {r: rng.choice(objects) if rng.random() < 0.2 else 0 for r in roles}
        accounts = sorted(rng.sample(range(16), rng.randint(1, 5)))
        account_level, takes, account_key, guarded = {}, {}, {}, {}
        for a in accounts:
            account_level[a] = top if rng.random() < 0.5 else rng.choice(self.codes)
            takes[a] = self.some([r for r in roles if order.below(role_level[r], account_level[a])], 0.9)
            fit = [e for e in objects if self.level[e] == account_level[a]]
            account_key[a] = rng.choice(fit) if fit and rng.random() < 0.5 else 0
            guarded[a] = 1 if rng.random() < 0.3 else 0
        # sessions
        sessions = sorted(rng.sample(range(1, 64), rng.randint(1, 40 if wide else 7)))
        if rng.random() < 0.5:
            sessions = list(range(1, len(sessions) + 1))
        account, program, parent = {}, {}, {}
        for i, s in enumerate(sessions):
            account[s] = rng.choice(accounts)
            parent[s] = rng.choice(sessions[:i]) if i and rng.random() < 0.5 else 0
            tops = [account_level[account[s]]] + ([self.level[parent[s]]] if parent[s] else [])
            self.level[s] = self.under(*tops)
            program[s] = rng.choice(objects) if rng.random() < 0.7 else 0
        # lines of the records
        add = self.lines.append
        total = lambda rs: sum(1 << r for r in rs)
        add(("root", (top, self.mark[ROOT])))
        add(("gate", (gate,)))
        for a in accounts:
            add(("account", (a, account_level[a], guarded[a], total(takes[a]), account_key[a])))
        for r in roles:
            add(("role", (r, role_level[r], kind[r], total(manages[r]), role_key[r])))
        for c in containers:
            add(("container", (c, self.level[c], self.mark[c], self.holder[c])))
        for e in objects:
            add(("object", (e, self.level[e], self.holder[e])))
        for s in sessions:
            add(("session", (s, account[s], self.level[s], program[s], parent[s])))
        # rights: to execute on most containers, and others
        rights = set()
        doors = rng.choice([0.3, 0.7, 0.95])
        much = rng.choice([0.1, 0.3, 0.5]) * (0.2 if wide else 1)
        for r in roles:
            for i in [ROOT] + containers:
                if rng.random() < doors:
                    rights.add((r, i, EXECUTE))
            for i in [ROOT] + containers + objects + sessions:
                for m in RIGHTS if i > 63 else (OWN,):
                    if rng.random() < much and (m in (READ, EXECUTE) or order.below(self.level[i], role_level[r])):
                        rights.add((r, i, m))
        for f in sorted(rights):
            add(("right", f))
        # held roles
        keen = rng.choice([0.3, 0.7, 0.9])
        for s in sessions:
            life = frozenset()
            for r in takes[account[s]]:
                if rng.random() < keen and order.below(role_level[r], self.level[s]):
                    if self.rule.allows(account[s], life, r):
                        add(("held", (s, r)))
                        life |= {r}
        # accesses to what is reached
        records = oracle.Records()
        for line in self.lines:
            oracle.add_line(records, *line)
        many = rng.choice([0.05, 0.15, 0.4]) * (0.1 if wide else 1)
        handy = rng.choice([0, 0.5, 0.9]) * (0.2 if wide else 1)
        for s in sessions:
            for i in sorted(sessions + [ROOT] + containers + objects):
                chance = 0.6 if i == gate and self.level[s] == top else many
                if i == ROOT or i in containers:
                    chance = max(chance, handy)
                if rng.random() < chance and records.reaches(order, s, i):
                    for m in ACCESSES if i > 63 else (OWN,):
                        if rng.random() < 0.6 and (m == READ or order.below(self.level[i], self.level[s])):
                            add(("access", (s, i, m)))

    def text(self):
        return b"".join(written(*line) for line in self.lines)


def written(key, numbers):
    return key.encode() + b"=" + b",".join(b"%d" % n for n in numbers) + b"\n"


def damaged(rng, lines):
    """The text with a fault or two, most often."""
    out = [written(*line) for line in lines]
    for _ in range(rng.choice([1, 1, 1, 2, 3])):
        i = rng.randrange(len(out))
        sort = rng.randrange(15)
        if sort == 0:
            del out[i]
            if not out:
                return b""
        elif sort == 1:
            j = rng.randrange(len(out))
            out[i], out[j] = out[j], out[i]
        elif sort == 2:
            out.insert(i, out[i])
        elif sort in (3, 4, 5, 6, 7, 8):
            # another number
            key, _, rest = out[i].partition(b"=")
            fields = rest.rstrip(b"\n").split(b",")
            near = [n + d for n in [oracle.numeral(f) or 0 for f in fields] for d in (-1, 1) if n + d >= 0]
            new = rng.choice(ODD + near + [4294967296, 10**30])
            fields[rng.randrange(len(fields))] = b"%d" % new
            out[i] = key + b"=" + b",".join(fields) + b"\n"
        elif sort == 9:
            at = rng.randrange(len(out[i]) + 1)
            out[i] = out[i][:at] + rng.choice([b"0", b" ", b",", b"=", b"\r", b"-", b"+", b"x", b"\xff", b"\x00", b"\n"]) + out[i][at:]
        elif sort == 10:
            at = rng.randrange(len(out[i]))
            out[i] = out[i][:at] + out[i][at + 1 :]
        elif sort == 11:
            key, _, rest = out[i].partition(b"=")
            out[i] = rng.choice(oracle.KEYS).encode() + b"=" + rest
        elif sort == 12:
            # one number more or less
            body = out[i].rstrip(b"\n")
            out[i] = (body + b",0" if rng.random() < 0.5 else body.rpartition(b",")[0]) + b"\n"
        elif sort == 13:
            # an object's number for a container's, or the other way
            key, _, rest = out[i].partition(b"=")
            fields = rest.rstrip(b"\n").split(b",")
            fields[-1] = rng.choice([b"64", b"65", b"66", b"67", b"1", b"2", b"0"])
            out[i] = key + b"=" + b",".join(fields) + b"\n"
        else:
            del out[i + 1 :]
            if rng.random() < 0.5:
                out[-1] = out[-1][:-1]
    return b"".join(out)


def bent(rng, lines, codes):
    """The text with a number or two replaced in range, its lines in order: the second reading decides."""
    ranges = {
        "root": (codes, range(4)),
        "gate": (range(64, 80),),
        "account": (range(16), codes, range(2), None, [0] + list(range(64, 80))),
        "role": (range(32), codes, range(2), None, [0] + list(range(64, 80))),
        "container": (range(64, 80), codes, range(4), range(64, 80)),
        "object": (range(64, 80), codes, range(64, 80)),
        "session": (range(1, 10), range(16), codes, [0] + list(range(64, 80)), range(10)),
        "right": (range(32), range(1, 80), RIGHTS),
        "held": (range(1, 10), range(32)),
        "access": (range(1, 10), range(1, 80), ACCESSES),
    }
    lines = list(lines)
    for _ in range(rng.choice([1, 1, 2, 4])):
        sort = rng.random()
        if sort < 0.2:
            # a container that no role may execute any more
            shut = rng.choice([line[1][1] for line in lines if line[0] == "right" and line[1][2] == EXECUTE] or [64])
            lines = [line for line in lines if line[0] != "right" or line[1][1:] != (shut, EXECUTE)]
            continue
        if sort < 0.4 and len(lines) > 3:
            del lines[rng.randrange(2, len(lines))]
            continue
        key = rng.choice(sorted({k for k, _ in lines}))
        i = rng.choice([j for j, line in enumerate(lines) if line[0] == key])
        n = list(lines[i][1])
        at = rng.randrange(len(n))
        taken = [line[1][at] for line in lines if line[0] == key]
        new = rng.choice(taken) if rng.random() < 0.4 else rng.choice(ranges[key][at] or [0, n[at] ^ 1 << rng.randrange(8)])
        n[at] = new
        if key == "role" and n[2] == 0:
            n[3] = 0
        if key in ("right", "access") and n[1] <= 63:
            n[2] = OWN
        lines[i] = (key, tuple(n))
    order = {k: i for i, k in enumerate(oracle.KEYS)}
    return b"".join(written(*line) for line in sorted(set(lines), key=lambda line: (order[line[0]], line[1])))


# -------------------------------------------------------------------------------------------------------------- requests


# kinds that lead to much stand here more than once
LIKELY = oracle.NAMES + ["gain", "gain", "object", "container", "link", "link", "open"]


def propose(rng, monitor, name):
    """A request of the kind, made of what stands."""
    s, order = monitor.records, monitor.order
    pick = lambda things, other: rng.choice(sorted(things)) if things else other
    sessions = [i for i in s.live if i <= 63]
    entities = [i for i in s.live if i > 63]
    objects = [i for i in entities if s.items[i].sort == "object"]
    containers = [i for i in entities if s.items[i].sort == "container"]
    vouchers = [t for (t, i, m) in s.accesses if i == s.gate and m == WRITE]
    x = pick(sessions, 1)
    v = pick(vouchers, x) if rng.random() < 0.85 else pick(sessions, 1)
    unused_entities = [i for i in range(64, 256) if i not in s.items][:6]
    unused_sessions = [i for i in range(1, 64) if i not in s.items][:4]

    def managers():
        return [(t, r) for (t, a) in s.held if s.roles[a].administrative for r in s.roles[a].manages]

    def write_to(t):
        return [i for (u, i, m) in s.accesses if u == t and m == WRITE and s.items[i].sort == "container"]

    r = y = z = l = m = 0
    if name == "take":
        takes = s.accounts[s.sessions[x].account].takes if x in s.live else frozenset()
        new = takes - s.sessions[x].life if x in s.live else takes
        r = pick(new if rng.random() < 0.7 else takes, 0)
    elif name == "drop":
        x, r = pick(s.held, (x, 0))
    elif name in ("grant", "revoke"):
        x, r = pick(managers(), (x, 0))
        owned = [i for (t, i, a) in s.accesses if t == x and a == OWN]
        y = pick(owned, 64)
        m = rng.choice(RIGHTS) if y > 63 else OWN
        if name == "revoke":
            r, y, m = pick([f for f in s.rights if f[1] in owned], (r, y, m))
    elif name in ("object", "container"):
        x, r = pick(managers(), (x, 0))
        y = pick(unused_entities, 64)
        z = pick(write_to(x), 64)
        levels = {s.level(z), s.roles[r].level, s.level(x)} if r in s.roles and x in s.live else {0}
        l = pick(levels | {0, order.top}, 0)
        m = rng.randrange(4) if name == "container" else 0
    elif name == "link":
        z = pick(write_to(x), 64)
        y = pick(objects, 65)
    elif name in ("unlink", "delete"):
        inside = [(c, e) for (c, e) in s.holdings if c in write_to(x)]
        if name == "unlink":
            inside = [(c, e) for (c, e) in inside if sum(f[1] == e for f in s.holdings) > 1] or inside
        z, y = pick(inside, (64, 65))
    elif name == "open":
        x, r = pick(managers(), (x, 0))
        y = pick([i for (a, i, a4) in s.rights if a4 == EXECUTE and (x, a) in s.held and i in objects], 65)
        z = pick(unused_sessions, 1)
        levels = {s.roles[r].level, s.level(x)} if r in s.roles and x in s.live else {0}
        l = pick(levels | {0}, 0)
    elif name == "close":
        x, y, _ = pick([f for f in s.accesses if f[1] <= 63], (x, x, OWN))
    elif name == "gain":
        mine = [(i, a) for (b, i, a) in s.rights if (x, b) in s.held and a in ACCESSES]
        y, m = pick(mine, (64, READ))
    else:
        x, y, m = pick(s.accesses, (x, 64, READ))
    return [oracle.NAMES.index(name) + 1, x, v, r, y, z, l, m]


def request(rng, monitor):
    """A request; most often one that is accepted."""
    if monitor.records is None:
        return [rng.choice(ODD) for _ in range(8)]
    name = rng.choice(LIKELY)
    q = propose(rng, monitor, name)
    sort = rng.random()
    if sort < 0.65:
        for i in range(24):
            if monitor.check(q) == 0:
                break
            if i % 8 == 7:
                name = rng.choice(LIKELY)
            q = propose(rng, monitor, name)
    elif sort < 0.82:
        pass
    elif sort < 0.96:
        field = rng.choice([0, 1, 2, 3, 3, 4, 4, 4, 5, 5, 5, 6, 7, 7])
        used = sorted(monitor.records.items)
        q[field] = rng.choice(ODD + used + used)
    else:
        q = [rng.randint(1, 13)] + [rng.choice(ODD) for _ in range(7)]
    return q


def request_line(rng, q):
    line = written("request", q)
    if rng.random() < 0.02:
        at = rng.randrange(len(line))
        line = line[:at] + rng.choice([b"", b"0", b" ", b"\r", b",", b"99999999999", b"=", b"\xc3"]) + line[at + rng.randint(0, 1) :]
    return line


def question(rng, monitor):
    """A question; about half of them about what stands."""
    s = monitor.records
    if s is None or rng.random() < 0.1:
        return [rng.choice([0, 1, 2, 3, 4, 5, 6, 7])] + [rng.choice(ODD) for _ in range(3)]
    if rng.random() < 0.5:
        fact = rng.choice(sorted(s.facts()))
        q = {"right": 1, "held": 2, "access": 3, "flow": 4, "control": 5}.get(fact[0], 6)
        if q == 6:
            fact = ("reach", rng.choice(sorted(s.sessions) or [1]), rng.choice(sorted(s.items)))
        q = [q] + (list(fact[1:]) + [0])[:3]
    else:
        ranges = {"a": sorted(s.roles) + [31], "s": sorted(s.sessions) + [63], "i": sorted(s.items) + [255], "m": [1, 2, 4, 8, 8], "-": [0]}
        kind = rng.randint(1, 6)
        q = [kind] + [rng.choice(ranges[c]) for c in {1: "aim", 2: "sa-", 3: "sim", 4: "ii-", 5: "ss-", 6: "si-"}[kind]]
    if rng.random() < 0.08:
        q[rng.randrange(4)] = rng.choice(ODD)
    return q


# ---------------------------------------------------------------------------------------------------------------- inputs


def start_text(rng, order, rule):
    setup = Setup(rng, order, rule if rng.random() < 0.9 else oracle.Separation())
    sort = rng.random()
    if sort < 0.1:
        return damaged(rng, setup.lines)
    if sort < 0.22:
        return bent(rng, setup.lines, setup.codes + [16, 256])
    return setup.text()


def pedal_input(rng):
    monitor = oracle.Monitor(oracle.Ladder(), oracle.Separation())
    text = start_text(rng, monitor.order, monitor.rule)
    out = [text]
    if rng.random() < 0.98:
        out.append(b"\n")
    monitor.start(oracle.cut_text(b"".join(out))[0])
    for _ in range(rng.choice([0, 5, 20, 40, 80])):
        q = request(rng, monitor)
        line = request_line(rng, q)
        numbers = oracle.small(line.rstrip(b"\n"), "request", 8)
        if numbers:
            monitor.request(numbers)
        out.append(line)
    data = b"".join(out)
    return data[:-1] if rng.random() < 0.05 else data


def bench_script(rng):
    ladder = rng.random() < 0.5
    order = oracle.Ladder() if ladder else oracle.Badges()
    head = b"order=ladder\n" if ladder else b"order=badges\n"
    if rng.random() < 0.5:
        pool = range(8) if rng.random() < 0.6 else range(32)
        pairs = [tuple(rng.sample(pool, 2)) for _ in range(rng.randint(0, 8))]
        rule = oracle.Separation(pairs)
        head += b"rule=separation" + b"".join(b",%d,%d" % p for p in pairs) + b"\n"
    else:
        group, most = rng.choice([rng.randrange(1 << 32), 255, 4294967295, 0]), rng.choice([0, 1, 2, 2, 3, 3, 4, 5, 8, 32])
        rule = oracle.Quota(group, most)
        head += b"rule=quota,%d,%d\n" % (group, most)
    if rng.random() < 0.03:
        head = head.replace(rng.choice([b"8", b",", b"l", b"=", b"1"]), rng.choice([b"9", b"", b"33", b",,"]), 1)
    monitor = oracle.Monitor(order, rule)
    out = [head]
    for _ in range(rng.choice([3, 10, 30, 60])):
        choice = rng.random()
        if choice < (0.7 if monitor.records is None else 0.02):
            text = start_text(rng, order, rule)
            monitor.start(oracle.cut_text(text + b"\n")[0])
            out.append(b"start\n" + text + b"\n")
        elif choice < 0.55:
            q = request(rng, monitor)
            monitor.request(q)
            out.append(written("request", q))
        elif choice < 0.65:
            count = rng.choice([0, 1, 2, 3, 8, 20]) if rng.random() < 0.98 else rng.choice([1024, 1025])
            out.append(b"list=%d\n" % count)
            one = request(rng, monitor)
            for _ in range(count):
                q = one if count > 20 else request(rng, monitor)
                if count <= 1024:
                    monitor.request(q)
                out.append(written("request", q))
        elif choice < 0.9:
            out.append(written("question", question(rng, monitor)))
        elif choice < 0.97:
            length = len(monitor.report()[1])
            out.append(b"report=%d\n" % rng.choice([0, max(length - 1, 0), length, length + 1, 1048576]))
        else:
            out.append(b"replay\n")
    out.append(b"report=1048576\nreplay\n")
    if rng.random() < 0.03:
        out.insert(rng.randrange(1, len(out)), rng.choice([b"\n", b"list=1\nreplay\n", b"report=1048577\n", b"question=1,2,3\n", b"stop\n"]))
    return b"".join(out)


def main():
    args = sys.argv[1:]
    make = pedal_input
    if args[:1] == ["--bench"]:
        make, args = bench_script, args[1:]
    if len(args) not in (2, 3):
        sys.exit("gen.py [--bench] SEED N [DIR] | gen.py [--bench] SEED --one I")
    seed = args[0]
    drawn = lambda i: make(random.Random("%s %s %d" % (make.__name__, seed, i)))
    if args[1] == "--one":
        sys.stdout.buffer.write(drawn(int(args[2])))
        return
    folder = args[2] if len(args) == 3 else "random"
    os.makedirs(folder, exist_ok=True)
    for i in range(1, int(args[1]) + 1):
        with open(os.path.join(folder, "%s-%d.in" % (seed, i)), "wb") as file:
            file.write(drawn(i))


if __name__ == "__main__":
    main()
