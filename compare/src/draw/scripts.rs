//! Whole inputs: scripts for `bench`, and texts with requests for `pedal`.

use super::ODD;
use super::asks::{Asker, odd_question, odd_request};
use super::damage::{bent, damaged, lengthened};
use super::random::Random;
use super::relays;
use super::texts::{Size, draw};
use crate::monitor::{Monitor, Question};
use crate::policy::{Badges, Ladder, LevelOrder, Quota, Separation};
use crate::request::Request;
use crate::script::{LONGEST_BUFFER, Policy};
use crate::sets::{ITEMS, SESSIONS, bits};
use crate::start;
use crate::state::State;
use crate::text::{Line, split_text, text_of};

fn size(random: &mut Random) -> Size {
    match random.below(20) {
        0..11 => Size::SMALL,
        11..18 => Size::MEDIUM,
        _ => Size::LARGE,
    }
}

/// The lines of a text that is sound, unless the rule says no to a held line.
fn lines(random: &mut Random, policy: &Policy) -> Vec<Line> {
    if random.percent(25) {
        return relays::draw(random, &policy.order);
    }
    let size = size(random);
    draw(random, &policy.order, &policy.rule, size)
}

/// A text that most often is sound.
fn start_text(random: &mut Random, policy: &Policy) -> Vec<u8> {
    let lines = lines(random, policy);
    match random.below(20) {
        0..3 => damaged(random, &lines),
        3..6 => bent(random, &lines),
        _ => text_of(&lines),
    }
}

/// A text that most often is at fault.
fn faulty_text(random: &mut Random, policy: &Policy) -> Vec<u8> {
    let lines = if random.percent(15) {
        draw(random, &policy.order, &Separation::default(), Size::SMALL)
    } else {
        draw(random, &policy.order, &policy.rule, Size::SMALL)
    };
    match random.below(100) {
        0 => lengthened(random, &lines),
        1..45 => damaged(random, &lines),
        _ => bent(random, &lines),
    }
}

/// The text without empty lines, its last line ended: a script can go on behind it.
fn enclosed(text: &[u8]) -> Vec<u8> {
    let lines = text.split(|&b| b == b'\n').filter(|line| !line.is_empty());
    lines.flat_map(|line| [line, b"\n"].concat()).collect()
}

/// A separation, with the line that names it.
fn separation(random: &mut Random) -> (String, Separation) {
    let roles = random.pick(&[8, 8, 32]);
    let mut pairs = Vec::new();
    for _ in 0..random.pick(&[0, 0, 1, 2, 3, 5, 8]) {
        let first = random.below(roles);
        let second = (first + random.between(1, roles - 1)) % roles;
        pairs.push((first as u32, second as u32));
    }
    let list: String = pairs.iter().map(|(a, b)| format!(",{a},{b}")).collect();
    (format!("rule=separation{list}"), Separation::new(&pairs).unwrap_or_default())
}

/// A quota, with the line that names it.
fn quota(random: &mut Random) -> (String, Option<Quota>) {
    let any = random.word() as u32;
    let group = random.pick(&[any, any, 255, u32::MAX, 0]);
    let most = random.pick(&[0, 1, 2, 3, 3, 4, 5, 8, 32]);
    (format!("rule=quota,{group},{most}"), Quota::new(group, most))
}

/// An order and a rule, with the two lines that name them.
fn policy(random: &mut Random) -> (String, Policy) {
    let (order_name, order): (_, Box<dyn LevelOrder>) = match random.below(2) {
        0 => ("ladder", Box::new(Ladder)),
        _ => ("badges", Box::new(Badges)),
    };
    let (rule_line, rule) = match quota(random) {
        (line, Some(quota)) if random.percent(50) => (line, Box::new(quota) as _),
        _ => {
            let (line, separation) = separation(random);
            (line, Box::new(separation) as _)
        }
    };
    (format!("order={order_name}\n{rule_line}\n"), Policy { order, rule })
}

/// A script that is being drawn; the monitor follows it, to know what is worth asking.
struct Draft {
    random: Random,
    policy: Policy,
    monitor: Monitor,
    out: Vec<u8>,
}

fn row(numbers: &[u32]) -> String {
    numbers.iter().map(u32::to_string).collect::<Vec<_>>().join(",")
}

/// Questions about the flows and the control that are in one state and not in the other.
fn changes(before: &State, after: &State) -> Vec<Question> {
    let mut changes = Vec::new();
    for a in 1..ITEMS {
        let (old, new) = (&before.flows[a], &after.flows[a]);
        let changed = old.without(new).iter().chain(new.without(old).iter());
        changes.extend(changed.map(|b| [4, a as u32, b as u32, 0]));
    }
    for s in 1..SESSIONS {
        let changed = bits(before.control[s] ^ after.control[s]);
        changes.extend(changed.map(|t| [5, s as u32, t as u32, 0]));
    }
    changes
}

impl Draft {
    fn say(&mut self, line: &str) {
        self.out.extend_from_slice(line.as_bytes());
        self.out.push(b'\n');
    }

    fn start(&mut self, text: &[u8]) {
        let text = enclosed(text);
        let _ = self.monitor.start(&self.policy.order, &self.policy.rule, &text);
        self.say("start");
        self.out.extend_from_slice(&text);
        self.out.push(b'\n');
    }

    fn next_request(&mut self) -> Request {
        match self.monitor.state() {
            Ok(state) => Asker { random: &mut self.random, policy: &self.policy, state }.request(),
            Err(_) => odd_request(&mut self.random),
        }
    }

    /// A request, which the monitor is given too.
    fn ask(&mut self, request: &Request) {
        let _ = self.monitor.request(&self.policy.order, &self.policy.rule, request);
        self.say(&format!("request={}", row(request)));
    }

    /// A request, and questions about what it changed.
    fn request(&mut self) {
        let before = self.monitor.clone();
        let request = self.next_request();
        self.ask(&request);
        self.probe(&before);
    }

    /// A session gives an access up, and later another comes to control it: what was left from before is to come along.
    fn hand_over(&mut self) {
        let Ok(state) = self.monitor.state() else { return };
        let handed = Asker { random: &mut self.random, policy: &self.policy, state }.hand_over();
        for request in handed.into_iter().flatten() {
            let before = self.monitor.clone();
            self.ask(&request);
            self.probe(&before);
        }
    }

    /// Asks about some of the flows and control that changed, and sometimes for the report.
    fn probe(&mut self, before: &Monitor) {
        let (Ok(before), Ok(after)) = (before.state(), self.monitor.state()) else { return };
        let changes = changes(before, after);
        if changes.is_empty() || self.random.percent(50) {
            return;
        }
        for _ in 0..4 {
            let question = self.random.pick(&changes);
            self.say(&format!("question={}", row(&question)));
        }
        if self.random.percent(30) {
            self.say(&format!("report={LONGEST_BUFFER}"));
        }
    }

    fn list(&mut self) {
        let count = match self.random.below(100) {
            0 => 1_025,
            1 => 1_024,
            _ => self.random.pick(&[0, 1, 2, 3, 8, 20, 50]),
        };
        self.say(&format!("list={count}"));
        for _ in 0..count {
            let request = self.next_request();
            if count <= 1_024 {
                self.ask(&request);
            } else {
                self.say(&format!("request={}", row(&request)));
            }
        }
    }

    fn question(&mut self) {
        let question = match self.monitor.state() {
            Ok(state) => Asker { random: &mut self.random, policy: &self.policy, state }.question(),
            Err(_) => odd_question(&mut self.random),
        };
        self.say(&format!("question={}", row(&question)));
    }

    fn report(&mut self) {
        let length = self.monitor.report(&mut vec![0; LONGEST_BUFFER]).unwrap_or(0);
        let length = self.random.pick(&[0, length.saturating_sub(1), length, length, length + 1, LONGEST_BUFFER]);
        self.say(&format!("report={length}"));
    }

    /// A second start, which is refused whatever its text is.
    fn start_again(&mut self) {
        let text = faulty_text(&mut self.random, &self.policy);
        self.start(&text);
    }

    fn call(&mut self) {
        match self.random.below(1_000) {
            0..660 => self.request(),
            660..700 => self.hand_over(),
            700..720 => self.list(),
            720..960 => self.question(),
            960..990 => self.report(),
            990..998 => self.start_again(),
            _ => self.say("replay"),
        }
    }

    /// Every question of flow, control and reach between some items, most of them with flows.
    fn sweep(&mut self) {
        let Ok(state) = self.monitor.state() else { return };
        let mut items: Vec<usize> = state.used.iter().collect();
        self.random.shuffle(&mut items);
        items.sort_by_key(|&i| state.flows[i].is_empty());
        items.truncate(16);
        for &a in &items {
            for &b in &items {
                self.say(&format!("question=4,{a},{b},0"));
                if a < 64 {
                    self.say(&format!("question=6,{a},{b},0"));
                }
                if a < 64 && b < 64 {
                    self.say(&format!("question=5,{a},{b},0"));
                }
            }
        }
    }
}

/// A script of about so many calls for `bench`.
pub fn script(mut random: Random, calls: usize) -> Vec<u8> {
    let (head, policy) = policy(&mut random);
    let mut draft = Draft { random, policy, monitor: Monitor::new(), out: head.into_bytes() };
    if draft.random.percent(20) {
        (0..draft.random.between(1, 20)).for_each(|_| draft.call());
    }
    if draft.random.percent(20) {
        return faulty_script(draft, calls / 4);
    }
    while draft.monitor.state().is_err() {
        let text = start_text(&mut draft.random, &draft.policy);
        draft.start(&text);
    }
    draft.say(&format!("report={LONGEST_BUFFER}"));
    (0..calls).for_each(|_| draft.call());
    draft.sweep();
    draft.say(&format!("report={LONGEST_BUFFER}"));
    draft.say("replay");
    draft.out
}

/// A script of starts that are refused. Its last text may end anywhere.
fn faulty_script(mut draft: Draft, starts: usize) -> Vec<u8> {
    for _ in 0..starts {
        let text = faulty_text(&mut draft.random, &draft.policy);
        let refused = start::read(&draft.policy.order, &draft.policy.rule, &enclosed(&text)).is_err();
        if refused {
            draft.start(&text);
        }
    }
    let mut text = enclosed(&faulty_text(&mut draft.random, &draft.policy));
    text.truncate(draft.random.below(text.len() + 1));
    draft.say("start");
    draft.out.extend(text);
    draft.out
}

/// A line of the second part for `pedal`: a request, and sometimes something like one.
fn request_line(random: &mut Random, request: &Request) -> Vec<u8> {
    let mut line = format!("request={}\n", row(request)).into_bytes();
    if random.percent(3) {
        let at = random.below(line.len());
        let end = at + random.below(2);
        let new: &[u8] = random.pick(&[b"", b"0", b" ", b"\r", b",", b"99999999999", b"=", b"\xc3", b"\n", b"-"]);
        line.splice(at..end, new.iter().copied());
    }
    if random.percent(1) {
        line = random.pick(&[&b"\n"[..], b"question=5,1,2,0\n", b"request=\n", b"request\n", b"x\n"]).to_vec();
    }
    line
}

/// An input of so many requests for `pedal`.
pub fn pedal_input(mut random: Random, requests: usize) -> Vec<u8> {
    let policy = Policy { order: Box::new(Ladder), rule: Box::new(Separation::default()) };
    let mut out = start_text(&mut random, &policy);
    let mut monitor = Monitor::new();
    if random.percent(98) {
        out.push(b'\n');
    }
    let _ = monitor.start(&policy.order, &policy.rule, split_text(&out).0);
    for _ in 0..if monitor.state().is_ok() { requests } else { 5 } {
        let request = match monitor.state() {
            Ok(state) => Asker { random: &mut random, policy: &policy, state }.request(),
            Err(_) => std::array::from_fn(|_| random.pick(&ODD)),
        };
        let _ = monitor.request(&policy.order, &policy.rule, &request);
        out.extend(request_line(&mut random, &request));
    }
    if random.percent(5) {
        out.pop();
    }
    out
}
