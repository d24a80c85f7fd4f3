//! What is timed.

use crate::blocks::{
    DEPTH, FIRST, GATE, GUEST, HERE, HOST, OBJECTS, THERE, by_host, deep, dense, last_of, relay, worked, workshop,
};
use crate::measure::{Calls, Case, Setup};
use peer::monitor::Question;
use peer::request::{Kind, Request};

/// The sessions and items of the dense block: all but three of the sessions' numbers, and all entities.
const DENSE: (u32, u32) = (60, 252);
/// The sessions of the relay chain.
const CHAIN: u32 = 61;
/// The numbers of entities that the workshop has free, and some of sessions.
const NEW_ENTITIES: std::ops::RangeInclusive<u32> = *OBJECTS.end() + 1..=255;
const NEW_SESSIONS: std::ops::RangeInclusive<u32> = 1..=40;

fn requests(name: &str, setup: Setup, requests: Vec<Request>, answer: u32) -> Case {
    Case { name: name.into(), setup, calls: Calls::Requests(requests), answer: Some(answer) }
}

fn on_objects(kind: Kind, request: impl Fn(u32) -> [u32; 5]) -> Vec<Request> {
    OBJECTS.map(|object| by_host(kind, request(object))).collect()
}

fn take(kind: Kind) -> Vec<Request> {
    (1..31).map(|role| by_host(kind, [role, 0, 0, 0, 0])).collect()
}

fn made(kind: Kind) -> Vec<Request> {
    NEW_ENTITIES.map(|y| by_host(kind, [0, y, HERE, 5, 0])).collect()
}

fn opened() -> Vec<Request> {
    NEW_SESSIONS.map(|z| by_host(Kind::Open, [0, *OBJECTS.start(), z, 5, 0])).collect()
}

fn closed() -> Vec<Request> {
    NEW_SESSIONS.map(|y| by_host(Kind::Close, [0, y, 0, 0, 0])).collect()
}

/// The thirteen kinds, each accepted; none but open adds a flow or control.
fn kinds() -> Vec<Case> {
    let after = |requests: &[Request]| Setup { requests: requests.to_vec(), ..workshop() };
    let granted = on_objects(Kind::Grant, |y| [1, y, 0, 0, 1]);
    let revoked = on_objects(Kind::Revoke, |y| [1, y, 0, 0, 1]);
    let linked = on_objects(Kind::Link, |y| [0, y, THERE, 0, 0]);
    let unlinked = on_objects(Kind::Unlink, |y| [0, y, THERE, 0, 0]);
    let deleted = on_objects(Kind::Delete, |y| [0, y, HERE, 0, 0]);
    let gained = on_objects(Kind::Gain, |y| [0, y, 0, 0, 2]);
    let given_up = on_objects(Kind::GiveUp, |y| [0, y, 0, 0, 2]);
    vec![
        requests("take", workshop(), take(Kind::Take), 0),
        requests("drop", after(&take(Kind::Take)), take(Kind::Drop), 0),
        requests("grant", workshop(), granted.clone(), 0),
        requests("revoke", after(&granted), revoked, 0),
        requests("object", workshop(), made(Kind::Object), 0),
        requests("container", workshop(), made(Kind::Container), 0),
        requests("link", workshop(), linked.clone(), 0),
        requests("unlink", after(&linked), unlinked, 0),
        requests("delete", workshop(), deleted, 0),
        requests("open, sparse block", workshop(), opened(), 0),
        requests("close", after(&opened()), closed(), 0),
        requests("gain by a guarded session", workshop(), gained.clone(), 0),
        requests("gain, a repeat", after(&gained), gained.clone(), 0),
        requests("give up", after(&gained), given_up, 0),
    ]
}

/// Refused first thing and last thing.
fn refusals() -> Vec<Case> {
    let often = |request: Request| vec![request; 1_000];
    let late = [Kind::Gain as u32, HOST, GUEST, 0, GATE, 0, 0, 2];
    vec![
        requests("refused: no such kind (20)", workshop(), often([14, 1, 1, 0, 0, 0, 0, 0]), 20),
        requests("refused: gain without voucher (51)", workshop(), often(late), 51),
    ]
}

fn gain(x: u32, y: u32, m: u32) -> Vec<Request> {
    vec![[Kind::Gain as u32, x, HOST, 0, y, 0, 0, m]]
}

/// Calls that add flows or control.
fn growing() -> Vec<Case> {
    let (sessions, items) = DENSE;
    let last = last_of(sessions, items);
    let opened = [Kind::Open as u32, HOST, HOST, 0, FIRST, sessions, 5, 0];
    vec![
        requests("gain that adds a flow, sparse block", workshop(), gain(GUEST, *OBJECTS.start(), 2), 0),
        requests("gain of write that adds flows, dense block", dense(sessions, items), gain(1, last, 2), 0),
        requests("gain of read that adds flows, dense block", dense(sessions, items), gain(1, last, 1), 0),
        requests("open, dense block", dense(sessions, items), vec![opened], 0),
        requests("gain that sets off a chain of 60 relays", relay(CHAIN), gain(1, FIRST + 2, 2), 0),
    ]
}

/// A list of 1,024: what stands comes and goes, and every tenth record is refused.
fn list() -> Case {
    let mut records = Vec::new();
    for y in OBJECTS {
        let role = 1 + y % 30;
        records.extend([
            by_host(Kind::Take, [role, 0, 0, 0, 0]),
            by_host(Kind::Gain, [0, y, 0, 0, 2]),
            by_host(Kind::Grant, [role, y, 0, 0, 1]),
            by_host(Kind::Link, [0, y, THERE, 0, 0]),
            by_host(Kind::Gain, [0, y, 0, 0, 4]),
            by_host(Kind::Unlink, [0, y, HERE, 0, 0]),
            by_host(Kind::Revoke, [role, y, 0, 0, 1]),
            by_host(Kind::GiveUp, [0, y, 0, 0, 2]),
            by_host(Kind::Drop, [role, 0, 0, 0, 0]),
            by_host(Kind::Delete, [0, y, THERE, 0, 0]),
        ]);
    }
    records.extend(made(Kind::Object).into_iter().take(1_024 - records.len()));
    Case { name: "list of 1,024, mixed".into(), setup: workshop(), calls: Calls::List(records), answer: Some(0) }
}

fn questions(name: &str, setup: Setup, questions: Vec<Question>) -> Case {
    Case { name: name.into(), setup, calls: Calls::Questions(questions), answer: None }
}

/// The six questions, each asked about many things.
fn asked() -> Vec<Case> {
    let (sessions, items) = DENSE;
    let dense = || dense(sessions, items);
    let each = |question: fn(u32) -> Question| (0..1_000).map(question).collect();
    vec![
        questions("question 1, right", dense(), each(|i| [1, i % 32, 64 + i % 192, 1 << (i % 4)])),
        questions("question 2, held role", dense(), each(|i| [2, 1 + i % 63, i % 32, 0])),
        questions("question 3, access", dense(), each(|i| [3, 1 + i % 63, 64 + i % 192, 1 + i % 2])),
        questions("question 4, flow", dense(), each(|i| [4, 1 + i % 255, 1 + i * 7 % 255, 0])),
        questions("question 5, control", dense(), each(|i| [5, 1 + i % 63, 1 + i * 7 % 63, 0])),
        questions("question 6, reach, one container", dense(), each(|i| [6, 1 + i % 59, 64 + i % 190, 0])),
        questions("question 6, reach, 180 containers deep", deep(), vec![[6, HOST, FIRST + DEPTH, 0]; 100]),
    ]
}

/// A gain that adds flows, on dense blocks of growing size.
fn growth() -> Vec<Case> {
    let sizes = [(4, 16), (4, 64), (4, 128), (4, 196), (16, 64), (16, 128), (16, 208), (63, 128), (63, 255)];
    let case = |(sessions, items)| {
        let name = format!("gain that adds flows, {sessions} sessions of {items} items");
        requests(&name, dense(sessions, items), gain(1, last_of(sessions, items), 2), 0)
    };
    sizes.into_iter().map(case).collect()
}

fn start(name: &str, text: Vec<u8>) -> Case {
    Case { name: name.into(), setup: Setup::default(), calls: Calls::Start(text), answer: Some(0) }
}

fn report() -> Case {
    let (sessions, items) = DENSE;
    Case { name: "report, dense block".into(), setup: dense(sessions, items), calls: Calls::Report, answer: None }
}

pub fn cases() -> Vec<Case> {
    let full = dense(63, 255).text;
    let starts = vec![
        start("start, the small text of RULES.md", worked()),
        start(&format!("start, a dense text of {} bytes", full.len()), full),
    ];
    [starts, kinds(), refusals(), growing(), vec![list(), report()], asked(), growth()].into_iter().flatten().collect()
}
