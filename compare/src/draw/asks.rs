//! Requests and questions, most of them about what stands.

use super::ODD;
use super::random::Random;
use crate::monitor::Question;
use crate::refusal::number_of;
use crate::request::{Kind, Request};
use crate::script::Policy;
use crate::sets::{ITEMS, ROLES, SESSIONS, bits, roles_of};
use crate::state::{Mode, State};
use crate::tally::kind_answers;

/// How often a request is drawn anew to get the answer that is wanted.
const TRIES: usize = 24;

const ACCESSES: [Mode; 3] = [Mode::Read, Mode::Write, Mode::Own];

/// Kinds that lead to much stand here too, besides all.
const LIKELY: [Kind; 9] = [
    Kind::Take,
    Kind::Grant,
    Kind::Object,
    Kind::Container,
    Kind::Link,
    Kind::Open,
    Kind::Gain,
    Kind::Gain,
    Kind::Gain,
];

/// Draws from what stands in a block.
pub struct Asker<'a> {
    pub random: &'a mut Random,
    pub policy: &'a Policy,
    pub state: &'a State,
}

/// The numbers of a request besides k.
#[derive(Default)]
struct Numbers {
    x: usize,
    v: usize,
    r: usize,
    y: usize,
    z: usize,
    l: u16,
    m: u32,
}

impl Asker<'_> {
    fn sessions(&self) -> Vec<usize> {
        bits(self.state.live.sessions()).collect()
    }

    fn session(&mut self) -> usize {
        let sessions = self.sessions();
        self.random.pick_or(&sessions, 1)
    }

    /// Most often one that holds roles.
    fn asking(&mut self) -> usize {
        let mut sessions = self.sessions();
        if self.random.percent(80) {
            sessions.retain(|&s| self.state.sessions[s].held != 0);
        }
        let other = self.session();
        self.random.pick_or(&sessions, other)
    }

    fn kind(&mut self) -> Kind {
        if self.random.percent(50) { self.random.pick(&Kind::ALL) } else { self.random.pick(&LIKELY) }
    }

    /// Most often one with write access to the gate.
    fn voucher(&mut self) -> usize {
        let vouchers: Vec<usize> = bits(self.state.accesses[Mode::Write as usize][self.state.gate]).collect();
        let other = self.session();
        if self.random.percent(85) { self.random.pick_or(&vouchers, other) } else { other }
    }

    /// A session and a role that it manages.
    fn managed(&mut self) -> (usize, usize) {
        let state = self.state;
        let manages = |s: usize, r: usize| state.roles[r].managers & state.sessions[s].held != 0;
        let pairs: Vec<(usize, usize)> = self
            .sessions()
            .into_iter()
            .flat_map(|s| (0..ROLES).map(move |r| (s, r)))
            .filter(|&(s, r)| manages(s, r))
            .collect();
        let other = self.session();
        self.random.pick_or(&pairs, (other, 0))
    }

    /// What the session has this access to, of all items.
    fn accessed(&self, session: usize, mode: Mode) -> Vec<usize> {
        self.state.live.iter().filter(|&i| self.state.has_access(session, i, mode)).collect()
    }

    fn objects(&self) -> Vec<usize> {
        self.state.live.iter().filter(|&i| self.state.is_object(i)).collect()
    }

    fn containers(&self) -> Vec<usize> {
        self.state.containers.iter().collect()
    }

    /// A container that the session writes to.
    fn written(&mut self, session: usize) -> usize {
        let accessed = self.accessed(session, Mode::Write);
        let written: Vec<usize> = accessed.into_iter().filter(|&i| self.state.is_container(i)).collect();
        let containers = self.containers();
        if self.random.percent(90) { self.random.pick_or(&written, 64) } else { self.random.pick_or(&containers, 64) }
    }

    /// A number that was never used; often one of the few lowest.
    fn unused(&mut self, from: usize, to: usize) -> usize {
        let unused: Vec<usize> = (from..to).filter(|&i| !self.state.used.has(i)).collect();
        let few = &unused[..unused.len().min(6)];
        if self.random.percent(50) { self.random.pick_or(few, from) } else { self.random.pick_or(&unused, from) }
    }

    fn level(&mut self, near: &[u16]) -> u16 {
        let top = self.policy.order.top();
        let codes = super::texts::codes(&self.policy.order);
        match self.random.below(10) {
            0 => top,
            1 => 0,
            2 => self.random.pick(codes),
            _ => self.random.pick(near),
        }
    }

    fn mode_on(&mut self, item: usize, modes: &[Mode]) -> u32 {
        if item < SESSIONS { Mode::Own.number() } else { self.random.pick(modes).number() }
    }

    fn take(&mut self, n: &mut Numbers) {
        let takes = self.state.account(n.x).takes;
        let new = takes & !self.state.sessions[n.x].life;
        let roles: Vec<usize> = roles_of(if self.random.percent(60) { new } else { takes }).collect();
        n.r = self.random.pick_or(&roles, 0);
    }

    fn drop(&mut self, n: &mut Numbers) {
        let roles: Vec<usize> = roles_of(self.state.sessions[n.x].held).collect();
        n.r = self.random.pick_or(&roles, 0);
    }

    fn grant(&mut self, n: &mut Numbers) {
        (n.x, n.r) = self.managed();
        let owned = self.accessed(n.x, Mode::Own);
        n.y = self.random.pick_or(&owned, 64);
        n.m = self.mode_on(n.y, &Mode::ALL);
    }

    fn revoke(&mut self, n: &mut Numbers) {
        self.grant(n);
        let state = self.state;
        let rights: Vec<(usize, Mode)> = (0..ROLES)
            .flat_map(|r| Mode::ALL.map(|mode| (r, mode)))
            .filter(|&(r, mode)| {
                state.has_right(r, n.y, mode) && state.roles[r].managers & state.sessions[n.x].held != 0
            })
            .collect();
        let (r, mode) = self.random.pick_or(&rights, (n.r, Mode::of(n.m)));
        (n.r, n.m) = (r, mode.number());
    }

    fn make(&mut self, n: &mut Numbers) {
        (n.x, n.r) = self.managed();
        n.z = self.written(n.x);
        n.y = self.unused(65, ITEMS);
        let (role, x, z) = (self.state.roles[n.r].level, self.state.levels[n.x], self.state.levels[n.z]);
        n.l = self.level(&[role, x, z]);
    }

    fn link(&mut self, n: &mut Numbers) {
        n.z = self.written(n.x);
        let objects = self.objects();
        n.y = self.random.pick_or(&objects, 65);
    }

    /// Unlink and delete: what lies in a container, elsewhere too or not.
    fn take_out(&mut self, n: &mut Numbers, elsewhere: bool) {
        n.z = self.written(n.x);
        let inside: Vec<usize> = self.state.contents[n.z].iter().collect();
        let fit = |&i: &usize| (self.state.holders[i].iter().count() > 1) == elsewhere && !self.state.protected.has(i);
        let fitting: Vec<usize> = inside.iter().copied().filter(fit).collect();
        let other = self.random.pick_or(&inside, 65);
        n.y = if self.random.percent(80) { self.random.pick_or(&fitting, other) } else { other };
    }

    fn open(&mut self, n: &mut Numbers) {
        (n.x, n.r) = self.managed();
        let objects = self.objects();
        let programs: Vec<usize> = objects.iter().copied().filter(|&o| self.state.may(n.x, o, Mode::Execute)).collect();
        let other = self.random.pick_or(&objects, 65);
        n.y = self.random.pick_or(&programs, other);
        n.z = self.unused(1, SESSIONS);
        n.l = self.level(&[self.state.roles[n.r].level, self.state.levels[n.x]]);
    }

    fn close(&mut self, n: &mut Numbers) {
        let owned = self.accessed(n.x, Mode::Own);
        let sessions: Vec<usize> = owned.into_iter().filter(|&i| i < SESSIONS).collect();
        let other = self.session();
        n.y = self.random.pick_or(&sessions, other);
    }

    fn gain(&mut self, n: &mut Numbers) {
        let state = self.state;
        let rights: Vec<(usize, Mode)> = state
            .live
            .iter()
            .flat_map(|i| ACCESSES.map(|mode| (i, mode)))
            .filter(|&(i, mode)| state.may(n.x, i, mode))
            .collect();
        let adding: Vec<(usize, Mode)> =
            rights.iter().copied().filter(|&(i, mode)| state.gain_adds(n.x, i, mode)).collect();
        let any = self.random.pick_or(&rights, (64, Mode::Read));
        let (y, mode) = if self.random.percent(50) { self.random.pick_or(&adding, any) } else { any };
        (n.y, n.m) = (y, mode.number());
    }

    fn give_up(&mut self, n: &mut Numbers) {
        let mode = self.random.pick(&ACCESSES);
        let accessed = self.accessed(n.x, mode);
        n.y = self.random.pick_or(&accessed, 64);
        n.m = mode.number();
    }

    /// A request of the kind, made of what stands.
    fn propose(&mut self, kind: Kind) -> Request {
        let mut n = Numbers { x: self.asking(), v: self.voucher(), ..Numbers::default() };
        match kind {
            Kind::Take => self.take(&mut n),
            Kind::Drop => self.drop(&mut n),
            Kind::Grant => self.grant(&mut n),
            Kind::Revoke => self.revoke(&mut n),
            Kind::Object => self.make(&mut n),
            Kind::Container => {
                self.make(&mut n);
                n.m = self.random.below(4) as u32;
            }
            Kind::Link => self.link(&mut n),
            Kind::Unlink => self.take_out(&mut n, true),
            Kind::Delete => self.take_out(&mut n, false),
            Kind::Open => self.open(&mut n),
            Kind::Close => self.close(&mut n),
            Kind::Gain => self.gain(&mut n),
            Kind::GiveUp => self.give_up(&mut n),
        }
        let [x, v, r, y, z] = [n.x, n.v, n.r, n.y, n.z].map(|n| n as u32);
        [kind as u32, x, v, r, y, z, n.l.into(), n.m]
    }

    /// Another number in one or two of the eight places.
    fn bend(&mut self, request: &mut Request) {
        let used: Vec<u32> = self.state.used.iter().map(|i| i as u32).collect();
        for _ in 0..self.random.between(1, 2) {
            let at = self.random.pick(&[0, 1, 2, 3, 3, 3, 4, 4, 4, 5, 5, 5, 6, 6, 7]);
            request[at] = match self.random.below(3) {
                0 => self.random.pick(&ODD),
                _ if at == 3 => self.random.below(ROLES) as u32,
                _ if at == 6 => self.random.pick(super::texts::codes(&self.policy.order)).into(),
                _ => self.random.pick_or(&used, 1),
            };
        }
    }

    fn number(&self, request: &Request) -> u32 {
        number_of(self.state.try_request(&self.policy.order, &self.policy.rule, request).map(|_| ()))
    }

    /// A request that is accepted, if some tries find one; of this kind, if a few do.
    fn accepted(&mut self, mut kind: Kind) -> Request {
        let mut request = self.propose(kind);
        for i in 1..=TRIES {
            if self.number(&request) == 0 {
                break;
            }
            if i % 8 == 0 {
                kind = self.kind();
            }
            request = self.propose(kind);
        }
        request
    }

    /// A request of the kind that is refused so, if some tries find one.
    fn refused(&mut self, kind: Kind, number: u32) -> Request {
        let mut request = self.propose(kind);
        for _ in 0..TRIES {
            if self.number(&request) == number {
                break;
            }
            request = self.propose(kind);
            if self.random.percent(50) {
                self.bend(&mut request);
            }
        }
        request
    }

    /// A request; most often one that is accepted.
    pub fn request(&mut self) -> Request {
        let kind = self.kind();
        match self.random.below(100) {
            0..65 => self.accepted(kind),
            65..88 => {
                let number = self.random.pick(kind_answers(kind));
                self.refused(kind, number)
            }
            88..98 => {
                let mut request = self.propose(kind);
                self.bend(&mut request);
                request
            }
            _ => odd_request(self.random),
        }
    }

    /// An unguarded session gives up an access, and another, which has no such flow, gains own access to it.
    pub fn hand_over(&mut self) -> Option<[Request; 2]> {
        let state = self.state;
        let mut cases = Vec::new();
        for (session, mode) in bits(state.unguarded).flat_map(|s| [(s, Mode::Read), (s, Mode::Write)]) {
            for item in self.accessed(session, mode) {
                let lacks = |s: usize| match mode {
                    Mode::Read => !state.flows[item].has(s),
                    _ => !state.flows[s].has(item),
                };
                let heirs = bits(state.unguarded).filter(|&s| lacks(s) && state.may(s, session, Mode::Own));
                cases.extend(heirs.map(|heir| (session, mode, item, heir)));
            }
        }
        if cases.is_empty() {
            return None;
        }
        let (session, mode, item, heir) = self.random.pick(&cases);
        let [session, item, heir, voucher] = [session, item, heir, self.voucher()].map(|n| n as u32);
        let given_up = [Kind::GiveUp as u32, session, session, 0, item, 0, 0, mode.number()];
        let gained = [Kind::Gain as u32, heir, voucher, 0, session, 0, 0, Mode::Own.number()];
        Some([given_up, gained])
    }

    /// The numbers of a question about something that stands, most often.
    fn about(&mut self, q: u32) -> [usize; 3] {
        let items: Vec<usize> = self.state.live.iter().collect();
        let item = self.random.pick(&items);
        let (a, b) = (self.session(), self.session());
        match q {
            1 => {
                let mode = Mode::of(self.mode_on(item, &Mode::ALL));
                let roles: Vec<usize> = roles_of(self.state.rights[mode as usize][item]).collect();
                [self.random.pick_or(&roles, 0), item, mode.number() as usize]
            }
            2 => {
                let roles: Vec<usize> = roles_of(self.state.sessions[a].held).collect();
                [a, self.random.pick_or(&roles, 0), 0]
            }
            3 => {
                let mode = Mode::of(self.mode_on(item, &ACCESSES));
                let sessions: Vec<usize> = bits(self.state.accesses[mode as usize][item]).collect();
                [self.random.pick_or(&sessions, 1), item, mode.number() as usize]
            }
            4 => {
                let receivers: Vec<usize> = self.state.flows[item].iter().collect();
                [item, self.random.pick_or(&receivers, item), 0]
            }
            5 => [a, b, 0],
            _ => [a, item, 0],
        }
    }

    /// A question; most often a sound one.
    pub fn question(&mut self) -> Question {
        if self.random.percent(3) {
            return odd_question(self.random);
        }
        let q = self.random.between(1, 6) as u32;
        let [a, b, m] = self.about(q).map(|n| n as u32);
        let mut question = [q, a, b, m];
        let used: Vec<u32> = self.state.used.iter().map(|i| i as u32).collect();
        match self.random.below(10) {
            0..4 => {
                let at = self.random.between(1, 2);
                question[at] = if (q, at) == (1, 1) || (q, at) == (2, 2) {
                    self.random.below(ROLES) as u32
                } else {
                    self.random.pick(&used)
                };
            }
            4 => question[self.random.below(4)] = self.random.pick(&ODD),
            _ => {}
        }
        question
    }
}

/// A request of numbers that mean little.
pub fn odd_request(random: &mut Random) -> Request {
    let k = random.below(16) as u32;
    let mut request = std::array::from_fn(|_| random.pick(&ODD));
    request[0] = k;
    request
}

/// A question of numbers that mean little.
pub fn odd_question(random: &mut Random) -> Question {
    [random.below(8) as u32, random.pick(&ODD), random.pick(&ODD), random.pick(&[0, 0, 1, 2, 4, 8, 3])]
}
