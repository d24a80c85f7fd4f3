//! Flows and control: the least relations that keep what there was and obey the rules.

use crate::sets::{ItemSet, SESSIONS, SessionSet, bits};
use crate::state::{Mode, State};

impl State {
    /// Brings flows and control to rest, when accesses or sessions have come. Flows obey *passing* before and after.
    pub fn settle(&mut self) {
        self.own_control();
        loop {
            self.grow_control();
            if !self.grow_flows() {
                return;
            }
            self.pass_flows();
        }
    }

    /// The new access would give a flow or control that is not there yet. If not, everything is at rest with it too.
    pub fn gain_adds(&self, session: usize, item: usize, mode: Mode) -> bool {
        match mode {
            Mode::Read => self.steerers_of(session) & !self.flows[item].sessions() != 0,
            Mode::Write => bits(self.steerers_of(session)).any(|s| !self.flows[s].has(item)),
            Mode::Own => item < SESSIONS && !self.controls(session, item),
            Mode::Execute => false,
        }
    }

    /// The unguarded sessions that control the session.
    fn steerers_of(&self, session: usize) -> SessionSet {
        bits(self.unguarded).filter(|&s| self.controls(s, session)).fold(0, |set, s| set | 1 << s)
    }

    /// By session, the unguarded sessions that control it.
    fn steerers(&self) -> [SessionSet; SESSIONS] {
        let mut steerers = [0; SESSIONS];
        for s in bits(self.unguarded) {
            for t in bits(self.control[s]) {
                steerers[t] |= 1 << s;
            }
        }
        steerers
    }

    /// *Itself* and *owner*.
    fn own_control(&mut self) {
        for t in bits(self.live.sessions()) {
            for s in bits(self.accesses[Mode::Own as usize][t] | 1 << t) {
                self.control[s] |= 1 << t;
            }
        }
    }

    /// *By program*, *by key* and *onward*.
    fn grow_control(&mut self) {
        let live = self.live.sessions();
        for t in bits(live) {
            let program = usize::from(self.sessions[t].program);
            let key = usize::from(self.account(t).key);
            // No flow is from or to a guarded session, or 0, which stands for no program and no key.
            for s in bits(self.unguarded) {
                self.control[s] |= u64::from(self.flows[s].has(program)) << t;
            }
            for s in bits(self.flows[key].sessions()) {
                self.control[s] |= 1 << t;
            }
        }
        for t in bits(live) {
            let beyond = self.control[t];
            for s in bits(live) {
                if self.controls(s, t) {
                    self.control[s] |= beyond;
                }
            }
        }
    }

    /// *Writing*, *reading*, *outward* and *inward*; whether there was any new flow.
    fn grow_flows(&mut self) -> bool {
        let steerers = self.steerers();
        let mut grew = false;
        for e in self.live.iter() {
            let lacking = self.unguarded & !self.flows[e].sessions();
            if lacking != 0 {
                let senders = self.accesses[Mode::Read as usize][e] | self.flows[e].sessions();
                let receivers = lacking & union(&steerers, senders, lacking);
                grew |= receivers != 0;
                self.flows[e].add_sessions(receivers);
            }
            for s in bits(union(&steerers, self.accesses[Mode::Write as usize][e], self.unguarded)) {
                grew |= !self.flows[s].has(e);
                self.flows[s].add(e);
            }
        }
        for s in bits(self.unguarded) {
            let mut row = self.flows[s];
            for t in bits(self.control[s]) {
                row.add_all(&self.flows[t]);
            }
            grew |= row != self.flows[s];
            self.flows[s] = row;
        }
        grew
    }

    /// *Passing*: the transitive closure of the flows.
    fn pass_flows(&mut self) {
        let mut sources = ItemSet::EMPTY;
        let mut targets = ItemSet::EMPTY;
        for (item, row) in self.flows.iter().enumerate() {
            if !row.is_empty() {
                sources.add(item);
                targets.add_all(row);
            }
        }
        for middle in sources.and(&targets).iter() {
            let onward = self.flows[middle];
            for row in &mut self.flows {
                if row.has(middle) {
                    row.add_all(&onward);
                }
            }
        }
    }
}

/// The union of the rows of these sessions, or of enough of them to have all that is wanted.
fn union(rows: &[SessionSet; SESSIONS], sessions: SessionSet, wanted: SessionSet) -> SessionSet {
    let mut all = 0;
    for t in bits(sessions) {
        all |= rows[t];
        if wanted & !all == 0 {
            break;
        }
    }
    all
}
