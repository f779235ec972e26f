//! A node of the peer in a server: what it does at once that a script leaves to a tick.
use super::wire::ALL;
use super::*;
use std::sync::atomic::{AtomicU16, Ordering};
use std::time::{SystemTime, UNIX_EPOCH};

/// For each account, at which nodes a session may receive.
static UP: [AtomicU16; ALL] = [const { AtomicU16::new(0) }; ALL];

/// What is to be done behind a chain that became known.
pub(super) enum Due { Begin(u64), Feed(usize) }

/// A node with its sessions, and the attempts that wait for room in them, by account.
pub(super) struct Host { pub(super) centre: Centre, granted: [VecDeque<u64>; ALL] }

impl Host {
    /// The node of this number, of so many.
    pub(super) fn start(count: u8, number: u8) -> Host {
        let mut centre = Centre::start(count, 1);
        let own = centre.nodes.swap_remove(usize::from(number) - 1);
        centre.nodes = vec![own];
        Host { centre, granted: Default::default() }
    }

    pub(super) fn node(&mut self) -> &mut Node { &mut self.centre.nodes[0] }

    pub(super) fn tick(&mut self) {
        let now = SystemTime::now().duration_since(UNIX_EPOCH).unwrap().as_secs() as u32;
        self.centre.tick(0, now);
    }

    /// The octets of a session come; the account of which it may receive, if it may.
    pub(super) fn hear(&mut self, number: u8, octets: &[u8]) -> Option<usize> {
        self.centre.octets(0, number, octets);
        self.centre.sites[0].sessions.get(&number).filter(|session| session.may_receive()).map(|session| session.account)
    }

    pub(super) fn leave(&mut self, number: u8) {
        if self.centre.sites[0].sessions.contains_key(&number) { self.centre.leave(0, number, [RESPONSE, OK, 0]) }
    }

    /// Says of which accounts a session may receive here, and whether one is new.
    pub(super) fn note_up(&mut self) -> bool {
        let (bit, up) = (1 << self.node().number, self.centre.sites[0].up());
        let mut is_new = false;
        for (account, is_up) in up.into_iter().enumerate() {
            let before = if is_up { UP[account].fetch_or(bit, Ordering::SeqCst) } else { UP[account].fetch_and(!bit, Ordering::SeqCst) };
            is_new |= is_up && before & bit == 0;
        }
        is_new
    }

    /// A packet comes; what is due if a chain became known by it.
    pub(super) fn come(&mut self, packet: &Packet) -> Option<Due> {
        let id = if let Packet::Voted { vote, .. } = packet { Some(vote.chain.id) } else { None };
        let before = id.and_then(|id| self.node().known(id)).map(|chain| chain.place());
        let centre = &mut self.centre;
        centre.nodes[0].on_packet(packet, &mut centre.out);
        centre.tell(0);
        let chain = id.and_then(|id| self.node().known(id)).filter(|chain| before.is_none_or(|place| place < chain.place())).cloned()?;
        self.due(&chain)
    }

    /// The attempt is begun at one node where its account is up, that of its id or the first behind it.
    fn due(&mut self, chain: &Chain) -> Option<Due> {
        let (me, target) = (self.node().number, chain.message.target);
        match chain.newest().kind {
            Kind::Taken => {
                let (home, all) = ((chain.id / 1_000_000_000) as u8, UP[target].load(Ordering::SeqCst));
                let begins = (home..=ALL as u8).chain(1..home).find(|node| all & 1 << node != 0);
                if begins == Some(me) { Some(Due::Begin(chain.id)) } else { None }
            }
            Kind::Attempt(_) if chain.newest().author == me => {
                self.granted[target].push_back(chain.id);
                Some(Due::Feed(target))
            }
            _ => None,
        }
    }

    /// Starts the round of a message for which it is time.
    pub(super) fn begin(&mut self, id: u64) {
        let up = self.centre.sites[0].up();
        let centre = &mut self.centre;
        if let Some(next) = centre.nodes[0].due(id, up) { centre.nodes[0].start(next, &mut centre.out) }
        centre.tell(0);
    }

    fn has_room(&self, account: usize) -> bool {
        let has_room = |session: &Session| session.may_receive() && session.account == account && session.pushed.len() < WINDOW;
        self.centre.sites[0].sessions.values().any(has_room)
    }

    /// The next message that waits for an account, if one of its sessions has room.
    pub(super) fn next_for(&mut self, account: usize) -> Option<u64> {
        if self.has_room(account) { self.granted[account].pop_front() } else { None }
    }

    /// The attempt of a message of an account is granted, and goes out; it waits on if another thread took the room meanwhile.
    pub(super) fn send_out(&mut self, account: usize, id: u64) {
        if !self.has_room(account) { return self.granted[account].push_front(id) }
        let Ok(chain) = self.node().grant(id) else { return };
        let clock = self.node().clock;
        let Some((number, sequence, knows_optional)) = self.centre.sites[0].push(account, clock, Some((id, chain.place()))) else { return };
        put_pdu(&mut self.centre.text, (0, number), [DELIVER_SM, OK, sequence], &delivery(&chain.message, knows_optional));
    }
}
