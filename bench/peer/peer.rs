//! A message centre by the same rules as `centre script`, as a plain Rust program without proofs. The README says which lines and PDUs it has. With
//! `--cfg server` it is the servers of `bench/peer_server` over the same nodes.
#![cfg_attr(server, allow(dead_code))]
use std::collections::{BTreeMap, BTreeSet, VecDeque};
#[cfg(not(server))]
use std::io::BufRead;
use std::io::{self, Write};
#[cfg(not(server))]
use std::rc::Rc;
use std::str::FromStr;
#[cfg(server)]
use std::sync::Arc as Rc;

#[cfg(server)]
#[path = "../peer_server/server.rs"]
mod server;

const START: u32 = 946_684_800;
const VALIDITY: u32 = 259_200;
const PATIENCE: u32 = 30;
const WINDOW: usize = 10;
const MOST_WAITING: usize = 1_000;
const MOST_RECEIPTS: usize = 10_000;
const MOST_DELIVERIES: usize = 100_000;
const LAST_SERIAL: u64 = 99_999;
const MOST_ATTEMPTS: u32 = 8;
const PLACES: usize = 19;
#[cfg(not(server))]
const ACCOUNTS: [(&[u8], &[u8]); 2] = [(b"sme1", b"pw1"), (b"sme2", b"pw2")];
#[cfg(server)]
use server::{ACCOUNTS, put_end, put_pdu, route};
const PASSED: [u16; 4] = [0x0204, 0x020C, 0x020E, 0x020F];
const MESSAGE_PAYLOAD: u16 = 0x0424;
const NO_ANSWER: Kind = Kind::Failed(997);
const GIVEN_UP: Kind = Kind::Failed(998);
const DELIVERED: Kind = Kind::Fate(2, 0);
const EXPIRED: Kind = Kind::Fate(3, 0);
const DELETED: Kind = Kind::Fate(4, 0);

// Commands and statuses of SMPP 3.4.
const BIND_RECEIVER: u32 = 1;
const BIND_TRANSMITTER: u32 = 2;
const QUERY_SM: u32 = 3;
const SUBMIT_SM: u32 = 4;
const DELIVER_SM: u32 = 5;
const UNBIND: u32 = 6;
const CANCEL_SM: u32 = 8;
const BIND_TRANSCEIVER: u32 = 9;
const ENQUIRE_LINK: u32 = 0x15;
const RESPONSE: u32 = 0x8000_0000;
const OK: u32 = 0;
const CANCEL_FAILED: u32 = 0x11;
const INVALID_BIND_STATUS: u32 = 0x04;
const INVALID_MESSAGE_ID: u32 = 0x0C;
const QUERY_FAILED: u32 = 0x67;
const THROTTLED: u32 = 0x58;

#[derive(Clone, Copy, PartialEq)]
#[cfg_attr(server, derive(Eq))]
enum Kind { Taken, Attempt(u32), Failed(u16), Fate(u8, u16), Told }

#[derive(Clone, Copy)]
#[cfg_attr(server, derive(PartialEq, Eq))]
struct Decree { author: u8, moment: u32, kind: Kind }

#[cfg_attr(server, derive(PartialEq, Eq))]
struct Address { ton: u8, npi: u8, digits: Vec<u8> }

#[cfg_attr(server, derive(PartialEq, Eq))]
struct Message {
    submitter: usize, target: usize, service: Vec<u8>, source: Address, destination: Address, esm_class: u8, protocol: u8, priority: u8,
    registered: u8, coding: u8, schedule: u32, expiry: u32, text: Vec<u8>, passed: Vec<u8>,
}

#[cfg_attr(server, derive(PartialEq, Eq))]
struct Chain { id: u64, message: Rc<Message>, decrees: Vec<Decree> }

impl Chain {
    fn place(&self) -> usize { self.decrees.len() - 1 }

    fn newest(&self) -> Decree { self.decrees[self.place()] }

    /// The newest decree but Told.
    fn last(&self) -> Decree { if self.newest().kind == Kind::Told { self.decrees[self.place() - 1] } else { self.newest() } }

    fn fate(&self) -> Option<u8> { if let Kind::Fate(state, _) = self.last().kind { Some(state) } else { None } }

    /// Whether a receipt of its final state was asked for, and is not told.
    fn is_untold(&self) -> bool {
        matches!(self.newest().kind, Kind::Fate(..)) && match self.message.registered & 3 { 1 => true, 2 => self.newest().kind != DELIVERED, _ => false }
    }

    fn is_idle(&self) -> bool { matches!(self.newest().kind, Kind::Taken | Kind::Failed(_)) }

    fn error(&self) -> u16 {
        let errors = |decree: &Decree| if let Kind::Failed(error) | Kind::Fate(_, error) = decree.kind { Some(error) } else { None };
        self.decrees.iter().rev().find_map(errors).unwrap_or(0)
    }

    fn then(&self, author: u8, clock: u32, kind: Kind) -> Rc<Chain> {
        let mut decrees = Vec::with_capacity(self.decrees.len() + 1);
        decrees.extend_from_slice(&self.decrees);
        decrees.push(Decree { author, moment: clock.max(self.newest().moment), kind });
        Rc::new(Chain { id: self.id, message: self.message.clone(), decrees })
    }
}

#[derive(Clone)]
#[cfg_attr(server, derive(PartialEq, Eq))]
struct Vote { ballot: u64, chain: Rc<Chain> }

#[cfg_attr(server, derive(Clone, PartialEq, Eq))]
enum Packet {
    Prepare { from: u8, id: u64, place: usize, ballot: u64 },
    Promise { from: u8, id: u64, place: usize, ballot: u64, vote: Option<Vote> },
    Propose { from: u8, vote: Vote },
    Voted { from: u8, vote: Vote },
    Refused { from: u8, id: u64, place: usize, ballot: u64, promised: u64 },
    Ask { from: u8, id: u64, ticket: u64 },
    Tell { from: u8, asker: u8, ticket: u64, told: Option<Vote> },
}

impl Packet {
    fn sender(&self) -> u8 {
        match self {
            Packet::Prepare { from, .. } | Packet::Promise { from, .. } | Packet::Propose { from, .. } | Packet::Voted { from, .. } => *from,
            Packet::Refused { from, .. } | Packet::Ask { from, .. } | Packet::Tell { from, .. } => *from,
        }
    }
}

struct Reply { ticket: u64, id: u64, status: u32, shown: Option<Rc<Chain>> }

#[derive(Default)]
struct Out {
    packets: Vec<Packet>, replies: Vec<Reply>, receipts: Vec<Rc<Chain>>,
    /// The slots whose records changed.
    #[cfg(server)]
    saved: Vec<(u64, usize)>,
}

enum Request { Submit(Rc<Chain>), Query { account: usize, source: Vec<u8> }, Cancel { account: usize, source: Vec<u8>, destination: Vec<u8> } }

struct Held { ticket: u64, since: u32, id: u64, request: Request, settled: bool, tellers: u16, top: Option<Vote> }

fn is_majority(nodes: u8, set: u16) -> bool { 2 * set.count_ones() > u32::from(nodes) }

fn is_beyond(vote: &Vote, known: Option<&Rc<Chain>>) -> bool { known.is_none_or(|chain| vote.chain.place() > chain.place()) }

fn is_higher(vote: &Vote, top: Option<&Vote>) -> bool { top.is_none_or(|top| (top.chain.place(), top.ballot) < (vote.chain.place(), vote.ballot)) }

impl Held {
    fn asks(&self) -> bool { !matches!(self.request, Request::Submit(_)) }

    fn is_settled(&self, nodes: u8, known: Option<&Rc<Chain>>) -> bool {
        is_majority(nodes, self.tellers) && !self.top.as_ref().is_some_and(|top| is_beyond(top, known))
    }

    fn settle(&mut self, nodes: u8, known: Option<&Rc<Chain>>) -> bool {
        let settles = matches!(self.request, Request::Cancel { .. }) && !self.settled && self.is_settled(nodes, known);
        self.settled |= settles;
        settles
    }

    fn matches(&self, message: &Message) -> bool {
        match &self.request {
            Request::Submit(_) => true,
            Request::Query { account, source } => *account == message.submitter && *source == message.source.digits,
            Request::Cancel { account, source, destination } => *account == message.submitter && *source == message.source.digits
                && (destination.is_empty() || *destination == message.destination.digits),
        }
    }

    fn cancels(&self, message: &Message) -> bool { self.settled && self.matches(message) }

    fn answer(&self, nodes: u8, known: Option<&Rc<Chain>>) -> Option<Reply> {
        let reply = |status, shown| Some(Reply { ticket: self.ticket, id: self.id, status, shown });
        let settled = self.is_settled(nodes, known);
        let Some(chain) = known else { return if self.asks() && settled { reply(INVALID_MESSAGE_ID, None) } else { None } };
        match self.request {
            Request::Submit(_) => reply(OK, None),
            Request::Query { .. } if !settled => None,
            Request::Query { .. } if self.matches(&chain.message) => reply(OK, Some(chain.clone())),
            Request::Query { .. } => reply(QUERY_FAILED, None),
            Request::Cancel { .. } if !self.settled => None,
            Request::Cancel { .. } if !self.matches(&chain.message) => reply(CANCEL_FAILED, None),
            Request::Cancel { .. } if chain.is_idle() => None,
            Request::Cancel { .. } => reply(if chain.last().kind == DELETED { OK } else { CANCEL_FAILED }, None),
        }
    }
}

struct Record { place: usize, promised: u64, vote: Option<Vote> }

struct Tally { place: usize, ballot: u64, voters: u16 }

struct Round { ballot: u64, own: Rc<Chain>, promised: u16, highest: Option<Vote> }

impl Round {
    /// Counts a promise, and gives the vote that is asked for, if the promise completes a majority.
    fn count(&mut self, nodes: u8, from: u8, reported: &Option<Vote>) -> Option<Vote> {
        let had_most = is_majority(nodes, self.promised);
        self.promised |= 1 << from;
        if let Some(vote) = reported && self.highest.as_ref().is_none_or(|top| top.ballot < vote.ballot) { self.highest = Some(vote.clone()) }
        if had_most || !is_majority(nodes, self.promised) { return None }
        let chain = self.highest.as_ref().map_or(&self.own, |vote| &vote.chain).clone();
        Some(Vote { ballot: self.ballot, chain })
    }
}

#[derive(Default)]
struct Entry {
    records: Vec<Record>, tallies: Vec<Tally>, known: Option<Rc<Chain>>, round: Option<Round>, seen: [u64; PLACES], granted: u32, closed: Vec<(usize, Kind)>,
}

impl Entry {
    fn record(&mut self, place: usize) -> &mut Record {
        let at = self.records.iter().position(|record| record.place == place).unwrap_or(self.records.len());
        if at == self.records.len() { self.records.push(Record { place, promised: 0, vote: None }) }
        &mut self.records[at]
    }

    fn told(&self) -> Option<&Vote> { self.records.iter().filter_map(|record| record.vote.as_ref()).max_by_key(|vote| vote.chain.place()) }

    fn closing(&self, place: usize) -> Option<Kind> { self.closed.iter().find(|(at, _)| *at == place).map(|(_, kind)| *kind) }

    fn running(&mut self, place: usize, ballot: u64) -> Option<&mut Round> {
        self.round.as_mut().filter(|round| round.ballot == ballot && round.own.place() == place)
    }

    fn start(&mut self, me: u8, chain: Rc<Chain>, packets: &mut Vec<Packet>) {
        if self.round.is_some() { return }
        let place = chain.place();
        let own = self.records.iter().find(|record| record.place == place).map_or(0, |record| record.promised >> 18);
        let round = own.max(self.seen[place]) + 1;
        self.seen[place] = round;
        let ballot = round << 18 | 1 << 4 | u64::from(me);
        packets.push(Packet::Prepare { from: me, id: chain.id, place, ballot });
        self.round = Some(Round { ballot, own: chain, promised: 0, highest: None });
    }

    fn refused(&mut self, place: usize, ballot: u64, promised: u64) {
        self.seen[place] = self.seen[place].max(promised >> 18);
        if ballot < promised && self.running(place, ballot).is_some() { self.round = None }
    }

    /// Counts a vote, and tells whether its chain is known from then on.
    fn hear(&mut self, nodes: u8, from: u8, vote: &Vote) -> bool {
        let place = vote.chain.place();
        let at = self.tallies.iter().position(|tally| tally.place == place && tally.ballot == vote.ballot).unwrap_or(self.tallies.len());
        if at == self.tallies.len() { self.tallies.push(Tally { place, ballot: vote.ballot, voters: 0 }) }
        let tally = &mut self.tallies[at];
        let is_new = tally.voters & 1 << from == 0;
        tally.voters |= 1 << from;
        if !is_new || !is_majority(nodes, tally.voters) || !is_beyond(vote, self.known.as_ref()) { return false }
        self.known = Some(vote.chain.clone());
        if self.round.as_ref().is_some_and(|round| round.own.place() <= place) { self.round = None }
        true
    }
}

struct Node { number: u8, nodes: u8, clock: u32, serial: u64, given: u64, queue: Vec<Held>, entries: BTreeMap<u64, Entry>, live: BTreeSet<u64> }

impl Node {
    fn entry(&mut self, id: u64) -> &mut Entry {
        self.entries.entry(id).or_insert_with(|| { self.live.insert(id); Entry::default() })
    }

    fn known(&self, id: u64) -> Option<&Rc<Chain>> { self.entries.get(&id)?.known.as_ref() }

    fn start(&mut self, chain: Rc<Chain>, out: &mut Out) {
        let me = self.number;
        self.entry(chain.id).start(me, chain, &mut out.packets);
    }

    fn wait(&mut self, id: u64, request: Request) -> u64 {
        self.given += 1;
        self.queue.push(Held { ticket: self.given, since: self.clock, id, request, settled: false, tellers: 0, top: None });
        self.given
    }

    fn submit(&mut self, message: Message, out: &mut Out) -> Result<u64, u32> {
        if message.registered & 3 == 3 { return Err(0x07) }
        if self.serial > LAST_SERIAL { return Err(0x14) }
        if self.queue.len() >= MOST_WAITING { return Err(THROTTLED) }
        let id = u64::from(self.number) * 1_000_000_000 + 100_000 + self.serial;
        self.serial += 1;
        let taken = Decree { author: self.number, moment: self.clock, kind: Kind::Taken };
        let chain = Rc::new(Chain { id, message: Rc::new(message), decrees: vec![taken] });
        self.start(chain.clone(), out);
        Ok(self.wait(id, Request::Submit(chain)))
    }

    fn ask(&mut self, text: &[u8], request: Request, out: &mut Out) -> Result<u64, u32> {
        let id = read_id(text).ok_or(INVALID_MESSAGE_ID)?;
        if self.queue.len() >= MOST_WAITING { return Err(THROTTLED) }
        let ticket = self.wait(id, request);
        out.packets.push(Packet::Ask { from: self.number, id, ticket });
        Ok(ticket)
    }

    fn on_packet(&mut self, packet: &Packet, out: &mut Out) {
        let me = self.number;
        match packet {
            Packet::Prepare { id, place, ballot, .. } => self.on_prepare(*id, *place, *ballot, out),
            Packet::Promise { from, id, place, ballot, vote } => {
                let Some(round) = self.entries.get_mut(id).and_then(|entry| entry.running(*place, *ballot)) else { return };
                let proposed = round.count(self.nodes, *from, vote);
                out.packets.extend(proposed.map(|vote| Packet::Propose { from: me, vote }));
            }
            Packet::Propose { vote, .. } => self.on_propose(vote, out),
            Packet::Voted { from, vote } => self.on_voted(*from, vote, out),
            Packet::Refused { id, place, ballot, promised, .. } if *ballot & 0xF == u64::from(me) => self.entry(*id).refused(*place, *ballot, *promised),
            Packet::Ask { from, id, ticket } => {
                let told = self.entries.get(id).and_then(Entry::told).cloned();
                out.packets.push(Packet::Tell { from: me, asker: *from, ticket: *ticket, told });
            }
            Packet::Tell { from, asker, ticket, told } if *asker == me => self.on_tell(*from, *ticket, told, out),
            Packet::Refused { .. } | Packet::Tell { .. } => {}
        }
    }

    fn on_prepare(&mut self, id: u64, place: usize, ballot: u64, out: &mut Out) {
        let from = self.number;
        let record = self.entry(id).record(place);
        if ballot <= record.promised {
            out.packets.push(Packet::Refused { from, id, place, ballot, promised: record.promised });
        } else {
            record.promised = ballot;
            #[cfg(server)]
            out.saved.push((id, place));
            out.packets.push(Packet::Promise { from, id, place, ballot, vote: record.vote.clone() });
        }
    }

    fn on_propose(&mut self, vote: &Vote, out: &mut Out) {
        let (from, id, place, ballot) = (self.number, vote.chain.id, vote.chain.place(), vote.ballot);
        let record = self.entry(id).record(place);
        if ballot < record.promised {
            out.packets.push(Packet::Refused { from, id, place, ballot, promised: record.promised });
        } else {
            *record = Record { place, promised: ballot, vote: Some(vote.clone()) };
            #[cfg(server)]
            out.saved.push((id, place));
            out.packets.push(Packet::Voted { from, vote: vote.clone() });
        }
    }

    fn on_voted(&mut self, from: u8, vote: &Vote, out: &mut Out) {
        let nodes = self.nodes;
        let entry = self.entry(vote.chain.id);
        let had_fate = entry.known.as_ref().is_some_and(|chain| chain.fate().is_some());
        if entry.hear(nodes, from, vote) { self.learned(&vote.chain, had_fate, out) }
    }

    fn on_tell(&mut self, from: u8, ticket: u64, told: &Option<Vote>, out: &mut Out) {
        let Some(at) = self.queue.iter().position(|held| held.ticket == ticket) else { return };
        let known = self.known(self.queue[at].id).cloned();
        let held = &mut self.queue[at];
        held.tellers |= 1 << from;
        if let Some(vote) = told && is_higher(vote, held.top.as_ref()) { held.top = Some(vote.clone()) }
        let next = if held.settle(self.nodes, known.as_ref()) {
            known.as_ref().filter(|chain| chain.is_idle() && held.cancels(&chain.message)).map(|chain| chain.then(self.number, self.clock, DELETED))
        } else {
            held.top.as_ref().filter(|top| is_majority(self.nodes, held.tellers) && is_beyond(top, known.as_ref())).map(|top| top.chain.clone())
        };
        if let Some(reply) = held.answer(self.nodes, known.as_ref()) {
            out.replies.push(reply);
            self.queue.remove(at);
        }
        if let Some(chain) = next { self.start(chain, out) }
    }

    fn learned(&mut self, chain: &Rc<Chain>, had_fate: bool, out: &mut Out) {
        let (nodes, mut cancelled) = (self.nodes, false);
        for held in self.queue.iter_mut().filter(|held| held.id == chain.id) {
            held.settle(nodes, Some(chain));
            cancelled |= held.cancels(&chain.message);
        }
        if cancelled && chain.is_idle() { self.start(chain.then(self.number, self.clock, DELETED), out) }
        if !had_fate && self.owes(chain) { self.start(chain.then(self.number, self.clock, Kind::Told), out) }
        if chain.newest().kind == Kind::Told && chain.newest().author == self.number { out.receipts.push(chain.clone()) }
        self.queue.retain(|held| {
            let answer = if held.id == chain.id { held.answer(nodes, Some(chain)) } else { None };
            let waits = answer.is_none();
            out.replies.extend(answer);
            waits
        });
    }

    /// Whether this node has to tell its receipt.
    fn owes(&self, chain: &Chain) -> bool { chain.is_untold() && chain.id / 1_000_000_000 == u64::from(self.number) }

    fn tick(&mut self, moment: u32, up: [bool; ACCOUNTS.len()], out: &mut Out) {
        self.clock = self.clock.max(moment);
        let (clock, me, nodes) = (self.clock, self.number, self.nodes);
        self.queue.retain(|held| {
            let is_late = held.since + PATIENCE <= clock;
            if is_late { out.replies.push(Reply { ticket: held.ticket, id: held.id, status: 0x08, shown: None }) }
            !is_late
        });
        let untold = self.queue.iter().filter(|held| held.asks() && !is_majority(nodes, held.tellers));
        out.packets.extend(untold.map(|held| Packet::Ask { from: me, id: held.id, ticket: held.ticket }));
        self.live.retain(|id| {
            let entry = self.entries.get_mut(id).unwrap();
            entry.round = None;
            entry.known.as_ref().is_none_or(|chain| chain.fate().is_none() || chain.is_untold())
        });
        let mut ids: Vec<u64> = self.live.iter().copied().chain(self.queue.iter().map(|held| held.id)).collect();
        ids.sort_unstable();
        ids.dedup();
        for id in ids {
            if let Some(chain) = self.due(id, up) { self.start(chain, out) }
        }
    }

    /// The chain for which a tick starts a round, if it does.
    fn due(&mut self, id: u64, up: [bool; ACCOUNTS.len()]) -> Option<Rc<Chain>> {
        let (mut top, mut known) = (None, None);
        if let Some(entry) = self.entries.get(&id) { (top, known) = (entry.told(), entry.known.as_ref()) }
        for held in self.queue.iter().filter(|held| held.id == id) {
            if let Request::Submit(chain) = &held.request { return Some(chain.clone()) }
            if let Some(vote) = &held.top && is_higher(vote, top) { top = Some(vote) }
        }
        if let Some(vote) = top && is_beyond(vote, known) { return Some(vote.chain.clone()) }
        let chain = known?.clone();
        let (newest, place, moment) = (chain.newest(), chain.place(), self.clock.max(chain.newest().moment));
        let made = place as u32 / 2;
        let kind = match newest.kind {
            Kind::Attempt(_) if newest.author == self.number => {
                let entry = self.entries.get_mut(&id)?;
                let closing = entry.closing(place);
                if closing.is_none() && (entry.granted & 1 << place != 0 || up[chain.message.target]) { return None }
                if closing.is_none() { entry.closed.push((place, GIVEN_UP)) }
                closing.unwrap_or(GIVEN_UP)
            }
            Kind::Fate(..) if self.owes(&chain) => Kind::Told,
            Kind::Attempt(_) | Kind::Fate(..) | Kind::Told => return None,
            _ if self.queue.iter().any(|held| held.id == id && held.cancels(&chain.message)) => DELETED,
            _ if moment >= chain.message.expiry => EXPIRED,
            Kind::Failed(error) if made == MOST_ATTEMPTS => Kind::Fate(5, error),
            Kind::Failed(_) if !up[chain.message.target] || moment < newest.moment + 60 * made => return None,
            Kind::Taken if !up[chain.message.target] || moment < chain.message.schedule => return None,
            _ => Kind::Attempt(made + 1),
        };
        Some(chain.then(self.number, moment, kind))
    }

    fn grant(&mut self, id: u64) -> Result<Rc<Chain>, u8> {
        let me = self.number;
        let entry = self.entries.get_mut(&id).ok_or(1)?;
        let chain = entry.known.as_ref().filter(|chain| matches!(chain.newest().kind, Kind::Attempt(_))).ok_or(1)?;
        let place = chain.place();
        if chain.newest().author != me { return Err(2) }
        if entry.granted & 1 << place != 0 { return Err(4) }
        if entry.closing(place).is_some() { return Err(5) }
        entry.granted |= 1 << place;
        Ok(chain.clone())
    }

    fn answered(&mut self, (id, place): (u64, usize), kind: Kind, out: &mut Out) {
        let Some(entry) = self.entries.get_mut(&id) else { return };
        if entry.granted & 1 << place == 0 || entry.closing(place).is_some() { return }
        entry.closed.push((place, kind));
        let Some(chain) = entry.known.clone().filter(|chain| chain.place() == place) else { return };
        self.start(chain.then(self.number, self.clock, kind), out);
    }
}

/// Ends the peer, which can do no such thing.
fn end(why: &str) -> ! {
    eprintln!("{why}");
    std::process::exit(2)
}

fn read_id(text: &[u8]) -> Option<u64> {
    if text.len() != 10 || !text.iter().all(u8::is_ascii_digit) { return None }
    let id = text.iter().fold(0, |id, digit| 10 * id + u64::from(digit - b'0'));
    (id >= 1_000_000_000 && id / 100_000 % 10_000 > 0 && id % 100_000 > 0).then_some(id)
}

/// What tells of a fault: a generic_nack, or the response to the request.
enum Fault { Nack(u32), Refused(u32) }

const CUT: Fault = Fault::Nack(2);

struct Fields<'a>(&'a [u8]);

impl<'a> Fields<'a> {
    fn take(&mut self, count: usize) -> Result<&'a [u8], Fault> {
        let (taken, rest) = self.0.split_at_checked(count).ok_or(CUT)?;
        self.0 = rest;
        Ok(taken)
    }

    fn octet(&mut self) -> Result<u8, Fault> { Ok(self.take(1)?[0]) }

    fn text(&mut self, most: usize, status: u32) -> Result<&'a [u8], Fault> {
        match self.0.iter().take(most + 1).position(|octet| *octet == 0) {
            Some(end) => { let text = self.take(end)?; self.take(1)?; Ok(text) }
            None if self.0.len() > most => Err(Fault::Refused(status)),
            None => Err(CUT),
        }
    }

    fn address(&mut self, status: u32) -> Result<Address, Fault> {
        Ok(Address { ton: self.octet()?, npi: self.octet()?, digits: self.text(20, status)?.to_vec() })
    }

    fn end(&self) -> Result<(), Fault> { if self.0.is_empty() { Ok(()) } else { Err(CUT) } }

    /// The optional parameters that are passed on, and the value of the first message_payload.
    fn passed(&self) -> Result<(Vec<u8>, Option<&'a [u8]>), Fault> {
        let (mut rest, mut passed, mut payload) = (self.0, Vec::new(), None);
        while !rest.is_empty() {
            let length = rest.get(2..4).map(|length| 4 + usize::from(u16::from_be_bytes([length[0], length[1]])));
            let Some((parameter, others)) = length.and_then(|length| rest.split_at_checked(length)) else { return Err(Fault::Refused(0xC0)) };
            let tag = u16::from_be_bytes([parameter[0], parameter[1]]);
            if PASSED.contains(&tag) { passed.extend_from_slice(parameter) }
            if tag == MESSAGE_PAYLOAD { payload = payload.or(Some(&parameter[4..])) }
            rest = others;
        }
        if self.0.len() > 7_000 { Err(Fault::Refused(0xC0)) } else { Ok((passed, payload)) }
    }

    /// A message without its times, of which the peer reads none but an empty one.
    fn message(&mut self) -> Result<Message, Fault> {
        let service = self.text(5, 0x15)?.to_vec();
        let (source, destination) = (self.address(0x0A)?, self.address(0x0B)?);
        let (esm_class, protocol, priority) = (self.octet()?, self.octet()?, self.octet()?);
        let times = (self.text(16, 0x61)?, self.text(16, 0x62)?);
        let (registered, _, coding, _) = (self.octet()?, self.octet()?, self.octet()?, self.octet()?);
        let length = self.octet()?;
        if length > 254 { return Err(Fault::Refused(0x01)) }
        let short = self.take(usize::from(length))?;
        let (passed, payload) = self.passed()?;
        let text = if short.is_empty() { payload.unwrap_or(short).to_vec() } else { short.to_vec() };
        if text.len() > 254 { end("the peer has no texts of more than 254 octets") }
        if times != (b"", b"") { end("the peer reads no times") }
        let target = route(&destination.digits);
        let (submitter, schedule, expiry) = (0, 0, 0);
        Ok(Message { submitter, target, service, source, destination, esm_class, protocol, priority, registered, coding, schedule, expiry, text, passed })
    }
}

/// The account that messages to an address go to.
#[cfg(not(server))]
fn route(digits: &[u8]) -> usize { usize::from(digits.first() == Some(&b'2')) }

struct Pushed { sequence: u32, since: u32, attempt: Option<(u64, usize)> }

/// A session, whose role is the command of its bind, or 0.
#[derive(Default)]
struct Session { role: u32, account: usize, version: u8, requests: Vec<(u64, u32, u32)>, pushed: Vec<Pushed>, sequence: u32, stream: Vec<u8> }

impl Session {
    fn may_receive(&self) -> bool { matches!(self.role, BIND_RECEIVER | BIND_TRANSCEIVER) }
}

#[derive(Default)]
struct Site { sessions: BTreeMap<u8, Session>, waiting: [VecDeque<Rc<Chain>>; ACCOUNTS.len()] }

impl Site {
    fn up(&self) -> [bool; ACCOUNTS.len()] {
        let mut up = [false; ACCOUNTS.len()];
        self.sessions.values().filter(|session| session.may_receive()).for_each(|session| up[session.account] = true);
        up
    }

    /// The number, the sequence_number, and whether optional parameters are known, of the session over which this goes out.
    fn push(&mut self, account: usize, since: u32, attempt: Option<(u64, usize)>) -> Option<(u8, u32, bool)> {
        let takes = |session: &Session| session.may_receive() && session.account == account && session.pushed.len() < WINDOW;
        let (number, session) = self.sessions.iter_mut().find(|(_, session)| takes(session))?;
        session.sequence = if session.sequence == 0x7FFF_FFFF { 1 } else { session.sequence + 1 };
        session.pushed.push(Pushed { sequence: session.sequence, since, attempt });
        Some((*number, session.sequence, session.version >= 0x34))
    }
}

fn put_digits(text: &mut Vec<u8>, octets: &[u8]) {
    text.extend(octets.iter().flat_map(|octet| [b"0123456789abcdef"[usize::from(octet >> 4)], b"0123456789abcdef"[usize::from(octet & 15)]]));
}

/// A line with a PDU: the place of its node, the number of its session, and its command, status and sequence_number.
#[cfg(not(server))]
fn put_pdu(text: &mut Vec<u8>, (at, number): (usize, u8), [command, status, sequence]: [u32; 3], body: &[u8]) {
    write!(text, "pdu {} {number} ", at + 1).unwrap();
    [16 + body.len() as u32, command, status, sequence].iter().for_each(|word| put_digits(text, &word.to_be_bytes()));
    put_digits(text, body);
    text.push(b'\n');
}

/// A line with the end of a session.
#[cfg(not(server))]
fn put_end(text: &mut Vec<u8>, (at, number): (usize, u8)) { writeln!(text, "gone {} {number}", at + 1).unwrap() }

fn put_text(body: &mut Vec<u8>, text: &[u8]) {
    body.extend_from_slice(text);
    body.push(0);
}

fn put_address(body: &mut Vec<u8>, address: &Address) {
    body.extend_from_slice(&[address.ton, address.npi]);
    put_text(body, &address.digits);
}

/// YYMMDDhhmmss of a moment.
fn stamp(moment: u32) -> [u8; 12] {
    let (days, second) = (moment / 86_400 + 719_468, moment % 86_400);
    let (era, of_era) = (days / 146_097, days % 146_097);
    let year = (of_era - of_era / 1_460 + of_era / 36_524 - of_era / 146_096) / 365;
    let day = of_era - (365 * year + year / 4 - year / 100);
    let month = (5 * day + 2) / 153;
    let (day, month) = (day - (153 * month + 2) / 5 + 1, if month < 10 { month + 3 } else { month - 9 });
    let year = year + 400 * era + u32::from(month < 3);
    let mut stamp = [0; 12];
    for (place, number) in [year % 100, month, day, second / 3_600, second / 60 % 60, second % 60].into_iter().enumerate() {
        stamp[2 * place..2 * place + 2].copy_from_slice(&[b'0' + (number / 10) as u8, b'0' + (number % 10) as u8]);
    }
    stamp
}

fn delivery(message: &Message, knows_optional: bool) -> Vec<u8> {
    let mut body = Vec::with_capacity(64 + message.text.len());
    put_text(&mut body, &message.service);
    put_address(&mut body, &message.source);
    put_address(&mut body, &message.destination);
    let length = message.text.len() as u8;
    body.extend_from_slice(&[message.esm_class & 0xC0, message.protocol, message.priority, 0, 0, 0, 0, message.coding, 0, length]);
    body.extend_from_slice(&message.text);
    if knows_optional { body.extend_from_slice(&message.passed) }
    body
}

fn receipt(chain: &Chain, knows_optional: bool) -> Vec<u8> {
    let (message, last, state) = (&chain.message, chain.last(), chain.fate().unwrap());
    let word = ["DELIVRD", "EXPIRED", "DELETED", "UNDELIV", "", "", "REJECTD"][usize::from(state) - 2];
    let (submitted, done) = (stamp(chain.decrees[0].moment), stamp(last.moment));
    let count = u8::from(last.kind == DELIVERED);
    let shown = if matches!(message.coding, 0 | 1 | 3) { &message.text[..message.text.len().min(20)] } else { &[] };
    let mut text = Vec::with_capacity(122);
    write!(text, "id:{} sub:001 dlvrd:00{count} submit date:", chain.id).unwrap();
    text.extend_from_slice(&submitted[..10]);
    text.extend_from_slice(b" done date:");
    text.extend_from_slice(&done[..10]);
    write!(text, " stat:{word} err:{:03} text:", chain.error()).unwrap();
    text.extend_from_slice(shown);
    let mut body = Vec::with_capacity(64 + text.len());
    put_text(&mut body, &message.service);
    put_address(&mut body, &message.destination);
    put_address(&mut body, &message.source);
    body.extend_from_slice(&[4, 0, 0, 0, 0, 0, 0, 0, 0, text.len() as u8]);
    body.extend_from_slice(&text);
    if knows_optional { write!(body, "\0\x1e\0\x0b{}\0\x04\x27\0\x01{}", chain.id, char::from(state)).unwrap() }
    body
}

struct Centre { nodes: Vec<Node>, sites: Vec<Site>, packets: Vec<Packet>, came: Vec<u16>, marks: [usize; 9], out: Out, text: Vec<u8> }

impl Centre {
    fn start(nodes: u8, serial: u64) -> Centre {
        let node = |number| Node { number, nodes, clock: START, serial, given: 0, queue: vec![], entries: BTreeMap::new(), live: BTreeSet::new() };
        let sites = (0..nodes).map(|_| Site::default()).collect();
        Centre { nodes: (1..=nodes).map(node).collect(), sites, packets: vec![], came: vec![], marks: [0; 9], out: Out::default(), text: vec![] }
    }

    /// The packets of a step get their numbers, and its replies and then its receipts go out.
    fn tell(&mut self, at: usize) {
        self.packets.append(&mut self.out.packets);
        self.came.resize(self.packets.len(), 0);
        if self.out.replies.is_empty() && self.out.receipts.is_empty() { return }
        let mut replies = std::mem::take(&mut self.out.replies);
        replies.drain(..).for_each(|reply| self.reply(at, reply));
        self.out.replies = replies;
        let mut receipts = std::mem::take(&mut self.out.receipts);
        for chain in receipts.drain(..) {
            let account = chain.message.submitter;
            let waiting = &mut self.sites[at].waiting[account];
            if waiting.len() < MOST_RECEIPTS { waiting.push_back(chain) }
            self.post(at, account);
        }
        self.out.receipts = receipts;
    }

    fn reply(&mut self, at: usize, reply: Reply) {
        let holds = |session: &Session| session.requests.iter().position(|request| request.0 == reply.ticket);
        let Some((number, session, place)) = self.sites[at].sessions.iter_mut().find_map(|(number, session)| Some((*number, holds(session)?, session)))
            .map(|(number, place, session)| (number, session, place)) else { return };
        let (_, command, sequence) = session.requests.remove(place);
        let mut body = Vec::new();
        if reply.status == OK && command != CANCEL_SM { write!(body, "{}\0", reply.id).unwrap() }
        if let Some(chain) = reply.shown {
            if chain.fate().is_some() { body.extend([&stamp(chain.last().moment)[..], b"000+"].concat()) }
            body.extend_from_slice(&[0, chain.fate().unwrap_or(1), chain.error().min(255) as u8]);
        }
        put_pdu(&mut self.text, (at, number), [command | RESPONSE, reply.status, sequence], &body);
    }

    /// Receipts go out that wait for an account, as far as its sessions take them.
    fn post(&mut self, at: usize, account: usize) {
        let now = self.nodes[at].clock;
        while !self.sites[at].waiting[account].is_empty() && let Some((number, sequence, knows_optional)) = self.sites[at].push(account, now, None) {
            let chain = self.sites[at].waiting[account].pop_front().unwrap();
            put_pdu(&mut self.text, (at, number), [DELIVER_SM, OK, sequence], &receipt(&chain, knows_optional));
        }
    }

    fn answered(&mut self, at: usize, attempt: Option<(u64, usize)>, kind: Kind) {
        if let Some(slot) = attempt { self.nodes[at].answered(slot, kind, &mut self.out) }
        self.tell(at);
    }

    fn octets(&mut self, at: usize, number: u8, octets: &[u8]) {
        let session = self.sites[at].sessions.entry(number).or_default();
        let mut stream = std::mem::take(&mut session.stream);
        stream.extend_from_slice(octets);
        let mut rest = &stream[..];
        while let Some(length) = rest.first_chunk().map(|length| u32::from_be_bytes(*length) as usize) {
            if !(16..=8_192).contains(&length) { return self.leave(at, number, [RESPONSE, 2, 0]) }
            let Some((frame, others)) = rest.split_at_checked(length) else { break };
            self.serve(at, number, frame);
            let Some(session) = self.sites[at].sessions.get(&number) else { return };
            if session.role != 0 { self.post(at, session.account) }
            rest = others;
        }
        let left = stream.len() - rest.len();
        stream.drain(..left);
        if let Some(session) = self.sites[at].sessions.get_mut(&number) { session.stream = stream }
    }

    /// The session is gone with this response, and gives up its attempts.
    fn leave(&mut self, at: usize, number: u8, [command, status, sequence]: [u32; 3]) {
        let session = self.sites[at].sessions.remove(&number).unwrap();
        session.pushed.iter().for_each(|pushed| self.answered(at, pushed.attempt, NO_ANSWER));
        put_pdu(&mut self.text, (at, number), [command, status, sequence], &[]);
        put_end(&mut self.text, (at, number));
    }

    fn serve(&mut self, at: usize, number: u8, frame: &[u8]) {
        let word = |place: usize| u32::from_be_bytes(*frame[place..].first_chunk().unwrap());
        let (command, status, sequence, fields) = (word(4), word(8), word(12), Fields(&frame[16..]));
        let served = match command {
            BIND_RECEIVER | BIND_TRANSMITTER | BIND_TRANSCEIVER => self.bind(at, number, [command, sequence], fields),
            SUBMIT_SM | QUERY_SM | CANCEL_SM => self.request(at, number, [command, sequence], fields),
            UNBIND | ENQUIRE_LINK => self.link(at, number, [command, sequence], fields),
            0x8000_0005 | RESPONSE => return self.response(at, number, [command, status, sequence], fields),
            0x8000_0001..=0x8000_0004 | 0x8000_0006 | 0x8000_0008 | 0x8000_0009 | 0x8000_0015 => return,
            _ => Err(Fault::Nack(3)),
        };
        match served {
            Ok(()) => {}
            Err(Fault::Nack(status)) => put_pdu(&mut self.text, (at, number), [RESPONSE, status, sequence], &[]),
            Err(Fault::Refused(status)) => put_pdu(&mut self.text, (at, number), [command | RESPONSE, status, sequence], &[]),
        }
    }

    fn bind(&mut self, at: usize, number: u8, [command, sequence]: [u32; 2], mut fields: Fields) -> Result<(), Fault> {
        let (system_id, password) = (fields.text(15, 0x0F)?, fields.text(8, 0x0E)?);
        fields.text(12, 0x53)?;
        let version = fields.take(3)?[0];
        fields.text(40, 0x0D)?;
        fields.end()?;
        let session = self.sites[at].sessions.get_mut(&number).unwrap();
        if session.role != 0 { return Err(Fault::Refused(0x05)) }
        let account = ACCOUNTS.iter().position(|account| account.0 == system_id).ok_or(Fault::Refused(0x0F))?;
        if ACCOUNTS[account].1 != password { return Err(Fault::Refused(0x0E)) }
        (session.role, session.account, session.version) = (command, account, version);
        let body: &[u8] = if version >= 0x34 { b"CENTRE\0\x02\x10\0\x01\x34" } else { b"CENTRE\0" };
        put_pdu(&mut self.text, (at, number), [command | RESPONSE, OK, sequence], body);
        Ok(())
    }

    fn link(&mut self, at: usize, number: u8, [command, sequence]: [u32; 2], fields: Fields) -> Result<(), Fault> {
        fields.end()?;
        if command == ENQUIRE_LINK {
            put_pdu(&mut self.text, (at, number), [command | RESPONSE, OK, sequence], &[]);
        } else if self.sites[at].sessions[&number].role == 0 {
            return Err(Fault::Refused(INVALID_BIND_STATUS));
        } else {
            self.leave(at, number, [command | RESPONSE, OK, sequence]);
        }
        Ok(())
    }

    fn request(&mut self, at: usize, number: u8, [command, sequence]: [u32; 2], mut fields: Fields) -> Result<(), Fault> {
        let (mut message, mut asked) = (None, None);
        if command == SUBMIT_SM {
            message = Some(fields.message()?);
        } else {
            if command == CANCEL_SM { fields.text(5, 0x15)?; }
            let (id, source) = (fields.text(64, INVALID_MESSAGE_ID)?, fields.address(0x0A)?.digits);
            let destination = if command == CANCEL_SM { Some(fields.address(0x0B)?.digits) } else { None };
            fields.end()?;
            asked = Some((id, source, destination));
        }
        let session = self.sites[at].sessions.get_mut(&number).unwrap();
        let account = session.account;
        if !matches!(session.role, BIND_TRANSMITTER | BIND_TRANSCEIVER) { return Err(Fault::Refused(INVALID_BIND_STATUS)) }
        if session.requests.len() >= WINDOW { return Err(Fault::Refused(THROTTLED)) }
        let (node, out) = (&mut self.nodes[at], &mut self.out);
        let waits = match (message, asked) {
            (Some(message), _) if message.destination.digits.is_empty() => Err(0x0B),
            (Some(message), _) => node.submit(Message { submitter: account, schedule: node.clock, expiry: node.clock + VALIDITY, ..message }, out),
            (_, Some((b"", _, Some(_)))) => Err(CANCEL_FAILED),
            (_, Some((id, source, Some(destination)))) => node.ask(id, Request::Cancel { account, source, destination }, out),
            (_, Some((id, source, None))) => node.ask(id, Request::Query { account, source }, out),
            (None, None) => unreachable!(),
        };
        session.requests.push((waits.map_err(Fault::Refused)?, command, sequence));
        self.tell(at);
        Ok(())
    }

    fn response(&mut self, at: usize, number: u8, [command, status, sequence]: [u32; 3], mut fields: Fields) {
        if !fields.0.is_empty() && (command == RESPONSE || fields.text(64, 0).and_then(|_| fields.end()).is_err()) { return }
        let pushed = &mut self.sites[at].sessions.get_mut(&number).unwrap().pushed;
        let Some(place) = pushed.iter().position(|pushed| pushed.sequence == sequence) else { return };
        let kind = match status {
            OK if command != RESPONSE => DELIVERED,
            0x65 if command != RESPONSE => Kind::Fate(5, 101),
            0x66 if command != RESPONSE => Kind::Fate(8, 102),
            _ => Kind::Failed(status.min(900) as u16),
        };
        let attempt = pushed.remove(place).attempt;
        self.answered(at, attempt, kind);
    }

    fn tick(&mut self, at: usize, moment: u32) {
        self.nodes[at].tick(moment, self.sites[at].up(), &mut self.out);
        self.tell(at);
        let now = self.nodes[at].clock;
        let overdue = |session: &mut Session| session.pushed.extract_if(.., |pushed| pushed.since + PATIENCE <= now).collect::<Vec<_>>();
        let given_up: Vec<Pushed> = self.sites[at].sessions.values_mut().flat_map(overdue).collect();
        given_up.iter().for_each(|pushed| self.answered(at, pushed.attempt, NO_ANSWER));
        let accounts: Vec<usize> = self.sites[at].sessions.values().filter(|session| session.may_receive()).map(|session| session.account).collect();
        accounts.iter().for_each(|account| self.post(at, *account));
    }

    fn grant(&mut self, at: usize, id: u64) {
        match self.nodes[at].grant(id) {
            Err(reason) => writeln!(self.text, "refused 3 {reason}").unwrap(),
            Ok(chain) => {
                let slot = Some((id, chain.place()));
                match self.sites[at].push(chain.message.target, self.nodes[at].clock, slot) {
                    Some((number, sequence, knows_optional)) => {
                        put_pdu(&mut self.text, (at, number), [DELIVER_SM, OK, sequence], &delivery(&chain.message, knows_optional));
                    }
                    None => self.answered(at, slot, NO_ANSWER),
                }
            }
        }
    }

    fn deliver(&mut self, place: usize, at: usize) {
        let Some(packet) = self.packets.get(place) else { return writeln!(self.text, "refused 1").unwrap() };
        self.nodes[at].on_packet(packet, &mut self.out);
        self.came[place] |= 1 << at;
        while self.came.get(self.marks[at]).is_some_and(|came| came & 1 << at != 0) { self.marks[at] += 1 }
        self.tell(at);
    }

    fn settle(&mut self, nodes: u16) {
        let takes_part = |at: &usize| nodes & 1 << at != 0;
        let mut place = (0..self.nodes.len()).filter(takes_part).map(|at| self.marks[at]).min().unwrap();
        let mut left = MOST_DELIVERIES;
        while let Some(packet) = self.packets.get(place) {
            if takes_part(&(usize::from(packet.sender()) - 1)) {
                for at in (0..self.nodes.len()).filter(takes_part) {
                    if self.came[place] & 1 << at != 0 { continue }
                    self.deliver(place, at);
                    left -= 1;
                    if left == 0 { return writeln!(self.text, "unsettled").unwrap() }
                }
            }
            place += 1;
        }
    }
}

fn number<T: FromStr>(word: &[u8]) -> Option<T> { std::str::from_utf8(word).ok()?.parse().ok() }

fn digit(octet: u8) -> Option<u8> {
    match octet {
        b'0'..=b'9' => Some(octet - b'0'),
        b'a'..=b'f' => Some(octet - b'a' + 10),
        b'A'..=b'F' => Some(octet - b'A' + 10),
        _ => None,
    }
}

/// Does what a line says; none if it is no line that the peer has.
fn run(centre: &mut Option<Centre>, octets: &mut Vec<u8>, line: &[u8]) -> Option<()> {
    if line.is_empty() || line.starts_with(b"#") { return Some(()) }
    let mut words = line.split(|octet| *octet == b' ');
    let word = words.next()?;
    let Some(centre) = centre else {
        if word != b"nodes" { return None }
        let nodes = number(words.next()?).filter(|nodes| (1..=9).contains(nodes))?;
        *centre = Some(Centre::start(nodes, words.next().map_or(Some(1), number)?));
        return Some(());
    };
    let count = centre.nodes.len();
    let node = |word: &[u8]| number(word).filter(|node| (1..=count).contains(node)).map(|node: usize| node - 1);
    match word {
        b"pdu" => {
            let (at, session, digits) = (node(words.next()?)?, number(words.next()?)?, words.next()?);
            octets.clear();
            for pair in digits.chunks_exact(2) { octets.push(digit(pair[0])? << 4 | digit(pair[1])?) }
            centre.octets(at, session, octets);
        }
        b"tick" => centre.tick(node(words.next()?)?, number(words.next()?)?),
        b"grant" => centre.grant(node(words.next()?)?, read_id(words.next()?)?),
        b"deliver" => {
            let place: usize = number(words.next()?)?;
            centre.deliver(place.wrapping_sub(1), node(words.next()?)?);
        }
        b"replay" => {
            let times: u64 = number(words.next()?)?;
            let sent = centre.packets.len();
            (0..times).for_each(|_| (0..sent).rev().for_each(|place| (0..count).for_each(|at| centre.deliver(place, at))));
        }
        b"settle" => {
            let nodes = words.by_ref().try_fold(0, |nodes, word| Some(nodes | 1 << node(word)?))?;
            centre.settle(if nodes == 0 { u16::MAX } else { nodes });
        }
        _ => return None,
    }
    if words.next().is_none() { Some(()) } else { None }
}

#[cfg(server)]
fn main() -> io::Result<()> { server::serve() }

#[cfg(not(server))]
fn main() -> io::Result<()> {
    let (mut input, mut output) = (io::stdin().lock(), io::stdout().lock());
    let (mut centre, mut line, mut octets, mut count) = (None, Vec::new(), Vec::new(), 0);
    while input.read_until(b'\n', &mut line)? > 0 {
        count += 1;
        if run(&mut centre, &mut octets, line.strip_suffix(b"\n").unwrap_or(&line)).is_none() {
            end(&format!("line {count} is none of the peer's"));
        }
        if let Some(centre) = &mut centre {
            output.write_all(&centre.text)?;
            centre.text.clear();
        }
        line.clear();
    }
    output.flush()
}
