//! The peer's nodes as a server of the structure that `centre serve` has: one step at a time under the lock of its node, an entry for each under the lock of one
//! journal, where its packets get their numbers; one statement for each save; the node's own list of entries, and a slip for each at the thread that took the
//! step. An attempt begins as soon as its message is taken. Nothing is compared, and no part of the journal is closed.
use super::host::{Due, Host};
use super::store::Store;
use super::wire::{Door, Streams};
use super::*;
use std::net::TcpStream;
use std::sync::mpsc::{Receiver, RecvTimeoutError, Sender, channel};
use std::sync::{Arc, Mutex, MutexGuard};
use std::thread;
use std::time::{Duration, Instant};

const TICK: Duration = Duration::from_secs(1);

/// A step of a node: the packet that came, by its number, or what else came, in octets; and the packets that it gave out.
struct Entry { node: u8, packet: Option<u64>, came: Vec<u8>, packets: Vec<Packet> }

/// An entry in the journal, and how many packets had numbers before it.
struct Noted { before: u64, entry: Arc<Entry> }

/// An entry with its number.
struct Slip { number: usize, before: u64, entry: Arc<Entry> }

#[derive(Default)]
struct Journal { noted: Vec<Noted>, sent: u64, claims: usize }

impl Journal {
    /// The packet with a number, from 1.
    fn packet(&self, number: u64) -> &Packet {
        let noted = &self.noted[self.noted.partition_point(|noted| noted.before < number) - 1];
        &noted.entry.packets[(number - noted.before) as usize - 1]
    }

    /// Room is claimed for an entry; the packet that comes is copied.
    fn claim(&mut self, number: Option<u64>) -> Option<Packet> {
        self.claims += 1;
        number.map(|number| self.packet(number).clone())
    }

    /// Pushes an entry; the packet that came has to be that of its number.
    fn push(&mut self, entry: Arc<Entry>, packet: Option<&Packet>) -> Slip {
        if let (Some(number), Some(packet)) = (entry.packet, packet) && self.packet(number) != packet { end("another packet came") }
        self.claims -= 1;
        let before = self.sent;
        self.sent += entry.packets.len() as u64;
        self.noted.push(Noted { before, entry: entry.clone() });
        Slip { number: self.noted.len(), before, entry }
    }
}

/// A node under its lock, with its store and its own entries.
struct Post { host: Host, store: Store, own: Vec<Arc<Entry>> }

/// What is told to the thread of a node: how many packets have numbers.
enum Event { Sent(u64), End }

struct Cluster { posts: Vec<Mutex<Post>>, streams: Vec<Mutex<Streams>>, journal: Mutex<Journal>, nodes: Vec<Mutex<Sender<Event>>> }

/// A node, for a thread that takes steps of it, with the slips of these.
struct Seat { cluster: Arc<Cluster>, at: usize, slips: Vec<Slip> }

impl Clone for Seat {
    fn clone(&self) -> Seat { Seat { cluster: self.cluster.clone(), at: self.at, slips: vec![] } }
}

impl Seat {
    fn post(&self) -> MutexGuard<'_, Post> { self.cluster.posts[self.at].lock().unwrap() }

    /// Takes one step.
    fn act<T>(&mut self, number: Option<u64>, came: &[u8], step: impl FnOnce(&mut Host, Option<&Packet>) -> T) -> T {
        let cluster = self.cluster.clone();
        let mut guard = cluster.posts[self.at].lock().unwrap();
        let post = &mut *guard;
        let packet = cluster.journal.lock().unwrap().claim(number);
        let done = step(&mut post.host, packet.as_ref());
        let saved = std::mem::take(&mut post.host.centre.out.saved);
        saved.into_iter().for_each(|slot| post.store.save(post.host.node(), slot));
        let packets = std::mem::take(&mut post.host.centre.packets);
        post.host.centre.came.clear();
        let entry = Arc::new(Entry { node: self.at as u8 + 1, packet: number, came: came.to_vec(), packets });
        let slip = cluster.journal.lock().unwrap().push(entry.clone(), packet.as_ref());
        let sent = slip.before + entry.packets.len() as u64;
        post.own.push(entry);
        let text = std::mem::take(&mut post.host.centre.text);
        let mut streams = cluster.streams[self.at].lock().unwrap();
        drop(guard);
        if !text.is_empty() { streams.send(&text) }
        drop(streams);
        if slip.before < sent { cluster.nodes.iter().for_each(|node| drop(node.lock().unwrap().send(Event::Sent(sent)))) }
        self.slips.push(slip);
        done
    }

    fn tick(&mut self) { self.act(None, b"tick", |host, _| host.tick()) }

    fn come(&mut self, number: u64) {
        match self.act(Some(number), &[], |host, packet| host.come(packet.unwrap())) {
            Some(Due::Begin(id)) => self.act(None, &id.to_be_bytes(), |host, _| host.begin(id)),
            Some(Due::Feed(account)) => self.feed(account),
            None => {}
        }
    }

    fn feed(&mut self, account: usize) {
        loop {
            let Some(id) = self.post().host.next_for(account) else { return };
            self.act(None, &id.to_be_bytes(), |host, _| host.send_out(account, id));
        }
    }

    /// What waits for an account that is new is begun.
    fn note_up(&mut self) {
        let is_new = self.post().host.note_up();
        if is_new { self.tick() }
    }

    /// Takes the packets in the order of their numbers, and a tick each second.
    fn run(mut self, events: Receiver<Event>) {
        self.tick();
        let (mut ticked, mut next) = (Instant::now(), 1);
        loop {
            let event = events.recv_timeout(TICK.saturating_sub(ticked.elapsed()));
            let last = std::iter::once(event).chain(events.try_iter().map(Ok)).try_fold(0, |last, event| match event {
                Ok(Event::Sent(sent)) => Some(sent.max(last)),
                Ok(Event::End) | Err(RecvTimeoutError::Disconnected) => None,
                Err(RecvTimeoutError::Timeout) => Some(last),
            });
            let Some(last) = last else { return };
            while next <= last {
                self.come(next);
                next += 1;
            }
            if ticked.elapsed() >= TICK {
                self.tick();
                ticked = Instant::now();
            }
        }
    }
}

/// A session's thread, with the octets of a frame that has not come whole.
#[derive(Clone)]
struct Sessions { seat: Seat, rest: Vec<u8> }

impl Door for Sessions {
    fn join(&mut self, number: u8, stream: TcpStream) -> bool {
        self.seat.cluster.streams[self.seat.at].lock().unwrap().insert(number, stream);
        true
    }

    /// Each frame is a step.
    fn take(&mut self, number: u8, octets: &[u8]) -> bool {
        self.rest.extend_from_slice(octets);
        let rest = std::mem::take(&mut self.rest);
        let mut left = &rest[..];
        while let Some(length) = left.first_chunk().map(|length| u32::from_be_bytes(*length) as usize) {
            let Some((frame, others)) = left.split_at_checked(length.clamp(4, 8_192)) else { break };
            let account = self.seat.act(None, frame, |host, _| host.hear(number, frame));
            self.seat.note_up();
            if let Some(account) = account { self.seat.feed(account) }
            left = others;
        }
        self.rest.extend_from_slice(left);
        true
    }

    fn leave(&mut self, number: u8) {
        self.seat.act(None, &[number], |host, _| host.leave(number));
        self.seat.cluster.streams[self.seat.at].lock().unwrap().remove(number);
        self.seat.note_up();
    }
}

/// Serves a node at each of these ports until standard input ends, over a file for each in the folder, if one is named, and over sqlite in memory else.
pub(super) fn serve(folder: Option<&str>, ports: &[u16]) -> io::Result<()> {
    let count = ports.len() as u8;
    let (nodes, events): (Vec<_>, Vec<_>) = ports.iter().map(|_| channel()).unzip();
    let path = |number| folder.map_or(":memory:".to_string(), |folder| format!("{folder}/{number}.db"));
    let post = |number| Mutex::new(Post { host: Host::start(count, number), store: Store::open(&path(number)), own: vec![] });
    let cluster = Arc::new(Cluster {
        posts: (1..=count).map(post).collect(), streams: ports.iter().map(|_| Mutex::default()).collect(), journal: Mutex::default(),
        nodes: nodes.iter().cloned().map(Mutex::new).collect(),
    });
    let mut threads = vec![];
    for ((at, port), events) in ports.iter().enumerate().zip(events) {
        let seat = Seat { cluster: cluster.clone(), at, slips: vec![] };
        wire::listen(*port, Sessions { seat: seat.clone(), rest: vec![] })?;
        threads.push(thread::spawn(move || seat.run(events)));
    }
    println!("serving");
    io::copy(&mut io::stdin().lock(), &mut io::sink())?;
    nodes.iter().for_each(|node| drop(node.send(Event::End)));
    threads.into_iter().for_each(|thread| drop(thread.join()));
    Ok(())
}
