//! The peer's nodes as a server, as one would write it who wants it short and quick: a thread a node, packets in batches over channels, an attempt as soon as a
//! message is taken, one transaction for all saves of a batch. The README says what it leaves out.
use super::host::{Due, Host};
use super::store::Store;
use super::wire::{Door, Streams};
use super::*;
use std::net::TcpStream;
use std::sync::Arc;
use std::sync::mpsc::{Receiver, RecvTimeoutError, Sender, channel};
use std::thread;
use std::time::{Duration, Instant};

const TICK: Duration = Duration::from_secs(1);
/// How many events are taken before what they gave goes out.
const BATCH: usize = 1_000;

enum Event { Packets(Arc<Vec<Packet>>), Joined(u8, TcpStream), Octets(u8, Vec<u8>), Left(u8), End }

/// A node, with its sessions.
struct Plain { host: Host, streams: Streams, nodes: Vec<Sender<Event>>, store: Option<Store> }

impl Plain {
    fn run(mut self, events: Receiver<Event>) {
        self.host.tick();
        let mut ticked = Instant::now();
        loop {
            match events.recv_timeout(TICK.saturating_sub(ticked.elapsed())) {
                Ok(Event::End) | Err(RecvTimeoutError::Disconnected) => return,
                Ok(event) => {
                    self.take(event);
                    for event in events.try_iter().take(BATCH) {
                        if matches!(event, Event::End) { return }
                        self.take(event);
                    }
                }
                Err(RecvTimeoutError::Timeout) => {}
            }
            if ticked.elapsed() >= TICK {
                self.host.tick();
                ticked = Instant::now();
            }
            self.save();
            self.send();
        }
    }

    fn take(&mut self, event: Event) {
        match event {
            Event::Packets(packets) => packets.iter().for_each(|packet| self.come(packet)),
            Event::Joined(number, stream) => self.streams.insert(number, stream),
            Event::Octets(number, octets) => {
                let account = self.host.hear(number, &octets);
                self.note_up();
                if let Some(account) = account { self.feed(account) }
            }
            Event::Left(number) => {
                self.host.leave(number);
                self.streams.remove(number);
                self.note_up();
            }
            Event::End => {}
        }
    }

    /// What waits for an account that is new is begun.
    fn note_up(&mut self) {
        if self.host.note_up() { self.host.tick() }
    }

    fn come(&mut self, packet: &Packet) {
        match self.host.come(packet) {
            Some(Due::Begin(id)) => self.host.begin(id),
            Some(Due::Feed(account)) => self.feed(account),
            None => {}
        }
    }

    fn feed(&mut self, account: usize) {
        while let Some(id) = self.host.next_for(account) { self.host.send_out(account, id) }
    }

    /// What the events changed is saved, by one transaction.
    fn save(&mut self) {
        let saved = std::mem::take(&mut self.host.centre.out.saved);
        if let Some(store) = &mut self.store && !saved.is_empty() { store.save_all(self.host.node(), saved) }
    }

    /// What the events gave goes out: packets to all nodes, and frames.
    fn send(&mut self) {
        let packets = std::mem::take(&mut self.host.centre.packets);
        self.host.centre.came.clear();
        if !packets.is_empty() {
            let packets = Arc::new(packets);
            self.nodes.iter().for_each(|node| drop(node.send(Event::Packets(packets.clone()))));
        }
        self.streams.send(&std::mem::take(&mut self.host.centre.text));
    }
}

#[derive(Clone)]
struct Sessions(Sender<Event>);

impl Door for Sessions {
    fn join(&mut self, number: u8, stream: TcpStream) -> bool { self.0.send(Event::Joined(number, stream)).is_ok() }

    fn take(&mut self, number: u8, octets: &[u8]) -> bool { self.0.send(Event::Octets(number, octets.to_vec())).is_ok() }

    fn leave(&mut self, number: u8) { let _ = self.0.send(Event::Left(number)); }
}

/// Serves a node at each of these ports until standard input ends, over a file for each in the folder, if one is named.
pub(super) fn serve(folder: Option<&str>, ports: &[u16]) -> io::Result<()> {
    let count = ports.len() as u8;
    let (nodes, events): (Vec<_>, Vec<_>) = ports.iter().map(|_| channel()).unzip();
    let mut threads = vec![];
    for ((number, port), events) in (1..=count).zip(ports).zip(events) {
        let store = folder.map(|folder| Store::open(&format!("{folder}/{number}.db")));
        let plain = Plain { host: Host::start(count, number), streams: Streams::default(), nodes: nodes.clone(), store };
        wire::listen(*port, Sessions(nodes[usize::from(number) - 1].clone()))?;
        threads.push(thread::spawn(move || plain.run(events)));
    }
    println!("serving");
    io::copy(&mut io::stdin().lock(), &mut io::sink())?;
    nodes.iter().for_each(|node| drop(node.send(Event::End)));
    threads.into_iter().for_each(|thread| drop(thread.join()));
    Ok(())
}
