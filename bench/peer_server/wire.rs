//! What both servers share of sessions: accounts, and frames that go out.
use std::collections::BTreeMap;
use std::io::{Read, Write};
use std::net::{Shutdown, TcpListener, TcpStream};
use std::{io, thread};

pub(crate) const ALL: usize = 9;
/// An account for each node: what begins with its digit goes to it.
pub(crate) const ACCOUNTS: [(&[u8], &[u8]); ALL] = [
    (b"load1", b"load"), (b"load2", b"load"), (b"load3", b"load"), (b"load4", b"load"), (b"load5", b"load"), (b"load6", b"load"), (b"load7", b"load"),
    (b"load8", b"load"), (b"load9", b"load"),
];

pub(crate) fn route(digits: &[u8]) -> usize { digits.first().map_or(0, |digit| usize::from(digit.wrapping_sub(b'1')).min(ALL - 1)) }

/// A frame of a session: the session's number, and its octets.
pub(crate) fn put_pdu(text: &mut Vec<u8>, (_, number): (usize, u8), [command, status, sequence]: [u32; 3], body: &[u8]) {
    text.push(number);
    [16 + body.len() as u32, command, status, sequence].iter().for_each(|word| text.extend_from_slice(&word.to_be_bytes()));
    text.extend_from_slice(body);
}

/// The end of a session: its number, and a length of none.
pub(crate) fn put_end(text: &mut Vec<u8>, (_, number): (usize, u8)) { text.extend_from_slice(&[number, 0, 0, 0, 0]) }

/// The connections of a node's sessions.
#[derive(Default)]
pub(super) struct Streams(BTreeMap<u8, TcpStream>);

impl Streams {
    pub(super) fn insert(&mut self, number: u8, stream: TcpStream) { self.0.insert(number, stream); }

    pub(super) fn remove(&mut self, number: u8) { self.0.remove(&number); }

    /// The frames of a text go out, those of a session in one write, and the sessions end whose end it tells.
    pub(super) fn send(&mut self, text: &[u8]) {
        let mut frames: BTreeMap<u8, Vec<u8>> = BTreeMap::new();
        let mut ended = vec![];
        let mut rest = text;
        while let [number, others @ ..] = rest {
            let length = u32::from_be_bytes(*others.first_chunk().unwrap()) as usize;
            if length == 0 { ended.push(*number) }
            let (frame, others) = others.split_at(length.max(4));
            if length > 0 { frames.entry(*number).or_default().extend_from_slice(frame) }
            rest = others;
        }
        for (number, octets) in frames {
            if let Some(stream) = self.0.get_mut(&number) { drop(stream.write_all(&octets)) }
        }
        for number in ended {
            if let Some(stream) = self.0.remove(&number) { drop(stream.shutdown(Shutdown::Both)) }
        }
    }
}

/// What comes of a session, for who has its node.
pub(super) trait Door: Clone + Send + 'static {
    /// A session has this connection. False ends all.
    fn join(&mut self, number: u8, stream: TcpStream) -> bool;

    /// The octets that came next. False ends the session.
    fn take(&mut self, number: u8, octets: &[u8]) -> bool;

    fn leave(&mut self, number: u8);
}

/// Accepts connections at a port, each read by a thread of its own.
pub(super) fn listen(port: u16, mut door: impl Door) -> io::Result<()> {
    let listener = TcpListener::bind(("127.0.0.1", port))?;
    thread::spawn(move || {
        for (number, stream) in (1..=u8::MAX).cycle().zip(listener.incoming().flatten()) {
            let (Ok(()), Ok(other)) = (stream.set_nodelay(true), stream.try_clone()) else { continue };
            if !door.join(number, other) { return }
            let theirs = door.clone();
            thread::spawn(move || read(number, stream, theirs));
        }
    });
    Ok(())
}

/// Reads a connection, and hands on what comes.
fn read(number: u8, mut stream: TcpStream, mut door: impl Door) {
    let mut octets = [0; 65_536];
    while let Ok(count @ 1..) = stream.read(&mut octets) {
        if !door.take(number, &octets[..count]) { return }
    }
    door.leave(number);
}
