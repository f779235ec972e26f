//! Two servers over the peer's nodes. The README says what each leaves out.
use super::*;

#[path = "host.rs"]
mod host;
#[path = "law.rs"]
mod law;
#[path = "plain.rs"]
mod plain;
#[path = "store.rs"]
mod store;
#[path = "wire.rs"]
mod wire;

pub(crate) use wire::{ACCOUNTS, put_end, put_pdu, route};

/// Serves as the arguments say: `plain` or `law`, a folder for the stores or `memory`, and the ports.
pub(super) fn serve() -> io::Result<()> {
    let words: Vec<String> = std::env::args().skip(1).collect();
    let [kind, stores, ports @ ..] = &words[..] else { end("two words and the ports are wanted") };
    let folder = if stores == "memory" { None } else { Some(&stores[..]) };
    let ports: Vec<u16> = ports.iter().map(|word| word.parse().unwrap_or_else(|_| end("an argument is no port"))).collect();
    match &kind[..] {
        "plain" => plain::serve(folder, &ports),
        "law" => law::serve(folder, &ports),
        _ => end("plain or law is wanted"),
    }
}
