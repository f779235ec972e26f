//! What an acceptor stores, by C sqlite: the table of `centre serve`, in WAL mode with synchronous=FULL.
use super::*;
use std::ffi::{CStr, CString, c_char, c_int, c_void};
use std::ptr::{null, null_mut};

const DONE: c_int = 101;
const MAKE: &CStr = c"CREATE TABLE IF NOT EXISTS slots (id INTEGER NOT NULL, place INTEGER NOT NULL, promised INTEGER NOT NULL, voted INTEGER NOT NULL, \
    chain BLOB NOT NULL, PRIMARY KEY (id, place))";
const SAVE: &CStr = c"INSERT INTO slots VALUES (?1, ?2, ?3, ?4, ?5) ON CONFLICT (id, place) DO UPDATE SET promised = ?3, voted = ?4, chain = ?5";

#[link(name = "sqlite3")]
unsafe extern "C" {
    fn sqlite3_open(path: *const c_char, store: *mut *mut c_void) -> c_int;
    fn sqlite3_exec(store: *mut c_void, text: *const c_char, each: *const c_void, with: *mut c_void, fault: *mut *mut c_char) -> c_int;
    fn sqlite3_prepare_v2(store: *mut c_void, text: *const c_char, length: c_int, made: *mut *mut c_void, rest: *mut *const c_char) -> c_int;
    fn sqlite3_bind_int64(made: *mut c_void, at: c_int, value: i64) -> c_int;
    fn sqlite3_bind_blob(made: *mut c_void, at: c_int, octets: *const c_void, length: c_int, free: *const c_void) -> c_int;
    fn sqlite3_step(made: *mut c_void) -> c_int;
    fn sqlite3_reset(made: *mut c_void) -> c_int;
}

/// A node's records. One thread at a time has it.
pub(super) struct Store { store: *mut c_void, save: *mut c_void }

// SAFETY: sqlite is built so that threads may hand a connection on.
unsafe impl Send for Store {}

fn is_well(status: c_int, wanted: c_int) {
    if status != wanted { end(&format!("sqlite answered {status}")) }
}

impl Store {
    /// The store in a file, or in memory if the path is `:memory:`.
    pub(super) fn open(path: &str) -> Store {
        let (mut store, mut save, path) = (null_mut(), null_mut(), CString::new(path).unwrap());
        // SAFETY: the texts end with a zero, and both pointers are written to.
        unsafe {
            is_well(sqlite3_open(path.as_ptr(), &mut store), 0);
            for text in [c"PRAGMA journal_mode = WAL", c"PRAGMA synchronous = FULL", MAKE] { Self::exec(store, text) }
            is_well(sqlite3_prepare_v2(store, SAVE.as_ptr(), -1, &mut save, null_mut()), 0);
        }
        Store { store, save }
    }

    fn exec(store: *mut c_void, text: &CStr) {
        // SAFETY: the connection is open, and the text ends with a zero.
        is_well(unsafe { sqlite3_exec(store, text.as_ptr(), null(), null_mut(), null_mut()) }, 0)
    }

    /// Saves the record of a slot, by one statement.
    pub(super) fn save(&mut self, node: &mut Node, (id, place): (u64, usize)) {
        let record = node.entry(id).record(place);
        let (promised, voted) = (record.promised, record.vote.as_ref().map_or(0, |vote| vote.ballot));
        let chain = record.vote.as_ref().map_or(vec![], |vote| chain_octets(&vote.chain));
        // SAFETY: the statement is of an open connection, and the octets stay until it has run.
        unsafe {
            for (at, value) in (1..).zip([id, place as u64, promised, voted]) { is_well(sqlite3_bind_int64(self.save, at, value as i64), 0) }
            is_well(sqlite3_bind_blob(self.save, 5, chain.as_ptr().cast(), chain.len() as c_int, null()), 0);
            is_well(sqlite3_step(self.save), DONE);
            is_well(sqlite3_reset(self.save), 0);
        }
    }

    /// Saves the records of these slots, by one transaction.
    pub(super) fn save_all(&mut self, node: &mut Node, slots: Vec<(u64, usize)>) {
        Self::exec(self.store, c"BEGIN");
        slots.into_iter().for_each(|slot| self.save(node, slot));
        Self::exec(self.store, c"COMMIT");
    }
}

fn put_address(octets: &mut Vec<u8>, address: &Address) {
    octets.extend([address.ton, address.npi, address.digits.len() as u8]);
    octets.extend_from_slice(&address.digits);
}

/// A chain as it is stored: format 1.
fn chain_octets(chain: &Chain) -> Vec<u8> {
    let (mut octets, message) = (vec![1], &chain.message);
    octets.extend(chain.id.to_be_bytes());
    octets.extend((chain.decrees.len() as u16).to_be_bytes());
    for decree in &chain.decrees {
        let kind = match decree.kind { Kind::Taken => 1, Kind::Attempt(_) => 2, Kind::Failed(_) => 3, Kind::Fate(..) => 4, Kind::Told => 5 };
        octets.extend([kind, decree.author, 0, 1]);
        octets.extend(decree.moment.to_be_bytes());
        match decree.kind {
            Kind::Taken => {
                for account in [message.submitter, message.target] {
                    octets.push(ACCOUNTS[account].0.len() as u8);
                    octets.extend_from_slice(ACCOUNTS[account].0);
                }
                octets.push(message.service.len() as u8);
                octets.extend_from_slice(&message.service);
                put_address(&mut octets, &message.source);
                put_address(&mut octets, &message.destination);
                octets.extend([message.esm_class, message.protocol, message.priority, message.registered, message.coding]);
                octets.extend(message.schedule.to_be_bytes());
                octets.extend(message.expiry.to_be_bytes());
                octets.push(message.text.len() as u8);
                octets.extend_from_slice(&message.text);
                octets.extend((message.passed.len() as u16).to_be_bytes());
                octets.extend_from_slice(&message.passed);
            }
            Kind::Attempt(number) => octets.push(number as u8),
            Kind::Failed(error) => octets.extend(error.to_be_bytes()),
            Kind::Fate(state, error) => { octets.push(state); octets.extend(error.to_be_bytes()) }
            Kind::Told => {}
        }
    }
    octets
}
