//! What lines do to a store in memory that is lent as `stock` lends it.
use crate::ask::refused;
use crate::lines::{command, Command};
use crate::owned::{self, Owned};
use mdeh::{Refusal, Shape};

/// "It lends 4,096 words, 32,768 page bytes".
const BYTES: usize = 32768;

/// Why a line was passed over: it is of another form, or the store refused its call.
#[derive(Clone, Copy, Debug, PartialEq, Eq)]
pub enum Fault {
    Bad,
    Refused(Refusal),
}

/// The store of the last accepted `shape`, if there was one. By default no attribute is signed, as in `stock`.
#[derive(Default)]
pub struct Session {
    /// the marks of signed attributes in every shape, bit j for attribute j
    signs: u32,
    store: Option<Owned>,
}

impl Session {
    /// A session whose shapes have these marks of signed attributes. If there is one, values may have a minus sign.
    pub fn signed(signs: u32) -> Session {
        Session { signs, store: None }
    }

    /// Does what a line without its newline says. Changes nothing where it returns a fault.
    pub fn take(&mut self, line: &[u8]) -> Result<(), Fault> {
        let attributes = self.store.as_ref().map_or(0, |store| store.shape().attributes as usize);
        match command(line, attributes, self.signs != 0).ok_or(Fault::Bad)? {
            Command::Shape(shape) => {
                let shape = Shape { signs: self.signs, ..shape };
                self.store = Some(owned::fresh(shape, BYTES).map_err(Fault::Refused)?);
                Ok(())
            }
            Command::Put(key, payload) => self.call(|store| store.insert(key, payload)),
            Command::Cut(key) => self.call(|store| store.delete(key)),
            // asked for its refusal alone, with no room for records
            Command::List(query) => self.call(|store| store.query(query, &mut []).map(drop)),
        }
    }

    /// The store, if there is one.
    pub fn store(self) -> Option<Owned> {
        self.store
    }

    /// A call on the store, whose answer is left aside; a line "before an accepted `shape`" is bad.
    fn call<T>(&mut self, call: impl FnOnce(&mut Owned) -> Result<T, Refusal>) -> Result<(), Fault> {
        let store = self.store.as_mut().ok_or(Fault::Bad)?;
        call(store).map(drop).map_err(Fault::Refused)
    }
}

impl std::fmt::Display for Fault {
    /// As `stock` replies, with the reason of a refusal.
    fn fmt(&self, f: &mut std::fmt::Formatter<'_>) -> std::fmt::Result {
        match self {
            Fault::Bad => write!(f, "bad line"),
            Fault::Refused(refusal) => f.write_str(&refused(refusal)),
        }
    }
}
