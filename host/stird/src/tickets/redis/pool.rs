//! The connections to a Redis that nobody uses now.
use super::connection::Connection;
use std::sync::Mutex;
use stir_trust::locks::Held;

/// So many at most are kept.
pub const MOST: usize = 64;

/// How often the pool was emptied. A connection from before that isn't taken back, and what it told
/// of the Redis is old.
#[derive(Clone, Copy, Debug, Default, PartialEq, Eq)]
pub struct Age(u64);

#[derive(Default)]
pub struct Pool {
    inner: Mutex<(Age, Vec<Connection>)>,
}

impl Pool {
    /// A connection, if there is one, and the pool's age, by which one is given back.
    pub fn take(&self) -> (Age, Option<Connection>) {
        let mut inner = self.inner.lock().held();
        (inner.0, inner.1.pop())
    }

    /// Gives one back after something was done with it; false if the pool was emptied meanwhile.
    pub fn give_back(&self, age: Age, connection: Connection) -> bool {
        let mut inner = self.inner.lock().held();
        let is_young = inner.0 == age;
        if is_young && connection.is_quiet() && inner.1.len() < MOST {
            inner.1.push(connection);
        }
        is_young
    }

    /// Closes all. Gives the new age.
    pub fn empty(&self) -> Age {
        let mut inner = self.inner.lock().held();
        inner.0 = Age(inner.0 .0.wrapping_add(1));
        inner.1.clear();
        inner.0
    }
}
