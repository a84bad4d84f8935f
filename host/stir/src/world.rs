//! What every call goes by.

use crate::call::Call;
use crate::chain::Chain;
use crate::handle::WorldHandle;
use crate::{Error, Input};
use std::sync::{Arc, Mutex, PoisonError};
use stir_sys::stir_settings;

/// How many handles that serve no thread just now are kept for those to come.
const MOST_FREE: usize = 64;

/// How calls are judged.
///
/// ```
/// use stir::{Settings, World};
///
/// let settings = Settings { country: "44".into(), ..Settings::default() };
/// let world = World::open(&settings, b"", b"")?;
/// # Ok::<(), stir::Error>(())
/// ```
#[derive(Clone, Debug, PartialEq, Eq)]
pub struct Settings {
    /// How many seconds the moment of a call may be after the `iat` of a PASSporT.
    pub past: u64,
    /// How many seconds the `iat` may be after the moment; at most 86,400 each.
    pub future: u64,
    /// The digits of the own country, 1 to 3.
    pub country: String,
    /// How many digits a number in it has, 1 to 14, and with those of the country 15 at most.
    pub national: u8,
}

impl Default for Settings {
    /// A PASSporT may be 60 seconds old and 5 ahead, and numbers are those of North America.
    ///
    /// ```
    /// assert_eq!(stir::Settings::default().past, 60);
    /// ```
    fn default() -> Settings {
        Settings { past: 60, future: 5, country: "1".into(), national: 10 }
    }
}

impl Settings {
    /// The same as the library takes them.
    fn raw(&self) -> Result<stir_settings, Error> {
        let mut country = [0; 3];
        let digits = self.country.as_bytes();
        country.get_mut(..digits.len()).ok_or(Input::Settings)?.copy_from_slice(digits);
        Ok(stir_settings {
            past: self.past,
            future: self.future,
            country,
            country_size: digits.len() as u8,
            national: self.national,
        })
    }
}

/// Settings, trust anchors and a code table, read once. A clone is the same world.
///
/// Any number of threads may use it at once: each call of the library has a handle of its own,
/// which is handed out under a short lock.
///
/// ```
#[doc = include_str!("../tests/given/hidden.md")]
/// let world = stir::World::open(&stir::Settings::default(), given::ANCHORS, given::TABLE)?;
/// std::thread::scope(|threads| {
///     threads.spawn(|| world.call(given::MOMENT, given::INVITE).map(|call| call.early()));
/// });
/// # Ok::<(), stir::Error>(())
/// ```
#[derive(Clone, Debug)]
pub struct World(Arc<Mutex<Shares>>);

/// The handles of one world.
#[derive(Debug)]
struct Shares {
    /// The one from which others are shared. It serves no call.
    first: WorldHandle,
    /// Those that serve no call just now.
    free: Vec<WorldHandle>,
}

impl World {
    /// Reads the trust anchors, in DER one after another, and the lines of a code table
    /// (docs/FORMATS.md).
    ///
    /// # Errors
    ///
    /// The first bad input of settings, anchors and table, or want of memory.
    ///
    /// ```
    #[doc = include_str!("../tests/given/hidden.md")]
    /// use stir::{Error, Input, Settings, World};
    ///
    /// let world = World::open(&Settings::default(), given::ANCHORS, given::TABLE)?;
    /// let faulty = World::open(&Settings::default(), b"no anchors", given::TABLE);
    /// assert_eq!(faulty.err(), Some(Error::BadInput(Input::Anchors)));
    /// # Ok::<(), stir::Error>(())
    /// ```
    pub fn open(settings: &Settings, anchors: &[u8], table: &[u8]) -> Result<World, Error> {
        // SAFETY: nothing is owed.
        let version = unsafe { stir_sys::stir_abi() };
        if version != stir_sys::ABI {
            return Err(Error::OtherVersion(version));
        }
        let settings = settings.raw()?;
        // SAFETY: all are lent for the call, and `out` is a closed handle.
        let (first, _) = unsafe {
            WorldHandle::opened(|out| {
                stir_sys::stir_world_open(
                    &settings,
                    anchors.as_ptr(),
                    anchors.len(),
                    table.as_ptr(),
                    table.len(),
                    out,
                )
            })
        }?;
        Ok(World(Arc::new(Mutex::new(Shares { first, free: Vec::new() }))))
    }

    /// Judges the certificates to which an x5u leads: each in DER, one after another, the leaf
    /// first. None of their signatures counts as good yet ([`Chain::confirmed`]).
    ///
    /// Any bytes are taken. Those that are no chain, or too long for one, break rule 11 in each
    /// call.
    ///
    /// # Errors
    ///
    /// Want of memory.
    ///
    /// ```
    #[doc = include_str!("../tests/given/hidden.md")]
    /// let chain = world.chain(given::CHAIN)?;
    /// assert_eq!(chain.questions()?.len(), 2);
    /// assert!(world.chain(b"no chain")?.questions()?.is_empty());
    /// # Ok::<(), stir::Error>(())
    /// ```
    pub fn chain(&self, der: &[u8]) -> Result<Chain, Error> {
        self.lent(|world| Chain::open(self, world, der))
    }

    /// Reads an INVITE that came at this moment, in Unix seconds, and tries the rules of the call.
    ///
    /// # Errors
    ///
    /// Want of memory.
    ///
    /// ```
    #[doc = include_str!("../tests/given/hidden.md")]
    /// use stir::{Refused, Verdict};
    ///
    /// let mut call = world.call(given::MOMENT, given::INVITE)?;
    /// assert_eq!(call.x5us()?, [given::X5U.as_bytes()]);
    /// call.set_chain(0, &chain)?;
    /// assert!(matches!(call.verify(given::good)?, Verdict::Passes(_)));
    ///
    /// let late = world.call(given::MOMENT + 61, given::INVITE)?;
    /// let refused = Refused { rule: 9, code: 403, field: 1, part: 0 };
    /// assert_eq!(late.early(), Verdict::Refused(refused));
    /// # Ok::<(), stir::Error>(())
    /// ```
    pub fn call(&self, moment: u64, message: &[u8]) -> Result<Call, Error> {
        self.lent(|world| Call::open(self, world, moment, message))
    }

    /// Whether it is the same world, and not one that was opened from the same bytes.
    pub(crate) fn is(&self, other: &World) -> bool {
        Arc::ptr_eq(&self.0, &other.0)
    }

    /// Lends a handle to a call of the library. The lock isn't held meanwhile.
    fn lent<T>(&self, call: impl FnOnce(&mut WorldHandle) -> Result<T, Error>) -> Result<T, Error> {
        let mut handle = self.with(|shares| match shares.free.pop() {
            Some(handle) => Ok(handle),
            None => shares.first.share(),
        })?;
        let came = call(&mut handle);
        self.with(|shares| {
            if shares.free.len() < MOST_FREE {
                shares.free.push(handle);
            }
        });
        came
    }

    /// Does something under the lock. Its handles are whole between any two steps, so a thread that
    /// panicked there leaves them to the others.
    fn with<T>(&self, what: impl FnOnce(&mut Shares) -> T) -> T {
        what(&mut self.0.lock().unwrap_or_else(PoisonError::into_inner))
    }
}
