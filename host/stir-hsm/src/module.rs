//! Modules of PKCS #11: each is loaded once, and may be started anew.
use crate::calls::{Functions, Slot, TokenInfo};
use crate::fault::HsmFault;
use crate::session::Session;
use crate::uri::KeyUri;
use std::ffi::OsString;
use std::path::Path;
use std::sync::{Arc, Mutex, MutexGuard, PoisonError, RwLock, RwLockReadGuard, TryLockError};
use std::time::{Duration, Instant};

/// The module that has those of the system's configuration (p11-kit), if a URI names none.
const PROXY: &str = "p11-kit-proxy.so";

/// How long a module isn't started anew once more.
const PAUSE: Duration = Duration::from_millis(500);

/// The modules that are loaded. None is ever dropped, and who names them is the operator.
static LOADED: Mutex<Vec<(OsString, Arc<Module>)>> = Mutex::new(Vec::new());

/// A module of PKCS #11, loaded and started. It stays loaded as long as the process runs.
pub struct Module {
    functions: Functions,
    /// How often it was started anew: sessions of before have ended. Who holds it for reading may
    /// call; who holds it for writing starts anew.
    started: RwLock<u64>,
    /// When it was started last.
    last: Mutex<Instant>,
}

impl Module {
    /// The module of this file; or, without one, that of p11-kit, which has all modules that the
    /// system knows. One that was loaded before is the same.
    ///
    /// # Errors
    ///
    /// It can't be loaded, isn't a module of PKCS #11, or doesn't start.
    ///
    /// ```
    /// use stir_hsm::{HsmFault, Module};
    ///
    /// let missing = Module::load(Some("/no/module.so".as_ref()));
    /// assert!(matches!(missing.err(), Some(HsmFault::Module(_))));
    /// ```
    pub fn load(file: Option<&Path>) -> Result<Arc<Module>, HsmFault> {
        let name = file.map_or_else(|| PROXY.into(), |file| file.as_os_str().to_os_string());
        let mut loaded = held(&LOADED);
        if let Some((_, module)) = loaded.iter().find(|(other, _)| *other == name) {
            return Ok(Arc::clone(module));
        }
        let functions = Functions::load(&name)?;
        functions.initialize()?;
        let (started, last) = (RwLock::new(0), Mutex::new(Instant::now()));
        let module = Arc::new(Module { functions, started, last });
        loaded.push((name, Arc::clone(&module)));
        Ok(module)
    }

    /// A session on the token that a URI names. The PIN logs the user in, for all sessions on that
    /// token; without one nobody is logged in.
    ///
    /// # Errors
    ///
    /// No token or several have what the URI says; the PIN isn't taken; or the module fails.
    ///
    /// ```no_run
    /// # let module = stir_hsm::Module::load(None)?;
    /// let session = module.session(&"pkcs11:token=stir;object=k1".parse()?, Some(b"4321"))?;
    /// # Ok::<(), Box<dyn std::error::Error>>(())
    /// ```
    pub fn session(
        self: &Arc<Module>,
        uri: &KeyUri,
        pin: Option<&[u8]>,
    ) -> Result<Session, HsmFault> {
        let (started, functions) = (self.started.read(), &self.functions);
        let started = started.unwrap_or_else(PoisonError::into_inner);
        let (mut named, mut unread) = (Vec::new(), None);
        for slot in functions.slots()? {
            match functions.token(slot) {
                Ok(token) if uri.names(slot.0, &token) => named.push(slot),
                Ok(_) => {}
                Err(fault) => unread = Some(fault),
            }
        }
        let slot = match named[..] {
            [] => return Err(unread.unwrap_or(HsmFault::NoToken)),
            [slot] => slot,
            _ => return Err(HsmFault::SeveralTokens),
        };
        let session = self.open(slot, *started)?;
        if let Some(pin) = pin {
            functions.login(session.handle(), pin)?;
        }
        Ok(session)
    }

    fn open(self: &Arc<Module>, slot: Slot, started: u64) -> Result<Session, HsmFault> {
        let handle = self.functions.open(slot)?;
        Ok(Session::new(Arc::clone(self), handle, started))
    }

    /// How often it was started anew.
    ///
    /// ```no_run
    /// assert_eq!(stir_hsm::Module::load(None)?.starts(), 0);
    /// # Ok::<(), stir_hsm::HsmFault>(())
    /// ```
    pub fn starts(&self) -> u64 {
        *self.started.read().unwrap_or_else(PoisonError::into_inner)
    }

    /// Starts the module anew, if nobody did since this many starts: all sessions on its tokens
    /// end. Some modules find a token again only so, as that of p11-kit whose server went away.
    ///
    /// # Errors
    ///
    /// It was started a moment ago, a call of it hasn't returned, or it doesn't start.
    ///
    /// ```no_run
    /// let module = stir_hsm::Module::load(None)?;
    /// module.start_anew(module.starts())?;
    /// # Ok::<(), stir_hsm::HsmFault>(())
    /// ```
    pub fn start_anew(&self, since: u64) -> Result<(), HsmFault> {
        let mut started = match self.started.try_write() {
            Ok(started) => started,
            Err(TryLockError::Poisoned(poisoned)) => poisoned.into_inner(),
            Err(TryLockError::WouldBlock) => return Err(HsmFault::Busy),
        };
        if *started != since {
            return Ok(());
        }
        let mut last = held(&self.last);
        if since > 0 && last.elapsed() < PAUSE {
            return Err(HsmFault::Busy);
        }
        *last = Instant::now();
        *started = started.saturating_add(1);
        // A module that lost its device may say so here too; it is started whatever it says.
        drop(self.functions.finalize());
        self.functions.initialize()
    }

    /// The functions, for a session of this start alone: after another one its number may be that
    /// of another session.
    pub(crate) fn functions(
        &self,
        started: u64,
    ) -> Result<(&Functions, RwLockReadGuard<'_, u64>), HsmFault> {
        let now = self.started.read().unwrap_or_else(PoisonError::into_inner);
        if *now == started {
            Ok((&self.functions, now))
        } else {
            Err(HsmFault::Ended)
        }
    }
}

impl KeyUri {
    /// Whether a token is one that the URI names.
    fn names(&self, slot: std::ffi::c_ulong, token: &TokenInfo) -> bool {
        let is = |wanted: &Option<Vec<u8>>, said: &[u8]| {
            wanted.as_ref().is_none_or(|wanted| wanted == said)
        };
        self.slot.is_none_or(|wanted| wanted == slot)
            && is(&self.token, &token.label)
            && is(&self.manufacturer, &token.manufacturer)
            && is(&self.model, &token.model)
            && is(&self.serial, &token.serial)
    }
}

/// What a mutex has, also after a panic of who held it: it is written by whole assignments alone.
fn held<T>(mutex: &Mutex<T>) -> MutexGuard<'_, T> {
    mutex.lock().unwrap_or_else(PoisonError::into_inner)
}
