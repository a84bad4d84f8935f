//! The functions of a PKCS #11 module, each called by a safe one.
#![allow(unsafe_code)]
use crate::fault::{HsmFault, Returned};
use cryptoki_sys as ck;
use std::ffi::{c_ulong, c_void, OsStr};
use std::ptr::null_mut;

/// Numbers of the standard (PKCS #11 2.40, its header pkcs11t.h), which the crate of declarations
/// has not.
const CKF_SERIAL_SESSION: ck::CK_FLAGS = 4;
const CKF_OS_LOCKING_OK: ck::CK_FLAGS = 2;
const CKU_USER: ck::CK_USER_TYPE = 1;
const CKM_ECDSA: ck::CK_MECHANISM_TYPE = 0x1041;

/// The most slots of a module that are looked at, and the most bytes of an attribute.
const MOST_SLOTS: usize = 256;
const MOST_VALUE: usize = 4096;

/// A kind of attribute of an object.
#[derive(Clone, Copy, Debug, PartialEq, Eq)]
pub(crate) enum Kind {
    Class,
    Label,
    KeyType,
    Id,
    Params,
    Point,
}

/// A class of objects.
#[derive(Clone, Copy, Debug, PartialEq, Eq)]
pub(crate) enum Class {
    PublicKey,
    PrivateKey,
}

impl Kind {
    fn number(self) -> ck::CK_ATTRIBUTE_TYPE {
        match self {
            Kind::Class => 0,
            Kind::Label => 3,
            Kind::KeyType => 0x100,
            Kind::Id => 0x102,
            Kind::Params => 0x180,
            Kind::Point => 0x181,
        }
    }
}

impl Class {
    /// The value of the attribute.
    pub(crate) fn value(self) -> [u8; 8] {
        let number: c_ulong = match self {
            Class::PublicKey => 2,
            Class::PrivateKey => 3,
        };
        number.to_ne_bytes()
    }
}

/// What a token says of itself, without the blanks that fill it up.
pub(crate) struct TokenInfo {
    pub label: Vec<u8>,
    pub manufacturer: Vec<u8>,
    pub model: Vec<u8>,
    pub serial: Vec<u8>,
}

/// A slot, a session and an object, as a module numbers them.
#[derive(Clone, Copy, Debug, PartialEq, Eq)]
pub(crate) struct Slot(pub ck::CK_SLOT_ID);
#[derive(Clone, Copy, Debug, PartialEq, Eq)]
pub(crate) struct SessionHandle(ck::CK_SESSION_HANDLE);
#[derive(Clone, Copy, Debug, PartialEq, Eq)]
pub(crate) struct Object(ck::CK_OBJECT_HANDLE);

/// The functions of a module, which stays loaded for ever.
pub(crate) struct Functions(&'static ck::CK_FUNCTION_LIST);

// SAFETY: The list is never written to, and the module is started with CKF_OS_LOCKING_OK, by which
// it has to bear calls by several threads (PKCS #11 2.40, section 5.4, C_Initialize).
unsafe impl Send for Functions {}
// SAFETY: As above.
unsafe impl Sync for Functions {}

/// Calls a function of the list. What each macro call hands over points to values that live until
/// it returns, and says their sizes.
macro_rules! call {
    ($functions:expr, $name:ident ( $($argument:expr),* )) => {{
        let function = $functions.0.$name.ok_or(HsmFault::Lacks(stringify!($name)))?;
        // SAFETY: The function is that of the standard: the module is trusted for that. Every
        // pointer is to a value of this block or one that is borrowed by it, of the size that is
        // said, and no function of those called here keeps one after it returns.
        let value = unsafe { function($($argument),*) };
        match Returned(value) {
            Returned::CKR_OK => Ok(()),
            value => Err(HsmFault::Returned { function: stringify!($name), value }),
        }
    }};
}

/// How many there are, of something that is counted in C.
fn count(of: usize) -> c_ulong {
    of as c_ulong
}

impl Functions {
    /// Loads a module, by its file or by a name for which the system looks.
    pub(crate) fn load(name: &OsStr) -> Result<Functions, HsmFault> {
        let failed = |error: &dyn ToString| HsmFault::Module(error.to_string());
        // SAFETY: What a library does as it is loaded is the operator's choice, who names it.
        let module = unsafe { ck::Pkcs11::new(name) }.map_err(|error| failed(&error))?;
        // Its code and its list have to stay, so the library is never unloaded.
        let module: &'static ck::Pkcs11 = Box::leak(Box::new(module));
        let get = module.C_GetFunctionList.as_ref().map_err(|error| failed(error))?;
        let mut list = null_mut();
        // SAFETY: The function writes a pointer to the place that is handed over.
        let value = Returned(unsafe { get(&mut list) });
        // SAFETY: The list is one of the module that stays loaded, or null.
        match unsafe { list.as_ref() } {
            Some(list) if value == Returned::CKR_OK => Ok(Functions(list)),
            _ => Err(HsmFault::Returned { function: "C_GetFunctionList", value }),
        }
    }

    /// Starts the module. That it was started before, as by another user of it, is no fault.
    pub(crate) fn initialize(&self) -> Result<(), HsmFault> {
        let mut words = ck::CK_C_INITIALIZE_ARGS {
            CreateMutex: None,
            DestroyMutex: None,
            LockMutex: None,
            UnlockMutex: None,
            flags: CKF_OS_LOCKING_OK,
            pReserved: null_mut(),
        };
        let started = call!(self, C_Initialize(std::ptr::addr_of_mut!(words).cast::<c_void>()));
        match started {
            Err(HsmFault::Returned {
                value: Returned::CKR_CRYPTOKI_ALREADY_INITIALIZED, ..
            }) => Ok(()),
            other => other,
        }
    }

    /// Ends what was started: each session of the module with it.
    pub(crate) fn finalize(&self) -> Result<(), HsmFault> {
        call!(self, C_Finalize(null_mut()))
    }

    /// The slots that have a token.
    pub(crate) fn slots(&self) -> Result<Vec<Slot>, HsmFault> {
        let (mut slots, mut size) = ([0; MOST_SLOTS], count(MOST_SLOTS));
        call!(self, C_GetSlotList(1, slots.as_mut_ptr(), &mut size))?;
        let found = slots.iter().take(usize::try_from(size).unwrap_or(MOST_SLOTS));
        Ok(found.map(|slot| Slot(*slot)).collect())
    }

    /// What the token of a slot says of itself.
    pub(crate) fn token(&self, slot: Slot) -> Result<TokenInfo, HsmFault> {
        let mut told = ck::CK_TOKEN_INFO::default();
        call!(self, C_GetTokenInfo(slot.0, &mut told))?;
        let text = |bytes: &[u8]| bytes.trim_ascii_end().to_vec();
        Ok(TokenInfo {
            label: text(&told.label),
            manufacturer: text(&told.manufacturerID),
            model: text(&told.model),
            serial: text(&told.serialNumber),
        })
    }

    /// Opens a session that writes nothing.
    pub(crate) fn open(&self, slot: Slot) -> Result<SessionHandle, HsmFault> {
        let mut session = 0;
        call!(self, C_OpenSession(slot.0, CKF_SERIAL_SESSION, null_mut(), None, &mut session))?;
        Ok(SessionHandle(session))
    }

    /// Closes a session.
    pub(crate) fn close(&self, session: SessionHandle) -> Result<(), HsmFault> {
        call!(self, C_CloseSession(session.0))
    }

    /// Logs the user in, for all sessions on the token. That he is already is no fault.
    pub(crate) fn login(&self, session: SessionHandle, pin: &[u8]) -> Result<(), HsmFault> {
        let mut pin = pin.to_vec();
        let (at, size) = (pin.as_mut_ptr(), count(pin.len()));
        let done = call!(self, C_Login(session.0, CKU_USER, at, size));
        pin.fill(0);
        match done {
            Err(HsmFault::Returned { value: Returned::CKR_USER_ALREADY_LOGGED_IN, .. }) => Ok(()),
            Err(HsmFault::Returned { value, .. }) if value.is_of_pin() => Err(HsmFault::Pin(value)),
            other => other,
        }
    }

    /// The objects that have these attributes, at most two: who wants one sees that there are more.
    pub(crate) fn find(
        &self,
        session: SessionHandle,
        having: &[(Kind, Vec<u8>)],
    ) -> Result<Vec<Object>, HsmFault> {
        let mut values: Vec<(Kind, Vec<u8>)> = having.to_vec();
        let mut wanted: Vec<ck::CK_ATTRIBUTE> = values
            .iter_mut()
            .map(|(kind, value)| ck::CK_ATTRIBUTE {
                type_: kind.number(),
                pValue: value.as_mut_ptr().cast::<c_void>(),
                ulValueLen: count(value.len()),
            })
            .collect();
        let (at, size) = (wanted.as_mut_ptr(), count(wanted.len()));
        call!(self, C_FindObjectsInit(session.0, at, size))?;
        let (mut found, mut size) = ([0; 2], 0);
        let (at, most) = (found.as_mut_ptr(), count(found.len()));
        let came = call!(self, C_FindObjects(session.0, at, most, &mut size));
        call!(self, C_FindObjectsFinal(session.0))?;
        came?;
        let found = found.iter().take(usize::try_from(size).unwrap_or(0));
        Ok(found.map(|object| Object(*object)).collect())
    }

    /// An attribute of an object.
    pub(crate) fn attribute(
        &self,
        session: SessionHandle,
        object: Object,
        kind: Kind,
    ) -> Result<Vec<u8>, HsmFault> {
        let mut value = vec![0; MOST_VALUE];
        let mut wanted = ck::CK_ATTRIBUTE {
            type_: kind.number(),
            pValue: value.as_mut_ptr().cast::<c_void>(),
            ulValueLen: count(value.len()),
        };
        call!(self, C_GetAttributeValue(session.0, object.0, &mut wanted, 1))?;
        value.truncate(usize::try_from(wanted.ulValueLen).unwrap_or(0));
        Ok(value)
    }

    /// The signature by ECDSA over a digest: r and s, as long as the key's order each.
    pub(crate) fn sign(
        &self,
        session: SessionHandle,
        key: Object,
        digest: &[u8; 32],
    ) -> Result<[u8; 64], HsmFault> {
        let mut how =
            ck::CK_MECHANISM { mechanism: CKM_ECDSA, pParameter: null_mut(), ulParameterLen: 0 };
        call!(self, C_SignInit(session.0, &mut how, key.0))?;
        let (mut digest, mut signature) = (*digest, [0; 64]);
        let (from, from_size) = (digest.as_mut_ptr(), count(digest.len()));
        let (to, mut size) = (signature.as_mut_ptr(), count(signature.len()));
        call!(self, C_Sign(session.0, from, from_size, to, &mut size))?;
        if size == count(signature.len()) {
            Ok(signature)
        } else {
            Err(HsmFault::OtherKind)
        }
    }
}

impl Returned {
    /// Whether it says that a PIN isn't the right one, or doesn't serve any more.
    fn is_of_pin(self) -> bool {
        matches!(
            self,
            Returned::CKR_PIN_INCORRECT
                | Returned::CKR_PIN_INVALID
                | Returned::CKR_PIN_LEN_RANGE
                | Returned::CKR_PIN_EXPIRED
                | Returned::CKR_PIN_LOCKED
                | Returned::CKR_USER_PIN_NOT_INITIALIZED
        )
    }
}
