//! Handles that close themselves. Each is used by one call of the library at a time, since it is
//! lent as `&mut`.

use crate::room::said;
use crate::Error;
use stir_sys::{stir_call, stir_chain, stir_world};

macro_rules! handle {
    ($($(#[$doc:meta])* $name:ident $raw:ident $close:ident $open:ident),*) => {$(
        $(#[$doc])*
        #[derive(Debug)]
        pub(crate) struct $name($raw);

        // SAFETY: the library lets a handle move from thread to thread between its calls.
        unsafe impl Send for $name {}

        impl $name {
            /// The handle into which a call of the library opens something, with what it says. A
            /// refused call is open too.
            ///
            /// # Safety
            ///
            /// `open` leaves a handle in what it gets: as it was, which is closed, or an open one.
            pub(crate) unsafe fn $open(
                open: impl FnOnce(*mut $raw) -> stir_sys::stir_said,
            ) -> Result<($name, stir_sys::stir_said), Error> {
                let mut handle = $name($raw::CLOSED);
                let told = said(open(&mut handle.0))?;
                Ok((handle, told))
            }

            /// Where it is, for one call of the library.
            pub(crate) fn at(&mut self) -> *mut $raw {
                &mut self.0
            }
        }

        impl Drop for $name {
            fn drop(&mut self) {
                // SAFETY: it is what the library left in it, and nobody has it beside this.
                unsafe { stir_sys::$close(&mut self.0) }
            }
        }
    )*};
}

handle! {
    /// A handle of a world.
    WorldHandle stir_world stir_world_close opened,
    /// A handle of a chain.
    ChainHandle stir_chain stir_chain_close opened,
    /// A handle of a call.
    CallHandle stir_call stir_call_close opened
}

impl WorldHandle {
    /// Another handle of the same world.
    pub(crate) fn share(&mut self) -> Result<WorldHandle, Error> {
        // SAFETY: both are handles, and the other one is closed.
        let (share, _) =
            unsafe { WorldHandle::opened(|out| stir_sys::stir_world_share(self.at(), out)) }?;
        Ok(share)
    }
}

impl ChainHandle {
    /// Another handle of the same chain.
    pub(crate) fn share(&mut self) -> Result<ChainHandle, Error> {
        // SAFETY: both are handles, and the other one is closed.
        let (share, _) =
            unsafe { ChainHandle::opened(|out| stir_sys::stir_chain_share(self.at(), out)) }?;
        Ok(share)
    }
}
