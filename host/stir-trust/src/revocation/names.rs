//! Names of authorities, compared as RFC 5280, section 7.1, asks: without regard to the type of a
//! string, to case and to repeated blanks. OpenSSL compares them.
use openssl::error::ErrorStack;
use openssl::x509::{X509Name, X509NameRef};
use std::cmp::Ordering;

/// Distinct names, each with the number that it got first.
#[derive(Default)]
pub(super) struct Names {
    /// In OpenSSL's order.
    sorted: Vec<(X509Name, u32)>,
}

impl Names {
    /// How many there are.
    pub fn len(&self) -> usize {
        self.sorted.len()
    }

    /// The number of this name, if it is one of these.
    pub fn number(&self, name: &X509NameRef) -> Result<Option<u32>, ErrorStack> {
        let place = self.place(name)?;
        Ok(place.ok().and_then(|place| self.sorted.get(place)).map(|(_, number)| *number))
    }

    /// The number of this name, which is one of these from now on.
    pub fn put(&mut self, name: X509Name) -> Result<u32, ErrorStack> {
        match self.place(&name)? {
            Ok(place) => Ok(self.sorted.get(place).map_or(0, |(_, number)| *number)),
            Err(place) => {
                let number = self.sorted.len() as u32;
                self.sorted.insert(place, (name, number));
                Ok(number)
            }
        }
    }

    /// Where this name stands, or where it would.
    fn place(&self, name: &X509NameRef) -> Result<Result<usize, usize>, ErrorStack> {
        let mut failed = None;
        let place = self.sorted.binary_search_by(|(other, _)| {
            other.try_cmp(name).unwrap_or_else(|error| {
                failed = Some(error);
                Ordering::Equal
            })
        });
        failed.map_or(Ok(place), Err)
    }
}
