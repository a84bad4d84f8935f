//! Where the head of a request ends, and what of it hyper would take that isn't to be taken: hyper
//! lets a line end at a bare LF, so that one who ends lines at CRLF alone would see another request
//! (RFC 9112, section 2.2).

/// What was found of a head in some bytes.
#[derive(Clone, Copy, Debug, PartialEq, Eq)]
pub enum Found {
    /// It goes on.
    More,
    /// It ends after so many of them.
    End(usize),
    /// A CR or an LF stands alone, before its end.
    BareEnd,
    /// Its first line names another version of HTTP than 1.0 and 1.1.
    Version,
}

/// A head that is read byte by byte.
#[derive(Clone, Debug, Default)]
pub struct Head {
    /// Whether a byte of the first line came; empty lines may stand before it.
    is_begun: bool,
    /// Whether the first line is over.
    is_past_first: bool,
    /// How many bytes this line has, up to the last that are kept.
    size: usize,
    /// The last bytes of this line.
    last: [u8; VERSION],
    after_cr: bool,
}

/// How many bytes `HTTP/1.1` has.
const VERSION: usize = 8;

impl Head {
    /// Whether a byte of it came that isn't the end of an empty line before it.
    pub fn is_begun(&self) -> bool {
        self.is_begun
    }

    /// Reads on.
    pub fn read(&mut self, bytes: &[u8]) -> Found {
        for (at, byte) in bytes.iter().enumerate() {
            match (self.after_cr, byte) {
                (true, b'\n') => {
                    self.after_cr = false;
                    if self.size == 0 && self.is_begun {
                        return Found::End(at + 1);
                    }
                    if self.is_begun && !self.is_past_first {
                        self.is_past_first = true;
                        if self.is_other_version() {
                            return Found::Version;
                        }
                    }
                    self.size = 0;
                }
                (true, _) | (false, b'\n') => return Found::BareEnd,
                (false, b'\r') => self.after_cr = true,
                (false, byte) => self.take(*byte),
            }
        }
        Found::More
    }

    /// Whether the first line names the version before the one that is spoken here.
    pub fn is_older(&self) -> bool {
        &self.last == b"HTTP/1.0"
    }

    fn take(&mut self, byte: u8) {
        self.is_begun = true;
        self.size += 1;
        if !self.is_past_first {
            self.last.rotate_left(1);
            if let Some(place) = self.last.last_mut() {
                *place = byte;
            }
        }
    }

    /// Whether the first line ends with a version of HTTP that isn't spoken here. If it ends with
    /// none, hyper says so.
    fn is_other_version(&self) -> bool {
        let is_spoken = matches!(&self.last, b"HTTP/1.0" | b"HTTP/1.1");
        let names_http = self.last.windows(5).any(|part| part == b"HTTP/");
        names_http && !is_spoken
    }
}

#[cfg(test)]
mod tests {
    use super::*;

    /// What is found in a text that comes in pieces of this size, and how many bytes are read.
    fn of(text: &str, size: usize) -> Found {
        let mut head = Head::default();
        let mut read = 0;
        for piece in text.as_bytes().chunks(size) {
            match head.read(piece) {
                Found::More => read += piece.len(),
                Found::End(at) => return Found::End(read + at),
                fault => return fault,
            }
        }
        Found::More
    }

    #[test]
    fn a_head_ends_at_its_empty_line_however_it_comes() {
        for (text, wanted) in [
            ("GET / HTTP/1.1\r\nHost: x\r\n\r\nmore", Found::End(27)),
            ("\r\n\r\nGET / HTTP/1.0\r\n\r\n", Found::End(22)),
            ("POST / HTTP/1.1\r\nA: b\r\n\r", Found::More),
            ("GET /", Found::More),
            ("\r\n\r\n", Found::More),
            ("GET / HTTP/1.1\nHost: x\r\n\r\n", Found::BareEnd),
            ("GET / HTTP/1.1\r\nX: a\nContent-Length: 4\r\n\r\n", Found::BareEnd),
            ("GET / HTTP/1.1\r\nX: a\rb\r\n\r\n", Found::BareEnd),
            ("GET / HTTP/1.1\r\nX: a\r\r\n\r\n", Found::BareEnd),
            ("\nGET / HTTP/1.1\r\n\r\n", Found::BareEnd),
            ("GET / HTTP/3\r\n\r\n", Found::Version),
            ("PRI * HTTP/2.0\r\n\r\nSM\r\n\r\n", Found::Version),
            ("GET / HTTP/1.2\r\n\r\n", Found::Version),
            ("GET / HTTP/1.1 \r\n\r\n", Found::End(19)),
            ("GET /\r\n\r\n", Found::End(9)),
            ("X: HTTP/1.1\r\nHTTP/2.0\r\n\r\n", Found::End(25)),
        ] {
            for size in 1..=text.len() {
                assert_eq!(of(text, size), wanted, "{text:?} in pieces of {size}");
            }
        }
    }
}
