//! Where in a message a place is. Which of its bytes are the value of an Identity field is asked of
//! the proved library: it reads the message once more with one byte of them changed.
use super::Html;
use std::ops::Range;
use stir::{Call, Error, Refused, World};

/// How many Identity fields are looked at, and how many places that look like one: one more than a
/// call may have.
const MOST: usize = 17;

/// The rules whose places name a byte: of the message, and of a field's value.
const OF_MESSAGE: u32 = 1;
const OF_FIELD: u32 = 3;

/// What of a message is marked.
#[derive(Clone, Debug, Default, PartialEq, Eq)]
pub(super) struct Marked {
    /// The value of the Identity field that the place names, if it stands there in one piece.
    pub field: Option<Range<usize>>,
    /// The byte that it names.
    pub byte: Option<usize>,
    /// The value as the library reads it, if it doesn't.
    pub apart: Option<Vec<u8>>,
}

/// Where the place of a refusal is.
///
/// # Errors
///
/// Want of memory.
pub(super) fn marked(
    world: &World,
    moment: u64,
    message: &[u8],
    refused: &Refused,
) -> Result<Marked, Error> {
    let Refused { rule, field, part, .. } = *refused;
    let part = part as usize;
    if rule == OF_MESSAGE {
        let byte = Some(part.min(message.len()));
        return Ok(Marked { byte, ..Marked::default() });
    }
    let mut call = world.call(moment, message)?;
    let Some(value) = value(&mut call, field)?.filter(|value| !value.is_empty()) else {
        return Ok(Marked::default());
    };
    let found = (0..)
        .scan(0, |from, _: u32| {
            let rest = message.get(*from..)?;
            let at = *from + rest.windows(value.len()).position(|window| window == value)?;
            *from = at + 1;
            Some(at)
        })
        .take(MOST);
    for at in found {
        if is_field(world, moment, message, field, at..at + value.len())? {
            let byte = (rule == OF_FIELD).then(|| at + part.min(value.len()));
            return Ok(Marked { field: Some(at..at + value.len()), byte, apart: None });
        }
    }
    Ok(Marked { apart: Some(value), ..Marked::default() })
}

/// The value of the Identity field of this number, counted from 1.
fn value(call: &mut Call, field: u32) -> Result<Option<Vec<u8>>, Error> {
    let Some(before) = (field as usize).checked_sub(1).filter(|before| *before < MOST) else {
        return Ok(None);
    };
    call.header("Identity").nth(before).transpose()
}

/// Whether these bytes are the value of this field: if one of them is another, so is the value.
fn is_field(
    world: &World,
    moment: u64,
    message: &[u8],
    field: u32,
    place: Range<usize>,
) -> Result<bool, Error> {
    let mut other = message.to_vec();
    let Some(bytes) = other.get_mut(place.clone()) else { return Ok(false) };
    if let Some(first) = bytes.first_mut() {
        *first = if *first == b'x' { b'y' } else { b'x' };
    }
    let wanted = bytes.to_vec();
    Ok(value(&mut world.call(moment, &other)?, field)? == Some(wanted))
}

impl Html {
    /// A message with its marks.
    pub(super) fn message(&mut self, message: &[u8], marked: &Marked) -> &mut Html {
        let piece = |range: Range<usize>| message.get(range).unwrap_or_default();
        let field = marked.field.clone();
        let most = field.as_ref().map_or(message.len(), |field| field.end);
        // A byte that can't be seen, or isn't there, has a mark before it.
        let byte = marked.byte.map(|at| match piece(at..at.saturating_add(1).min(most)) {
            [] | [b'\r' | b'\n'] => at..at,
            _ => at..at + 1,
        });
        let end = message.len()..message.len();
        let outer = field.clone().or_else(|| byte.clone()).unwrap_or(end);
        self.markup("<pre>\n").bytes(piece(0..outer.start));
        if field.is_some() {
            self.markup("<mark>");
        }
        let inner = byte.clone().unwrap_or(outer.end..outer.end);
        self.bytes(piece(outer.start..inner.start));
        if byte.is_some() {
            self.markup("<mark>").text(if inner.is_empty() { "\u{2038}" } else { "" });
            self.bytes(piece(inner.clone())).markup("</mark>");
        }
        self.bytes(piece(inner.end..outer.end));
        if field.is_some() {
            self.markup("</mark>");
        }
        self.bytes(piece(outer.end..message.len())).markup("</pre>\n")
    }

    /// Bytes that should be UTF-8.
    fn bytes(&mut self, bytes: &[u8]) -> &mut Html {
        self.text(&String::from_utf8_lossy(bytes))
    }
}

#[cfg(test)]
mod tests {
    use super::*;
    use stir::Settings;

    const ANCHORS: &[u8] = include_bytes!("../../../../examples/files/anchors.der");
    const INVITE: &str = include_str!("../../../../examples/sign/signed.sip");
    const MOMENT: u64 = 1_443_208_345;

    fn world() -> World {
        World::open(&Settings::default(), ANCHORS, b"").expect("a world")
    }

    /// The value of the Identity field of the example.
    fn value() -> &'static str {
        let line = INVITE.lines().find(|line| line.starts_with("Identity:")).expect("it is signed");
        line.split_once(' ').expect("a value").1.trim()
    }

    fn of(message: &str, rule: u32, field: u32, part: u32) -> Marked {
        let refused = Refused { rule, code: 400, field, part };
        marked(&world(), MOMENT, message.as_bytes(), &refused).expect("memory")
    }

    /// The message with its marks, `[` and `]` in their place.
    fn shown(message: &str, marked: &Marked) -> String {
        let mut html = Html::default();
        html.message(message.as_bytes(), marked);
        let html = html.as_str().replace("<mark>", "[").replace("</mark>", "]");
        html.trim_start_matches("<pre>\n").trim_end_matches("</pre>\n").into()
    }

    #[test]
    fn an_identity_field_is_marked_where_the_library_reads_it() {
        let value = value();
        let marked = of(INVITE, 9, 1, 0);
        let at = INVITE.find(value).expect("it stands there");
        assert_eq!(marked.field, Some(at..at + value.len()));
        let text = shown(INVITE, &marked);
        assert!(text.contains("Identity: [ey") && text.contains("shaken]\n"), "{text}");
    }

    #[test]
    fn what_only_looks_like_the_field_isnt_marked() {
        let value = value();
        // It stands in another field before, and after it, and twice.
        let field = format!("Identity: {value}\r\n");
        let other = format!("Subject: {value}\r\n");
        for (more, number, nth) in [
            (format!("{other}{field}"), 1, 1),
            (format!("{field}{other}"), 1, 0),
            (format!("{field}{field}"), 1, 0),
            (format!("{field}{field}"), 2, 1),
            (format!("{other}{field}{other}{field}"), 2, 3),
            (format!("y: {value}\r\n{other}"), 1, 0),
        ] {
            let message = INVITE.replace(&field, &more);
            let found = of(&message, 9, number, 0).field;
            let places: Vec<usize> = message.match_indices(value).map(|(at, _)| at).collect();
            assert_eq!(found.map(|range| range.start), places.get(nth).copied(), "{message}");
        }
    }

    #[test]
    fn a_folded_field_is_shown_apart() {
        let message = INVITE.replace(";info=", "\r\n ;info=");
        let marked = of(&message, 9, 1, 0);
        let apart = marked.apart.as_deref().map(String::from_utf8_lossy);
        assert_eq!(
            (marked.field, apart),
            (None, Some(value().replace(";info=", " ;info=").into()))
        );
        // The same bytes in one piece, in another field.
        let other = format!("\r\nSubject: {}\r\nIdentity:", value().replace(";info=", " ;info="));
        let decoy = message.replace("\r\nIdentity:", &other);
        assert_eq!(of(&decoy, 9, 1, 0).field, None);
    }

    #[test]
    fn a_byte_is_marked_also_where_none_can_be_seen() {
        for (message, rule, field, part, wanted) in [
            ("no INVITE", 1, 0, 3, "no [I]NVITE"),
            ("no INVITE", 1, 0, 9, "no INVITE[\u{2038}]"),
            ("no\r\nINVITE", 1, 0, 2, "no[\u{2038}]\nINVITE"),
            ("", 1, 0, 0, "[\u{2038}]"),
            ("<x>", 1, 0, 65_535, "&lt;x&gt;[\u{2038}]"),
        ] {
            assert_eq!(shown(message, &of(message, rule, field, part)), wanted, "{message:?}");
        }
        for (value, part, wanted) in [
            ("a.b.c=;info=<u>", 5, "Identity: [a.b.c[=];info=&lt;u&gt;]\n"),
            ("a;info=<u>;x=", 13, "Identity: [a;info=&lt;u&gt;;x=[\u{2038}]]\n"),
        ] {
            let message = INVITE.replace(self::value(), value);
            let text = shown(&message, &of(&message, 3, 1, part));
            assert!(text.contains(wanted), "{text}");
        }
    }
}
