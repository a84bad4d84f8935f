//! Lists in P-Asserted-Identity fields. The judge reads the first value of a field alone, and a
//! list in one field says the same as its values in a field each (RFC 3261, section 7.3.1).
//!
//! Fields are found as docs/FORMATS.md ("Message head") has them: a line ends at LF, one CR before
//! it is dropped, and a line that begins with a blank continues the field before it. What is said
//! of the message stays with the proved library.

const NAME: &[u8] = b"P-Asserted-Identity";

/// The message with each such list written as one field a value; nothing if there is none.
///
/// ```
/// let message = b"INVITE sip:a SIP/2.0\r\nP-Asserted-Identity: <sip:b>, <tel:+1>\r\n\r\n";
/// let split = stir_trust::split::lists(message).expect("it has a list");
/// let wanted = "INVITE sip:a SIP/2.0\r\nP-Asserted-Identity: <sip:b>\r\n\
///     P-Asserted-Identity: <tel:+1>\r\n\r\n";
/// assert_eq!(split, wanted.as_bytes());
/// assert_eq!(stir_trust::split::lists(&split), None);
/// ```
pub fn lists(message: &[u8]) -> Option<Vec<u8>> {
    let mut lines = message.split_inclusive(|byte| *byte == b'\n').peekable();
    if !lines.clone().take_while(|line| !is_end(line)).any(is_asserted) {
        return None;
    }
    let mut whole = Vec::with_capacity(message.len() + 256);
    let mut is_split = false;
    while let Some(line) = lines.next() {
        if is_end(line) {
            whole.extend_from_slice(line);
            break;
        }
        let mut field = vec![line];
        while let Some(more) = lines.next_if(|line| continues(line)) {
            field.push(more);
        }
        match values_of(&field) {
            Some(values) => {
                is_split = true;
                for value in values {
                    whole.extend([NAME, b": ", &value, b"\r\n"].concat());
                }
            }
            None => field.iter().for_each(|line| whole.extend_from_slice(line)),
        }
    }
    lines.for_each(|line| whole.extend_from_slice(line));
    is_split.then_some(whole)
}

fn is_end(line: &[u8]) -> bool {
    matches!(line, b"\n" | b"\r\n")
}

fn continues(line: &[u8]) -> bool {
    line.starts_with(b" ") || line.starts_with(b"\t")
}

fn is_asserted(line: &[u8]) -> bool {
    rest_of(line).is_some()
}

/// What comes after the name of a P-Asserted-Identity field and its colon.
fn rest_of(line: &[u8]) -> Option<&[u8]> {
    let (name, rest) = line.split_at_checked(NAME.len())?;
    if !name.eq_ignore_ascii_case(NAME) {
        return None;
    }
    trimmed(rest).strip_prefix(b":")
}

fn trimmed(text: &[u8]) -> &[u8] {
    let mut text = text;
    while let [b' ' | b'\t', rest @ ..] | [rest @ .., b' ' | b'\t'] = text {
        text = rest;
    }
    text
}

/// A line without its end.
fn body_of(line: &[u8]) -> &[u8] {
    let line = line.strip_suffix(b"\n").unwrap_or(line);
    line.strip_suffix(b"\r").unwrap_or(line)
}

/// The values of a P-Asserted-Identity field, if there is more than one.
fn values_of(field: &[&[u8]]) -> Option<Vec<Vec<u8>>> {
    let (first, more) = field.split_first()?;
    let parts = std::iter::once(rest_of(body_of(first))?)
        .chain(more.iter().map(|line| body_of(line)))
        .map(trimmed)
        .filter(|part| !part.is_empty());
    let value = parts.collect::<Vec<_>>().join(&b' ');
    let values: Vec<Vec<u8>> = pieces(&value)
        .into_iter()
        .map(|piece| trimmed(&piece).to_vec())
        .filter(|piece| !piece.is_empty())
        .collect();
    (values.len() > 1).then_some(values)
}

/// Where a byte of a value stands.
#[derive(Clone, Copy)]
enum Within {
    Plain,
    /// In a quoted string.
    Quoted,
    /// After a backslash in one.
    Escaped,
    /// In angle brackets.
    Brackets,
}

/// The pieces between the commas that stand outside of quoted strings and angle brackets.
fn pieces(value: &[u8]) -> Vec<Vec<u8>> {
    let (mut pieces, mut piece, mut within) = (Vec::new(), Vec::new(), Within::Plain);
    for byte in value {
        within = match (within, byte) {
            (Within::Plain, b',') => {
                pieces.push(std::mem::take(&mut piece));
                continue;
            }
            (Within::Plain, b'"') | (Within::Escaped, _) => Within::Quoted,
            (Within::Plain, b'<') => Within::Brackets,
            (Within::Quoted, b'\\') => Within::Escaped,
            (Within::Quoted, b'"') | (Within::Brackets, b'>') => Within::Plain,
            (within, _) => within,
        };
        piece.push(*byte);
    }
    pieces.push(piece);
    pieces
}

#[cfg(test)]
mod tests {
    use super::*;

    fn of(fields: &str) -> Option<String> {
        let rest = "To: b, c\r\n\r\nP-Asserted-Identity: d, e";
        let message = format!("INVITE sip:a SIP/2.0\r\n{fields}{rest}");
        let split = String::from_utf8(lists(message.as_bytes())?).expect("text");
        let fields = split.strip_prefix("INVITE sip:a SIP/2.0\r\n").expect("the first line");
        Some(fields.strip_suffix(rest).expect("what comes after it").into())
    }

    #[test]
    fn each_value_of_a_list_gets_a_field() {
        for (fields, wanted) in [
            (
                "P-Asserted-Identity: <sip:pbx@example.org>, <tel:+19995550000>\r\n",
                "P-Asserted-Identity: <sip:pbx@example.org>\r\n\
                 P-Asserted-Identity: <tel:+19995550000>\r\n",
            ),
            (
                "p-asserted-identity \t:\"a, \\\" b\" <sip:c,d>,\r\n tel:+1;x=y\n\t,,\ne: f\n",
                "P-Asserted-Identity: \"a, \\\" b\" <sip:c,d>\r\n\
                 P-Asserted-Identity: tel:+1;x=y\r\ne: f\n",
            ),
            (
                "A: b\r\nP-Asserted-Identity: a\r\nP-Asserted-Identity: b,c,d\r\n",
                "A: b\r\nP-Asserted-Identity: a\r\nP-Asserted-Identity: b\r\n\
                 P-Asserted-Identity: c\r\nP-Asserted-Identity: d\r\n",
            ),
        ] {
            assert_eq!(of(fields).as_deref(), Some(wanted), "{fields}");
        }
    }

    #[test]
    fn what_is_no_list_stays() {
        for fields in [
            "",
            "P-Asserted-Identity: <tel:+1>\r\n",
            "P-Asserted-Identity: ,<tel:+1>,\r\n",
            "P-Asserted-Identity: \"a, b\" <sip:c>\r\n",
            "P-Asserted-Identity: \"a, b\r\n",
            "P-Asserted-Identity: <sip:a,b\r\n",
            "P-Asserted-Identity2: a, b\r\n",
            "X: P-Asserted-Identity: a, b\r\n",
            "X: y\r\n P-Asserted-Identity: a, b\r\n",
            " P-Asserted-Identity: a, b\r\n",
            "P-Asserted-Identity a, b\r\n",
        ] {
            assert_eq!(of(fields), None, "{fields}");
        }
        assert_eq!((lists(b""), lists(b"P-Asserted-Identity")), (None, None));
    }
}
