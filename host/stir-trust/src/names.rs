//! The names of certificates in text (RFC 4514), for a person.
use openssl::x509::X509NameRef;

/// A name as text: its last part first, what has a meaning there with a `\` before it, and control
/// characters in hex. A part is called as OpenSSL calls it, which is as RFC 4514 does.
///
/// ```
/// use openssl::x509::X509Name;
///
/// let mut name = X509Name::builder()?;
/// name.append_entry_by_text("C", "US")?;
/// name.append_entry_by_text("O", "Example, Inc.")?;
/// name.append_entry_by_text("CN", "SHAKEN\u{1b}")?;
/// let text = stir_trust::names::text_of(&name.build());
/// assert_eq!(text, r"CN=SHAKEN\1b,O=Example\, Inc.,C=US");
/// # Ok::<(), openssl::error::ErrorStack>(())
/// ```
pub fn text_of(name: &X509NameRef) -> String {
    let parts = name.entries().map(|entry| {
        let kind = entry.object().nid().short_name().map(str::to_owned);
        let kind = kind.unwrap_or_else(|_| entry.object().to_string());
        let value = entry.data().as_utf8().map_or("?".into(), |value| escaped(&value));
        format!("{kind}={value}")
    });
    let mut parts: Vec<String> = parts.collect();
    parts.reverse();
    parts.join(",")
}

/// A value with its escapes (RFC 4514, section 2.4).
fn escaped(value: &str) -> String {
    let mut text = String::with_capacity(value.len());
    for (at, letter) in value.char_indices() {
        let is_last = at + letter.len_utf8() == value.len();
        match letter {
            '"' | '+' | ',' | ';' | '<' | '>' | '\\' => text.extend(['\\', letter]),
            '#' if at == 0 => text.push_str("\\#"),
            ' ' if at == 0 || is_last => text.push_str("\\ "),
            _ if letter.is_control() => {
                let mut bytes = [0; 4];
                for byte in letter.encode_utf8(&mut bytes).bytes() {
                    text.push_str(&format!("\\{byte:02x}"));
                }
            }
            _ => text.push(letter),
        }
    }
    text
}

#[cfg(test)]
mod tests {
    use super::*;
    use openssl::x509::X509Name;

    #[test]
    fn names_are_told_as_in_the_examples_of_the_standard() {
        // RFC 4514, section 4, and its section 2.4.
        for (parts, text) in [
            (
                vec![("DC", "net"), ("DC", "example"), ("UID", "jsmith")],
                "UID=jsmith,DC=example,DC=net",
            ),
            (
                vec![("DC", "net"), ("DC", "example"), ("CN", "James \"Jim\" Smith, III")],
                r#"CN=James \"Jim\" Smith\, III,DC=example,DC=net"#,
            ),
            (
                vec![("DC", "net"), ("DC", "example"), ("CN", "Before\rAfter")],
                r"CN=Before\0dAfter,DC=example,DC=net",
            ),
            (vec![("CN", "Lu\u{10d}i\u{107}")], "CN=Lu\u{10d}i\u{107}"),
            (vec![("O", "#1+2;<3>\\ ")], r"O=\#1\+2\;\<3\>\\\ "),
            (vec![("O", " 1 2#")], r"O=\ 1 2#"),
            (vec![], ""),
        ] {
            let mut name = X509Name::builder().expect("a builder");
            for (kind, value) in &parts {
                name.append_entry_by_text(kind, value).expect(value);
            }
            assert_eq!(text_of(&name.build()), text, "{parts:?}");
        }
    }
}
