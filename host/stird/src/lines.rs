//! Lines of this project's text files: those that are empty or begin with `;` are passed over, and
//! a CR before the LF isn't part of one.

/// The lines of a text.
pub fn lines_of(text: &[u8]) -> impl Iterator<Item = &[u8]> {
    split(text).filter(|line| !line.is_empty() && line[0] != b';')
}

/// The lines of a text as they stand: without LF and CR, with those that are empty.
pub fn split(text: &[u8]) -> impl Iterator<Item = &[u8]> {
    let mut left = Some(text);
    std::iter::from_fn(move || {
        let text = left?;
        let end = first(text, |byte| byte == b'\n');
        left = end.map(|at| &text[at + 1..]);
        let line = &text[..end.unwrap_or(text.len())];
        Some(line.strip_suffix(b"\r").unwrap_or(line))
    })
}

/// Where the first of these bytes is. A block is tested without a branch for each byte, so that the
/// processor takes many at once.
pub fn first(text: &[u8], wanted: impl Fn(u8) -> bool) -> Option<usize> {
    let has_none = |block: &&[u8]| !block.iter().fold(false, |has, byte| has | wanted(*byte));
    let before: usize = text.chunks(32).take_while(has_none).map(<[u8]>::len).sum();
    text[before..].iter().position(|byte| wanted(*byte)).map(|at| before + at)
}

#[cfg(test)]
mod tests {
    use super::*;

    #[test]
    fn comments_and_empty_lines_are_passed_over() {
        let lines: Vec<&[u8]> = lines_of(b"a 1\r\n\n; no\nb 2").collect();
        assert_eq!(lines, [b"a 1".as_slice(), b"b 2"]);
    }

    #[test]
    fn a_text_is_split_at_each_lf() {
        for text in [
            "",
            "\n",
            "a",
            "a\n",
            "\r\n\r",
            "a\r\n\nb\rc\n",
            &"x".repeat(100),
            &format!("{0}\n{0}\r\n{0}", "y".repeat(31)),
        ] {
            let plainly = text
                .as_bytes()
                .split(|byte| *byte == b'\n')
                .map(|line| line.strip_suffix(b"\r").unwrap_or(line));
            assert!(split(text.as_bytes()).eq(plainly), "{text:?}");
        }
    }

    #[test]
    fn a_byte_is_found_wherever_it_is() {
        for at in 0..100 {
            let mut text = [b'a'; 100];
            text[at..].fill(b'b');
            assert_eq!(first(&text, |byte| byte == b'b'), Some(at));
        }
        assert_eq!((first(&[b'a'; 100], |byte| byte == b'b'), first(b"", |_| true)), (None, None));
    }
}
