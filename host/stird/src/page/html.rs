//! A page of HTML as it is written. What stands in it as markup stands in this program; all else is
//! text, and escaped in one place.
use openssl::base64::encode_block;
use openssl::sha::sha256;
use std::sync::LazyLock;

/// The media type of a page.
pub const KIND: &str = "text/html; charset=utf-8";

/// The style of a page, which stands in it.
const STYLE: &str = include_str!("style.css");

/// What a browser may do with a page: take this one style, and send forms to where it came from.
/// It runs no script, takes nothing from elsewhere, and shows the page in no other one (Content
/// Security Policy Level 3, section 6).
pub static POLICY: LazyLock<String> = LazyLock::new(|| {
    let style = encode_block(&sha256(STYLE.as_bytes()));
    format!(
        "default-src 'none'; style-src 'sha256-{style}'; form-action 'self'; base-uri 'none'; \
         frame-ancestors 'none'"
    )
});

/// A page, or a part of one.
///
/// ```
/// use stird::page::Html;
///
/// let mut html = Html::default();
/// html.markup("<p>").text("<script>&'\"").markup("</p>");
/// assert_eq!(html.as_str(), "<p>&lt;script&gt;&amp;&#39;&quot;</p>");
/// ```
#[derive(Clone, Debug, Default)]
pub struct Html(String);

impl Html {
    /// The beginning of a page with this title.
    pub fn page(title: &str) -> Html {
        let mut html = Html::default();
        html.markup("<!DOCTYPE html>\n<html lang=\"en\"><head><meta charset=\"utf-8\">");
        html.markup("<meta name=\"viewport\" content=\"width=device-width\"><title>");
        html.text(title)
            .markup("</title><style>")
            .markup(STYLE)
            .markup("</style></head>\n<body>\n");
        html
    }

    /// Markup as it stands.
    pub fn markup(&mut self, markup: &'static str) -> &mut Html {
        self.0.push_str(markup);
        self
    }

    /// Text, whoever wrote it. What can't be seen, or turns the direction of writing, is told by
    /// its number; of lines that end by CR LF the CR isn't.
    pub fn text(&mut self, text: &str) -> &mut Html {
        let mut letters = text.chars().peekable();
        while let Some(letter) = letters.next() {
            match letter {
                '&' => self.0.push_str("&amp;"),
                '<' => self.0.push_str("&lt;"),
                '>' => self.0.push_str("&gt;"),
                '"' => self.0.push_str("&quot;"),
                '\'' => self.0.push_str("&#39;"),
                '\n' | '\t' => self.0.push(letter),
                '\r' if letters.peek() == Some(&'\n') => {}
                _ if is_unseen(letter) => self.0.extend(letter.escape_unicode()),
                _ => self.0.push(letter),
            }
        }
        self
    }

    /// A number, or what else is told so.
    pub fn say(&mut self, what: impl ToString) -> &mut Html {
        self.text(&what.to_string())
    }

    /// Another part.
    pub fn part(&mut self, part: &Html) -> &mut Html {
        self.0.push_str(&part.0);
        self
    }

    /// What was written.
    pub fn as_str(&self) -> &str {
        &self.0
    }

    /// The whole page.
    pub fn end(mut self) -> String {
        self.markup("</body></html>\n");
        self.0
    }
}

/// Whether a letter is a control, or one of those that turn the direction of writing or have no
/// width (Unicode Standard Annex 9, section 2).
fn is_unseen(letter: char) -> bool {
    letter.is_control()
        || matches!(letter, '\u{61c}' | '\u{200b}'..='\u{200f}' | '\u{2028}'..='\u{202e}')
        || matches!(letter, '\u{2060}'..='\u{2069}' | '\u{feff}')
}

#[cfg(test)]
mod tests {
    use super::*;

    #[test]
    fn what_strangers_write_is_text() {
        for (text, wanted) in [
            ("", ""),
            ("a b\n\tc", "a b\n\tc"),
            ("a\r\nb\rc\r", "a\nb\\u{d}c\\u{d}"),
            ("</textarea><script>", "&lt;/textarea&gt;&lt;script&gt;"),
            ("\" onload='x'", "&quot; onload=&#39;x&#39;"),
            ("&lt;", "&amp;lt;"),
            ("\0\u{1b}[31m\u{7f}\u{85}", "\\u{0}\\u{1b}[31m\\u{7f}\\u{85}"),
            ("a\u{202e}b\u{2066}c\u{feff}", "a\\u{202e}b\\u{2066}c\\u{feff}"),
            ("Zürich \u{1f600}", "Zürich \u{1f600}"),
        ] {
            let mut html = Html::default();
            html.text(text);
            assert_eq!(html.as_str(), wanted, "{text:?}");
        }
    }

    #[test]
    fn no_style_but_its_own_is_taken() {
        assert!(!STYLE.contains(['<', '&']), "a style ends at no mark");
        let hash = encode_block(&sha256(STYLE.as_bytes()));
        assert!(POLICY.contains(&format!("style-src 'sha256-{hash}';")), "{}", *POLICY);
        assert!(POLICY.starts_with("default-src 'none';") && !POLICY.contains("unsafe"));
    }
}
