//! Lines of text as people write them: words between spaces or tabs, and a comment behind `#`.

/// What a text is in, where [`behind_mark`] gives nothing.
pub const UTF_16: &str = "in UTF-16: expected UTF-8";

/// A word and the column where it begins. Columns count characters from 1, as editors do.
#[derive(Clone, Copy, PartialEq, Eq, Debug)]
pub struct Word<'a> {
    pub column: usize,
    pub text: &'a str,
}

/// The words of a line, one after the other; of a line of any length none is held.
pub struct Words<'a> {
    rest: &'a str,
    column: usize,
}

/// The words of a line or of an argument.
pub fn words(text: &str) -> Words<'_> {
    Words {
        rest: text,
        column: 1,
    }
}

/// What stands on a line before its comment, without the spaces at its end.
pub fn before_comment(line: &str) -> &str {
    let said = line.split('#').next().unwrap_or_default();
    // A line feed may have a carriage return before it.
    said.trim_end_matches([' ', '\t', '\r'])
}

impl<'a> Iterator for Words<'a> {
    type Item = Word<'a>;

    fn next(&mut self) -> Option<Word<'a>> {
        let behind = self.rest.trim_start_matches([' ', '\t']);
        // A space and a tab are one byte each.
        let column = self.column + self.rest.len() - behind.len();
        let end = behind.find([' ', '\t']).unwrap_or(behind.len());
        let (text, rest) = behind.split_at(end);
        self.rest = rest;
        self.column = column + text.chars().count();
        (!text.is_empty()).then_some(Word { column, text })
    }
}

/// What follows the mark that some editors put before a text; or nothing, where the text is in UTF-16.
pub fn behind_mark(data: &[u8]) -> Option<&[u8]> {
    if data.starts_with(&[0xFF, 0xFE]) || data.starts_with(&[0xFE, 0xFF]) {
        return None;
    }
    Some(data.strip_prefix(b"\xEF\xBB\xBF").unwrap_or(data))
}

#[cfg(test)]
mod tests {
    use super::*;

    fn all(line: &str) -> Vec<(usize, &str)> {
        words(line).map(|word| (word.column, word.text)).collect()
    }

    #[test]
    fn words_have_the_columns_of_their_characters() {
        assert_eq!(
            all(" a\tbc  é  d"),
            [(2, "a"), (4, "bc"), (8, "é"), (11, "d")]
        );
        assert_eq!(all("a"), [(1, "a")]);
        assert_eq!(all(""), []);
        assert_eq!(all(" \t "), []);
    }

    #[test]
    fn a_comment_is_left_out() {
        assert_eq!(before_comment("a b # c # d"), "a b");
        assert_eq!(before_comment("a#b"), "a");
        assert_eq!(before_comment("# a"), "");
        assert_eq!(before_comment(" a \t\r"), " a");
    }

    #[test]
    fn a_mark_before_a_text_is_no_part_of_it() {
        assert_eq!(behind_mark(b"\xEF\xBB\xBFa"), Some(&b"a"[..]));
        assert_eq!(behind_mark(b"a"), Some(&b"a"[..]));
        assert_eq!(behind_mark(b"\xFF\xFEa\0"), None);
        assert_eq!(behind_mark(b"\xFE\xFF\0a"), None);
    }
}
