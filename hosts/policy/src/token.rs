//! The words and marks of a line.

use std::fmt;

/// What stands for itself in a line, and so not in a name without quotes.
const MARKS: &str = "{},=:|";

/// A piece of a line.
#[derive(Clone, Copy, Debug, PartialEq, Eq)]
pub enum Token<'a> {
    /// A word without quotes: a keyword or a name.
    Word(&'a str),
    /// A name in double quotes.
    Quoted(&'a str),
    /// One of `{ } , = : |`.
    Mark(char),
}

impl fmt::Display for Token<'_> {
    fn fmt(&self, f: &mut fmt::Formatter<'_>) -> fmt::Result {
        match self {
            Token::Word(word) => write!(f, "`{word}`"),
            Token::Quoted(name) => write!(f, "`\"{name}\"`"),
            Token::Mark(mark) => write!(f, "`{mark}`"),
        }
    }
}

/// A name as a story spells it: in double quotes where it must be. A name with a double quote has no spelling.
pub fn quoted(name: &str) -> String {
    let bare = !name.is_empty() && !name.starts_with('#') && !name.contains(ends_word);
    if bare && name != "run" {
        name.into()
    } else {
        format!("\"{name}\"")
    }
}

fn is_space(c: char) -> bool {
    c == ' ' || c == '\t'
}

fn ends_word(c: char) -> bool {
    is_space(c) || MARKS.contains(c) || c == '"'
}

/// The tokens of a line; a `#` at its beginning or behind a space begins a comment.
pub fn tokens(line: &str) -> Result<Vec<Token<'_>>, String> {
    let mut found = Vec::new();
    let mut rest = line.strip_suffix('\r').unwrap_or(line);
    if let Some(control) = rest.chars().find(|c| c.is_control() && *c != '\t') {
        return Err(format!("found the control character {:#04x}, expected text", u32::from(control)));
    }
    let mut behind_space = true;
    while let Some(c) = rest.chars().next() {
        let (token, length) = match c {
            c if is_space(c) => (None, 1),
            '#' if behind_space => break,
            '"' => {
                let name = rest[1..].split_once('"').ok_or("found no second quote, expected one behind the name")?.0;
                (Some(Token::Quoted(name)), name.len() + 2)
            }
            c if MARKS.contains(c) => (Some(Token::Mark(c)), 1),
            _ => {
                let length = rest.find(ends_word).unwrap_or(rest.len());
                (Some(Token::Word(&rest[..length])), length)
            }
        };
        behind_space = is_space(c);
        found.extend(token);
        rest = &rest[length..];
    }
    Ok(found)
}

#[cfg(test)]
mod tests {
    use super::*;

    #[test]
    fn comments_quotes_and_marks() {
        assert_eq!(tokens("# all of it"), Ok(vec![]));
        assert_eq!(tokens("  \t# all of it"), Ok(vec![]));
        assert_eq!(tokens("source a#b # rest"), Ok(vec![Token::Word("source"), Token::Word("a#b")]));
        assert_eq!(tokens("\"a #b\"x"), Ok(vec![Token::Quoted("a #b"), Token::Word("x")]));
        assert_eq!(
            tokens("permit a: b"),
            Ok(vec![Token::Word("permit"), Token::Word("a"), Token::Mark(':'), Token::Word("b")])
        );
        assert!(tokens("file \"a").is_err());
        assert!(tokens("file a\u{1b}b").is_err());
    }

    #[test]
    fn a_name_is_read_as_it_is_spelled() {
        for name in ["a", "a b", "a#b", "#a", "a:b", "", "run", "{", "/etc/x.conf", "ä ö"] {
            let spelled = quoted(name);
            let read = tokens(&spelled).unwrap();
            assert!(matches!(read[..], [Token::Word(same) | Token::Quoted(same)] if same == name), "{name}: {read:?}");
        }
    }
}
