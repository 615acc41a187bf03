//! The tokens of a Rattle source. What only the prover reads is left out: `ghost use` and the
//! clauses of contracts, whose text is another language's.

/// What a token is.
#[derive(Clone, Copy, Debug, PartialEq, Eq)]
pub enum Kind {
    /// A name or a keyword.
    Word,
    /// A number.
    Number,
    /// A character or a byte in quotes.
    Character,
    /// A text or bytes in quotes.
    Text,
    /// A lifetime or a label.
    Lifetime,
    /// Anything else.
    Sign,
}

/// A token and its line, counted from 1.
#[derive(Clone, Debug, PartialEq, Eq)]
pub struct Token {
    /// What it is.
    pub kind: Kind,
    /// As it is written.
    pub text: String,
    /// Where it begins.
    pub line: usize,
}

impl Token {
    /// Whether it is this sign or word; a quoted text is neither.
    pub fn is(&self, text: &str) -> bool {
        matches!(self.kind, Kind::Word | Kind::Sign) && self.text == text
    }
}

/// Signs of more than one character, longer ones first.
const LONG_SIGNS: [&str; 23] = [
    "..=", "<<=", ">>=", "::", "->", "=>", "==", "!=", "<=", ">=", "&&", "||", "..", "+=", "-=",
    "*=", "/=", "%=", "&=", "|=", "^=", "<<", ">>",
];
const SIGNS: &str = "{}()[]<>,;:=+-*/%&|^!.#?@";

/// The tokens of a source, or the line of what is not understood.
pub fn tokens(source: &str) -> Result<Vec<Token>, String> {
    let (mut found, mut rest, mut line) = (Vec::new(), source, 1);
    while !rest.is_empty() {
        let (kind, length) = piece(rest).map_err(|what| format!("{line}: {what}"))?;
        let (text, behind) = rest.split_at(length);
        found.extend(kind.map(|kind| Token { kind, text: text.to_string(), line }));
        line += text.matches('\n').count();
        rest = behind;
    }
    Ok(found)
}

/// The length of what the text begins with, and its kind if it is a token.
fn piece(text: &str) -> Result<(Option<Kind>, usize), String> {
    let spaces = text.len() - text.trim_start().len();
    if spaces > 0 {
        return Ok((None, spaces));
    }
    match unread_length(text)? {
        0 => token(text).map(|(kind, length)| (Some(kind), length)),
        length => Ok((None, length)),
    }
}

/// The length of a comment or of a clause that the text begins with, or 0.
fn unread_length(text: &str) -> Result<usize, String> {
    let behind = |end: &str| text.find(end).map(|at| at + end.len());
    let length = match &text[..word_length(text)] {
        "" if text.starts_with("//") => Some(behind("\n").unwrap_or(text.len())),
        "" if text.starts_with("/*") => behind("*/"),
        "ghost" if text["ghost".len()..].trim_start().starts_with("use ") => behind(";"),
        "ghost" | "requires" | "ensures" => group_end(text),
        _ => Some(0),
    };
    length.ok_or_else(|| "a comment or a clause does not end".to_string())
}

/// Where the first group in braces ends.
fn group_end(text: &str) -> Option<usize> {
    let mut depth = 0;
    let end = text.find(|c: char| {
        match c {
            '{' => depth += 1,
            '}' => depth -= 1,
            _ => (),
        }
        c == '}' && depth == 0
    });
    end.map(|at| at + 1)
}

fn word_length(text: &str) -> usize {
    text.find(|c: char| !c.is_ascii_alphanumeric() && c != '_').unwrap_or(text.len())
}

/// The kind and the length of the token that the text begins with.
fn token(text: &str) -> Result<(Kind, usize), String> {
    let first = text.chars().next().unwrap_or(' ');
    let bare = text.strip_prefix('b').unwrap_or(text);
    let prefix = text.len() - bare.len();
    if bare.starts_with('"') {
        return Ok((Kind::Text, prefix + quoted_length(bare)?));
    }
    if let Some(quoted) = bare.strip_prefix('\'') {
        let mut inside = quoted.chars();
        let (one, two) = (inside.next(), inside.next());
        if one == Some('\\') || two == Some('\'') {
            return Ok((Kind::Character, prefix + quoted_length(bare)?));
        }
        return Ok((Kind::Lifetime, prefix + 1 + word_length(quoted)));
    }
    if first.is_ascii_digit() {
        return Ok((Kind::Number, number_length(text)));
    }
    if word_length(text) > 0 {
        return Ok((Kind::Word, word_length(text)));
    }
    if let Some(sign) = LONG_SIGNS.iter().find(|sign| text.starts_with(**sign)) {
        return Ok((Kind::Sign, sign.len()));
    }
    if SIGNS.contains(first) {
        return Ok((Kind::Sign, 1));
    }
    Err(format!("the character {first} is not understood"))
}

/// A number, with its fraction but without a range behind it.
fn number_length(text: &str) -> usize {
    let whole = word_length(text);
    let mut behind = text[whole..].chars();
    if behind.next() == Some('.') && behind.next().is_some_and(|c| c.is_ascii_digit()) {
        return whole + 1 + word_length(&text[whole + 1..]);
    }
    whole
}

/// The length of the text in quotes, of which the first character is one.
fn quoted_length(text: &str) -> Result<usize, String> {
    let quote = text.chars().next();
    let mut escaped = false;
    let end = text.char_indices().skip(1).find(|&(_, c)| {
        let ends = Some(c) == quote && !escaped;
        escaped = c == '\\' && !escaped;
        ends
    });
    end.map(|(at, _)| at + 1).ok_or_else(|| "a quoted text does not end".to_string())
}
