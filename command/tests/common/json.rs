//! A checker of JSON: takes a text apart, or says where it is wrong.

use std::collections::BTreeMap;
use std::ops::Index;

/// A value.
#[derive(Clone, Debug, PartialEq)]
pub enum Json {
    Null,
    Bool(bool),
    Number(f64),
    String(String),
    Array(Vec<Json>),
    Object(BTreeMap<String, Json>),
}

impl Json {
    /// Takes a whole text.
    #[track_caller]
    pub fn of(text: &str) -> Json {
        let mut reader = Reader { rest: text };
        let value = reader.value();
        reader.skip();
        match value {
            Some(value) if reader.rest.is_empty() => value,
            _ => panic!("not JSON from here on: {:.60}", reader.rest),
        }
    }

    pub fn number(number: usize) -> Json {
        Json::Number(number as f64)
    }

    pub fn items(&self) -> &[Json] {
        match self {
            Json::Array(items) => items,
            other => panic!("no array: {other:?}"),
        }
    }

    /// The names of an object.
    pub fn names(&self) -> Vec<&str> {
        match self {
            Json::Object(fields) => fields.keys().map(String::as_str).collect(),
            other => panic!("no object: {other:?}"),
        }
    }
}

impl Index<&str> for Json {
    type Output = Json;

    fn index(&self, name: &str) -> &Json {
        match self {
            Json::Object(fields) => {
                fields.get(name).unwrap_or_else(|| panic!("no {name}: {self:?}"))
            }
            other => panic!("no object: {other:?}"),
        }
    }
}

struct Reader<'a> {
    rest: &'a str,
}

impl Reader<'_> {
    fn skip(&mut self) {
        self.rest = self.rest.trim_start_matches([' ', '\n', '\r', '\t']);
    }

    /// Takes these characters, behind white space.
    fn take(&mut self, text: &str) -> Option<()> {
        self.skip();
        self.rest = self.rest.strip_prefix(text)?;
        Some(())
    }

    fn value(&mut self) -> Option<Json> {
        self.skip();
        match self.rest.chars().next()? {
            '"' => self.string().map(Json::String),
            '[' => self.array(),
            '{' => self.object(),
            'n' => self.take("null").map(|()| Json::Null),
            't' => self.take("true").map(|()| Json::Bool(true)),
            'f' => self.take("false").map(|()| Json::Bool(false)),
            _ => self.number(),
        }
    }

    /// Numbers without a sign and an exponent are all that is written here: none begins with a 0 but 0
    /// and 0 with a point.
    fn number(&mut self) -> Option<Json> {
        let is_of_number = |c: char| c.is_ascii_digit() || c == '.';
        let end = self.rest.find(|c: char| !is_of_number(c)).unwrap_or(self.rest.len());
        let (digits, rest) = self.rest.split_at(end);
        let whole = digits.split('.').next().unwrap_or_default();
        let is_right = whole == "0" || !whole.starts_with('0') && !digits.ends_with('.');
        self.rest = if is_right { rest } else { self.rest };
        digits.parse().ok().filter(|_| is_right).map(Json::Number)
    }

    fn string(&mut self) -> Option<String> {
        self.take("\"")?;
        let mut text = String::new();
        loop {
            let mut characters = self.rest.chars();
            let character = characters.next()?;
            self.rest = characters.as_str();
            match character {
                '"' => return Some(text),
                '\\' => text.push(self.escaped()?),
                control if control < ' ' => return None,
                other => text.push(other),
            }
        }
    }

    fn escaped(&mut self) -> Option<char> {
        let mut characters = self.rest.chars();
        let character = characters.next()?;
        self.rest = characters.as_str();
        match character {
            '"' | '\\' | '/' => Some(character),
            'n' => Some('\n'),
            't' => Some('\t'),
            'r' => Some('\r'),
            'u' => {
                let digits = self.rest.get(..4)?;
                self.rest = &self.rest[4..];
                char::from_u32(u32::from_str_radix(digits, 16).ok()?)
            }
            _ => None,
        }
    }

    fn array(&mut self) -> Option<Json> {
        self.take("[")?;
        let mut items = Vec::new();
        if self.take("]").is_some() {
            return Some(Json::Array(items));
        }
        loop {
            items.push(self.value()?);
            if self.take("]").is_some() {
                return Some(Json::Array(items));
            }
            self.take(",")?;
        }
    }

    fn object(&mut self) -> Option<Json> {
        self.take("{")?;
        let mut fields = BTreeMap::new();
        loop {
            self.skip();
            let name = self.string()?;
            self.take(":")?;
            let is_new = fields.insert(name, self.value()?).is_none();
            if self.take("}").is_some() {
                return is_new.then_some(Json::Object(fields));
            }
            self.take(",").filter(|()| is_new)?;
        }
    }
}
