//! A strict reader of JSON, for what a program would read: nothing is let through that the standard has not, no name
//! stands twice in an object, and every number is a plain one of 0 or more.

use std::iter::Peekable;
use std::str::Chars;

/// A value.
#[derive(Clone, Debug, PartialEq, Eq)]
pub enum Json {
    Null,
    Number(u64),
    Text(String),
    Truth(bool),
    List(Vec<Json>),
    Object(Vec<(String, Json)>),
}

/// The objects of a text, one a line.
#[track_caller]
pub fn objects(text: &str) -> Vec<Json> {
    assert!(text.is_empty() || text.ends_with('\n'), "the last line has no end: {text:?}");
    let object = |line: &str| match read(line) {
        Ok(object @ Json::Object(_)) => object,
        other => panic!("{other:?} is no object: {line:?}"),
    };
    text.lines().map(object).collect()
}

/// The one object of a text of one line.
#[track_caller]
pub fn object(text: &str) -> Json {
    let mut objects = objects(text);
    assert_eq!(objects.len(), 1, "{text:?}");
    objects.remove(0)
}

impl Json {
    /// The names of its fields, in their order, with a space between.
    #[track_caller]
    pub fn names(&self) -> String {
        let Json::Object(fields) = self else { panic!("{self:?} is no object") };
        fields.iter().map(|(name, _)| name.as_str()).collect::<Vec<_>>().join(" ")
    }

    #[track_caller]
    pub fn field(&self, name: &str) -> &Json {
        let Json::Object(fields) = self else { panic!("{self:?} is no object") };
        let found = fields.iter().find(|(known, _)| known == name);
        &found.unwrap_or_else(|| panic!("no {name} in {self:?}")).1
    }

    #[track_caller]
    pub fn number(&self, name: &str) -> u64 {
        match self.field(name) {
            Json::Number(number) => *number,
            other => panic!("{name} is {other:?}"),
        }
    }

    #[track_caller]
    pub fn text(&self, name: &str) -> &str {
        match self.field(name) {
            Json::Text(text) => text,
            other => panic!("{name} is {other:?}"),
        }
    }

    #[track_caller]
    pub fn list(&self, name: &str) -> &[Json] {
        match self.field(name) {
            Json::List(list) => list,
            other => panic!("{name} is {other:?}"),
        }
    }
}

/// The value of a text, with nothing before or behind it.
pub fn read(text: &str) -> Result<Json, String> {
    let mut rest = text.chars().peekable();
    let value = value(&mut rest)?;
    match rest.next() {
        None => Ok(value),
        Some(more) => Err(format!("{more:?} behind the value")),
    }
}

fn value(rest: &mut Peekable<Chars>) -> Result<Json, String> {
    match rest.peek() {
        Some('"') => Ok(Json::Text(text(rest)?)),
        Some('0'..='9') => number(rest),
        Some('[') => Ok(Json::List(row(rest, '[', ']', value)?)),
        Some('{') => {
            let fields = row(rest, '{', '}', field)?;
            let twice = fields.iter().enumerate().find(|(at, (name, _))| fields[..*at].iter().any(|(n, _)| n == name));
            twice.map_or_else(|| Ok(Json::Object(fields.clone())), |(_, (name, _))| Err(format!("{name} stands twice")))
        }
        Some('n') => word(rest, "null").map(|()| Json::Null),
        Some('t') => word(rest, "true").map(|()| Json::Truth(true)),
        Some('f') => word(rest, "false").map(|()| Json::Truth(false)),
        other => Err(format!("no value begins with {other:?}")),
    }
}

fn field(rest: &mut Peekable<Chars>) -> Result<(String, Json), String> {
    let name = text(rest)?;
    word(rest, ":")?;
    Ok((name, value(rest)?))
}

/// What stands between two brackets, a comma between each.
fn row<T>(
    rest: &mut Peekable<Chars>,
    open: char,
    close: char,
    each: fn(&mut Peekable<Chars>) -> Result<T, String>,
) -> Result<Vec<T>, String> {
    word(rest, &open.to_string())?;
    let mut all = Vec::new();
    if rest.next_if_eq(&close).is_some() {
        return Ok(all);
    }
    loop {
        all.push(each(rest)?);
        if rest.next_if_eq(&close).is_some() {
            return Ok(all);
        }
        word(rest, ",")?;
    }
}

fn word(rest: &mut Peekable<Chars>, word: &str) -> Result<(), String> {
    match word.chars().find(|letter| rest.next_if_eq(letter).is_none()) {
        None => Ok(()),
        Some(letter) => Err(format!("{letter:?} is missing before {:?}", rest.peek())),
    }
}

fn number(rest: &mut Peekable<Chars>) -> Result<Json, String> {
    let mut digits = String::new();
    while let Some(digit) = rest.next_if(char::is_ascii_digit) {
        digits.push(digit);
    }
    if digits.len() > 1 && digits.starts_with('0') {
        return Err(format!("{digits} begins with 0"));
    }
    digits.parse().map(Json::Number).map_err(|error| format!("{digits}: {error}"))
}

fn text(rest: &mut Peekable<Chars>) -> Result<String, String> {
    word(rest, "\"")?;
    let mut text = String::new();
    loop {
        match rest.next().ok_or("a text does not end")? {
            '"' => return Ok(text),
            '\\' => text.push(escaped(rest)?),
            control if u32::from(control) < 0x20 => return Err(format!("{control:?} in a text")),
            other => text.push(other),
        }
    }
}

fn escaped(rest: &mut Peekable<Chars>) -> Result<char, String> {
    match rest.next() {
        Some(same @ ('"' | '\\' | '/')) => Ok(same),
        Some('n') => Ok('\n'),
        Some('t') => Ok('\t'),
        Some('r') => Ok('\r'),
        Some('u') => {
            let digits: String = rest.by_ref().take(4).collect();
            let code = u32::from_str_radix(&digits, 16).map_err(|error| format!("{digits}: {error}"))?;
            char::from_u32(code).filter(|_| digits.len() == 4).ok_or(format!("{digits} is no character"))
        }
        other => Err(format!("a backslash before {other:?}")),
    }
}
