//! A small strict JSON parser, after RFC 8259; numbers are integers, as the program writes no others.

use std::iter::Peekable;
use std::str::Chars;

#[derive(Clone, Debug, PartialEq, Eq)]
pub enum Json {
    Null,
    Bool(bool),
    Number(i64),
    Text(String),
    List(Vec<Json>),
    Object(Vec<(String, Json)>),
}

impl Json {
    /// The value of a key of an object.
    #[track_caller]
    pub fn at(&self, key: &str) -> &Json {
        let Json::Object(fields) = self else { panic!("{self:?} is no object") };
        let field = fields.iter().find(|(known, _)| known == key);
        field.map(|(_, value)| value).unwrap_or_else(|| panic!("no {key} in {self:?}"))
    }

    #[track_caller]
    pub fn number(&self, key: &str) -> i64 {
        let Json::Number(number) = self.at(key) else { panic!("{key} of {self:?} is no number") };
        *number
    }

    #[track_caller]
    pub fn text(&self, key: &str) -> &str {
        let Json::Text(text) = self.at(key) else { panic!("{key} of {self:?} is no text") };
        text
    }

    /// A text whose characters are bytes.
    #[track_caller]
    pub fn bytes(&self, key: &str) -> Vec<u8> {
        let byte = |c: char| u8::try_from(u32::from(c)).expect("each character is a byte");
        self.text(key).chars().map(byte).collect()
    }

    /// The keys of an object, in their order.
    #[track_caller]
    pub fn keys(&self) -> Vec<&str> {
        let Json::Object(fields) = self else { panic!("{self:?} is no object") };
        fields.iter().map(|(key, _)| key.as_str()).collect()
    }
}

/// The objects of an output: one a line, each line ended by a newline.
#[track_caller]
pub fn objects(output: &[u8]) -> Vec<Json> {
    let text = std::str::from_utf8(output).expect("JSON is UTF-8");
    assert!(text.is_empty() || text.ends_with('\n'), "the last line has no end");
    text.lines().map(|line| parse(line).unwrap_or_else(|wrong| panic!("{wrong}: {line}"))).collect()
}

pub fn parse(text: &str) -> Result<Json, String> {
    let mut rest = text.chars().peekable();
    let value = value(&mut rest)?;
    match rest.next() {
        None => Ok(value),
        Some(more) => Err(format!("{more:?} behind the value")),
    }
}

type Rest<'a> = Peekable<Chars<'a>>;

/// A value without blanks before it; the program writes none.
fn value(rest: &mut Rest) -> Result<Json, String> {
    match rest.peek().ok_or("a value is missing")? {
        '{' => object(rest),
        '[' => list(rest),
        '"' => string(rest).map(Json::Text),
        '-' | '0'..='9' => number(rest),
        _ => word(rest),
    }
}

fn word(rest: &mut Rest) -> Result<Json, String> {
    let mut word = String::new();
    while let Some(letter) = rest.next_if(char::is_ascii_lowercase) {
        word.push(letter);
    }
    match word.as_str() {
        "null" => Ok(Json::Null),
        "true" => Ok(Json::Bool(true)),
        "false" => Ok(Json::Bool(false)),
        _ => Err(format!("unknown word {word:?}")),
    }
}

fn number(rest: &mut Rest) -> Result<Json, String> {
    let mut text = String::new();
    while let Some(digit) = rest.next_if(|&c| c == '-' || c.is_ascii_digit()) {
        text.push(digit);
    }
    let digits = text.strip_prefix('-').unwrap_or(&text);
    if digits.is_empty() || digits.contains('-') || (digits.len() > 1 && digits.starts_with('0')) {
        return Err(format!("wrong number {text}"));
    }
    text.parse().map(Json::Number).map_err(|wrong| format!("{text}: {wrong}"))
}

fn list(rest: &mut Rest) -> Result<Json, String> {
    let mut items = Vec::new();
    expect(rest, '[')?;
    if rest.next_if_eq(&']').is_some() {
        return Ok(Json::List(items));
    }
    loop {
        items.push(value(rest)?);
        if rest.next_if_eq(&',').is_none() {
            return expect(rest, ']').map(|()| Json::List(items));
        }
    }
}

fn object(rest: &mut Rest) -> Result<Json, String> {
    let mut fields: Vec<(String, Json)> = Vec::new();
    expect(rest, '{')?;
    if rest.next_if_eq(&'}').is_some() {
        return Ok(Json::Object(fields));
    }
    loop {
        let key = string(rest)?;
        if fields.iter().any(|(known, _)| *known == key) {
            return Err(format!("{key} stands twice"));
        }
        expect(rest, ':')?;
        fields.push((key, value(rest)?));
        if rest.next_if_eq(&',').is_none() {
            return expect(rest, '}').map(|()| Json::Object(fields));
        }
    }
}

fn expect(rest: &mut Rest, wanted: char) -> Result<(), String> {
    match rest.next() {
        Some(found) if found == wanted => Ok(()),
        found => Err(format!("{found:?} where {wanted:?} is due")),
    }
}

fn string(rest: &mut Rest) -> Result<String, String> {
    let mut text = String::new();
    expect(rest, '"')?;
    loop {
        match rest.next().ok_or("a string without its end")? {
            '"' => return Ok(text),
            '\\' => text.push(escape(rest)?),
            control if control < ' ' => return Err(format!("raw {control:?} in a string")),
            other => text.push(other),
        }
    }
}

fn escape(rest: &mut Rest) -> Result<char, String> {
    match rest.next().ok_or("a lone backslash")? {
        same @ ('"' | '\\' | '/') => Ok(same),
        'b' => Ok('\u{8}'),
        'f' => Ok('\u{c}'),
        'n' => Ok('\n'),
        'r' => Ok('\r'),
        't' => Ok('\t'),
        'u' => {
            let mut number = 0;
            for _ in 0..4 {
                let digit = rest.next().and_then(|c| c.to_digit(16)).ok_or("four digits are due")?;
                number = number * 16 + digit;
            }
            char::from_u32(number).ok_or(format!("{number:x} is no character"))
        }
        other => Err(format!("unknown escape {other:?}")),
    }
}
