//! JSON as the crate `json` reads it: tokens, and values that borrow their texts. A number is a text.

use super::alloc::{AllocError, Global};
use super::vec::Vec;
use std::mem;

/// Room for strings with escapes.
pub struct Scratch {
    text: std::vec::Vec<u8>,
}

impl Scratch {
    pub fn new(_: Global) -> Scratch {
        Scratch { text: std::vec::Vec::new() }
    }
}

#[derive(Clone, Copy, Debug, PartialEq, Eq)]
pub enum Error {
    Invalid,
    OutOfMemory,
}

#[derive(Clone, Copy, Debug)]
pub struct Invalid;

#[derive(Clone, Copy, Debug)]
pub enum Token<'a> {
    BeginObject,
    EndObject,
    BeginArray,
    EndArray,
    Key(&'a str),
    String(&'a str),
    Number(&'a str),
    Bool(bool),
    Null,
    /// The text is no JSON from here on.
    Bad,
}

#[derive(Clone, Copy, PartialEq, Eq)]
enum Place {
    AfterComma,
    Fresh,
    AfterValue,
    Failed,
}

/// The tokens of a text.
pub struct Reader<'a> {
    text: &'a str,
    room: &'a mut [u8],
    at: usize,
    place: Place,
}

impl<'a> Reader<'a> {
    pub fn new(text: &'a str, scratch: &'a mut Scratch) -> Result<Reader<'a>, AllocError> {
        if text.contains('\\') && scratch.text.len() < text.len() {
            scratch.text.try_reserve_exact(text.len() - scratch.text.len()).map_err(|_| AllocError)?;
            scratch.text.resize(text.len(), 0);
        }
        Ok(Reader { text, room: &mut scratch.text, at: 0, place: Place::Fresh })
    }

    /// The next byte that is no space.
    fn peek(&mut self) -> Option<u8> {
        let bytes = self.text.as_bytes();
        while let Some(b' ' | b'\n' | b'\t' | b'\r') = bytes.get(self.at) {
            self.at += 1;
        }
        bytes.get(self.at).copied()
    }

    fn may_close(&self) -> bool {
        matches!(self.place, Place::Fresh | Place::AfterValue)
    }

    fn refuse(&mut self) -> Option<Token<'a>> {
        let before = mem::replace(&mut self.place, Place::Failed);
        if before == Place::Failed { None } else { Some(Token::Bad) }
    }

    fn pass_comma(&mut self) {
        self.place = Place::AfterValue;
        if self.peek() == Some(b',') {
            self.at += 1;
            self.place = Place::AfterComma;
        }
    }

    pub fn next(&mut self) -> Option<Token<'a>> {
        if self.place == Place::Failed {
            return None;
        }
        let Some(byte) = self.peek() else {
            return if self.may_close() { None } else { self.refuse() };
        };
        match byte {
            b'}' | b']' => {
                if !self.may_close() {
                    return self.refuse();
                }
                self.at += 1;
                self.pass_comma();
                Some(if byte == b'}' { Token::EndObject } else { Token::EndArray })
            }
            _ if self.place == Place::AfterValue => self.refuse(),
            b'{' | b'[' => {
                self.at += 1;
                self.place = Place::Fresh;
                Some(if byte == b'{' { Token::BeginObject } else { Token::BeginArray })
            }
            b'"' => {
                let Some(text) = self.string() else {
                    return self.refuse();
                };
                if self.peek() == Some(b':') {
                    self.at += 1;
                    self.place = Place::Fresh;
                    return Some(Token::Key(text));
                }
                self.pass_comma();
                Some(Token::String(text))
            }
            _ => {
                let Some(token) = self.word() else {
                    return self.refuse();
                };
                self.pass_comma();
                Some(token)
            }
        }
    }

    pub fn next_key(&mut self) -> Result<Option<&'a str>, Invalid> {
        match self.next() {
            Some(Token::Key(key)) => Ok(Some(key)),
            Some(Token::EndObject) => Ok(None),
            _ => {
                self.place = Place::Failed;
                Err(Invalid)
            }
        }
    }

    pub fn take_end_array(&mut self) -> bool {
        if self.peek() != Some(b']') || !self.may_close() {
            return false;
        }
        self.at += 1;
        self.pass_comma();
        true
    }

    /// A literal or a number.
    fn word(&mut self) -> Option<Token<'a>> {
        let rest = &self.text[self.at..];
        let len = rest.bytes().take_while(|byte| !b" \n\t\r,:[]{}\"".contains(byte)).count();
        let word = rest.get(..len)?;
        let token = match word {
            "null" => Token::Null,
            "true" => Token::Bool(true),
            "false" => Token::Bool(false),
            _ if is_number(word.as_bytes()) => Token::Number(word),
            _ => return None,
        };
        self.at += len;
        Some(token)
    }

    fn string(&mut self) -> Option<&'a str> {
        let start = self.at + 1;
        let mut end = start;
        let bytes = self.text.as_bytes();
        while let Some(byte) = bytes.get(end) {
            match byte {
                b'"' => {
                    self.at = end + 1;
                    return Some(&self.text[start..end]);
                }
                b'\\' => return self.unescaped(start, end),
                0..0x20 => return None,
                _ => end += 1,
            }
        }
        None
    }

    /// A string with an escape, which is in the text at `at`.
    fn unescaped(&mut self, start: usize, at: usize) -> Option<&'a str> {
        let mut found = std::string::String::from(&self.text[start..at]);
        let mut rest = self.text[at..].chars();
        loop {
            match rest.next()? {
                '"' => break,
                '\\' => found.push(escaped(&mut rest)?),
                c if c < ' ' => return None,
                c => found.push(c),
            }
        }
        self.at = self.text.len() - rest.as_str().len();
        let (front, back) = mem::take(&mut self.room).split_at_mut(found.len());
        self.room = back;
        front.copy_from_slice(found.as_bytes());
        str::from_utf8(front).ok()
    }
}

/// The character of an escape, from the byte after the backslash on.
fn escaped(rest: &mut std::str::Chars<'_>) -> Option<char> {
    match rest.next()? {
        c @ ('"' | '\\' | '/') => Some(c),
        'b' => Some('\u{8}'),
        'f' => Some('\u{c}'),
        'n' => Some('\n'),
        'r' => Some('\r'),
        't' => Some('\t'),
        'u' => {
            let first = four_digits(rest)?;
            if !(0xd800..0xdc00).contains(&first) {
                return char::from_u32(first);
            }
            if rest.next()? != '\\' || rest.next()? != 'u' {
                return None;
            }
            let second = four_digits(rest)?;
            if !(0xdc00..0xe000).contains(&second) {
                return None;
            }
            char::from_u32(0x10000 + ((first - 0xd800) << 10) + (second - 0xdc00))
        }
        _ => None,
    }
}

fn four_digits(rest: &mut std::str::Chars<'_>) -> Option<u32> {
    let mut code = 0;
    for _ in 0..4 {
        code = 16 * code + rest.next()?.to_digit(16)?;
    }
    Some(code)
}

/// Whether a text is a number (RFC 8259, section 6).
fn is_number(text: &[u8]) -> bool {
    let mut rest = text.strip_prefix(b"-").unwrap_or(text);
    if let Some(after) = rest.strip_prefix(b"0") {
        rest = after;
    } else if !take_digits(&mut rest) {
        return false;
    }
    if let Some(after) = rest.strip_prefix(b".") {
        rest = after;
        if !take_digits(&mut rest) {
            return false;
        }
    }
    if let [b'e' | b'E', after @ ..] = rest {
        rest = match after {
            [b'+' | b'-', digits @ ..] => digits,
            _ => after,
        };
        if !take_digits(&mut rest) {
            return false;
        }
    }
    rest.is_empty()
}

/// Passes over decimal digits, of which there has to be one.
fn take_digits(rest: &mut &[u8]) -> bool {
    let count = rest.iter().take_while(|byte| byte.is_ascii_digit()).count();
    *rest = &rest[count..];
    count > 0
}

/// A value, which borrows its texts.
#[derive(Debug)]
pub enum Value<'a> {
    Null,
    Bool(bool),
    Number(&'a str),
    String(&'a str),
    Array(Vec<Value<'a>>),
    Object(Vec<(&'a str, Value<'a>)>),
}

impl<'a> Value<'a> {
    /// The next value of the reader. Arrays and objects may nest `depth` deep.
    pub fn read(alloc: Global, reader: &mut Reader<'a>, depth: usize) -> Result<Value<'a>, Error> {
        match reader.next().ok_or(Error::Invalid)? {
            Token::String(text) => Ok(Value::String(text)),
            Token::Number(text) => Ok(Value::Number(text)),
            Token::Bool(flag) => Ok(Value::Bool(flag)),
            Token::Null => Ok(Value::Null),
            Token::BeginArray if depth > 0 => {
                let mut items = Vec::new(alloc);
                while !reader.take_end_array() {
                    let item = Value::read(alloc, reader, depth - 1)?;
                    items.push(item).map_err(|_| Error::OutOfMemory)?;
                }
                Ok(Value::Array(items))
            }
            Token::BeginObject if depth > 0 => {
                let mut members = Vec::new(alloc);
                while let Some(key) = reader.next_key().map_err(|_| Error::Invalid)? {
                    let member = Value::read(alloc, reader, depth - 1)?;
                    members.push((key, member)).map_err(|_| Error::OutOfMemory)?;
                }
                Ok(Value::Object(members))
            }
            _ => {
                reader.place = Place::Failed;
                Err(Error::Invalid)
            }
        }
    }

    /// The last member of that name.
    pub fn get(&self, name: &str) -> Option<&Value<'a>> {
        match self {
            Value::Object(members) => members.iter().rev().find(|member| member.0 == name).map(|member| &member.1),
            _ => None,
        }
    }

    pub fn as_str(&self) -> Option<&'a str> {
        match self {
            Value::String(text) => Some(text),
            _ => None,
        }
    }

    pub fn as_number(&self) -> Option<&'a str> {
        match self {
            Value::Number(text) => Some(text),
            _ => None,
        }
    }

    pub fn as_bool(&self) -> Option<bool> {
        match self {
            Value::Bool(flag) => Some(*flag),
            _ => None,
        }
    }

    pub fn is_null(&self) -> bool {
        matches!(self, Value::Null)
    }
}
