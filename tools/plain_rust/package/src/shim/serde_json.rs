//! JSON values, read as the crate `serde_json` reads them: at most 127 levels; the last of two members of one name counts; an integer
//! that does not fit 64 bits is a number with a fraction, and so is `-0`.

use super::alloc::{AllocError, AllocFailed, Global};
use super::string::String;
use super::vec::Vec;
use std::collections::BTreeMap;

pub type Map<K, V> = BTreeMap<K, V>;

#[derive(Debug)]
pub enum Value {
    Null,
    Bool(bool),
    Number(Number),
    String(String),
    Array(Vec<Value>),
    Object(Map<String, Value>),
}

#[derive(Clone, Copy, Debug)]
pub enum Number {
    Unsigned(u64),
    /// Below 0.
    Negative(i64),
    /// With a fraction or an exponent, or too large.
    Float,
}

/// Why a text is no value.
#[derive(Clone, Copy, Debug, PartialEq, Eq)]
enum Fault {
    OutOfMemory,
    /// The text is no JSON.
    Syntax,
}

/// A fault, and where the reader was, counted from 1.
#[derive(Clone, Copy, Debug, PartialEq, Eq)]
pub struct Error {
    fault: Fault,
    line: usize,
    column: usize,
}

impl Error {
    pub fn is_memory(&self) -> bool {
        self.fault == Fault::OutOfMemory
    }

    pub fn line(&self) -> usize {
        self.line
    }

    pub fn column(&self) -> usize {
        self.column
    }

    /// A fault at an offset of a text: the byte there, or the last byte of a text that ends too early.
    fn at(fault: Fault, text: &[u8], at: usize) -> Error {
        let bytes = &text[..at];
        let line = 1 + bytes.iter().filter(|byte| **byte == b'\n').count();
        let column = bytes.iter().rev().take_while(|byte| **byte != b'\n').count();
        Error { fault, line, column: column + usize::from(at < text.len()) }
    }
}

impl From<AllocError> for Fault {
    fn from(_: AllocError) -> Fault {
        Fault::OutOfMemory
    }
}

impl<T> From<AllocFailed<T>> for Fault {
    fn from(_: AllocFailed<T>) -> Fault {
        Fault::OutOfMemory
    }
}

impl Value {
    pub fn from_slice(alloc: Global, bytes: &[u8]) -> Result<Value, Error> {
        match str::from_utf8(bytes) {
            Ok(text) => Value::from_str(alloc, text),
            Err(e) => Err(Error::at(Fault::Syntax, bytes, e.valid_up_to())),
        }
    }

    pub fn from_str(alloc: Global, text: &str) -> Result<Value, Error> {
        let mut reader = Reader { alloc, text, at: 0 };
        let value = reader.value(127).map_err(|fault| reader.error(fault))?;
        reader.skip_space();
        if reader.at == text.len() { Ok(value) } else { Err(reader.error(Fault::Syntax)) }
    }

    /// The value at a path of names and places, each after a `/`.
    pub fn pointer(&self, path: &str) -> Option<&Value> {
        let mut found = self;
        for step in path.split('/').skip(1) {
            found = match found {
                Value::Object(members) => members.get(step)?,
                Value::Array(items) => items.as_slice().get(step.parse::<usize>().ok()?)?,
                _ => return None,
            };
        }
        Some(found)
    }

    /// The text of a value that is no list and no object. A number with a fraction is not kept.
    pub fn try_to_string(&self, alloc: Global) -> Result<String, AllocError> {
        match self {
            Value::Bool(flag) => String::from_str(alloc, if *flag { "true" } else { "false" }),
            Value::Number(Number::Unsigned(n)) => String::from_str(alloc, &std::format!("{n}")),
            Value::Number(Number::Negative(n)) => String::from_str(alloc, &std::format!("{n}")),
            Value::Number(Number::Float) => String::from_str(alloc, "a number with a fraction"),
            Value::String(text) => String::from_str(alloc, &std::format!("{:?}", text.as_str())),
            _ => String::from_str(alloc, "null"),
        }
    }

    pub fn is_array(&self) -> bool {
        matches!(self, Value::Array(_))
    }

    pub fn get(&self, name: &str) -> Option<&Value> {
        self.as_object()?.get(name)
    }

    pub fn as_object(&self) -> Option<&Map<String, Value>> {
        match self {
            Value::Object(members) => Some(members),
            _ => None,
        }
    }

    pub fn as_array(&self) -> Option<&Vec<Value>> {
        match self {
            Value::Array(items) => Some(items),
            _ => None,
        }
    }

    pub fn as_str(&self) -> Option<&str> {
        match self {
            Value::String(text) => Some(text.as_str()),
            _ => None,
        }
    }

    pub fn as_u64(&self) -> Option<u64> {
        match self {
            Value::Number(Number::Unsigned(n)) => Some(*n),
            _ => None,
        }
    }

    pub fn as_i64(&self) -> Option<i64> {
        match self {
            Value::Number(Number::Unsigned(n)) => i64::try_from(*n).ok(),
            Value::Number(Number::Negative(n)) => Some(*n),
            _ => None,
        }
    }

    pub fn as_bool(&self) -> Option<bool> {
        match self {
            Value::Bool(b) => Some(*b),
            _ => None,
        }
    }

    pub fn is_object(&self) -> bool {
        matches!(self, Value::Object(_))
    }

    pub fn is_null(&self) -> bool {
        matches!(self, Value::Null)
    }
}

struct Reader<'a> {
    alloc: Global,
    text: &'a str,
    at: usize,
}

impl Reader<'_> {
    fn error(&self, fault: Fault) -> Error {
        Error::at(fault, self.text.as_bytes(), self.at)
    }

    fn peek(&self) -> Option<u8> {
        self.text.as_bytes().get(self.at).copied()
    }

    fn skip_space(&mut self) {
        while let Some(b' ' | b'\n' | b'\t' | b'\r') = self.peek() {
            self.at += 1;
        }
    }

    /// Takes the byte if it is next.
    fn takes(&mut self, byte: u8) -> bool {
        let is_next = self.peek() == Some(byte);
        self.at += usize::from(is_next);
        is_next
    }

    fn expect(&mut self, part: &str) -> Result<(), Fault> {
        if !self.text.as_bytes()[self.at..].starts_with(part.as_bytes()) {
            return Err(Fault::Syntax);
        }
        self.at += part.len();
        Ok(())
    }

    /// A value with at most `depth` levels of arrays and objects.
    fn value(&mut self, depth: usize) -> Result<Value, Fault> {
        self.skip_space();
        match self.peek().ok_or(Fault::Syntax)? {
            b'n' => self.expect("null").map(|()| Value::Null),
            b't' => self.expect("true").map(|()| Value::Bool(true)),
            b'f' => self.expect("false").map(|()| Value::Bool(false)),
            b'"' => Ok(Value::String(self.whole(Reader::string)?)),
            b'[' if depth > 0 => Ok(Value::Array(self.items(depth - 1)?)),
            b'{' if depth > 0 => Ok(Value::Object(self.members(depth - 1)?)),
            _ => Ok(Value::Number(self.whole(Reader::number)?)),
        }
    }

    /// A token; at a fault in it the reader is at its start.
    fn whole<T>(&mut self, token: fn(&mut Self) -> Result<T, Fault>) -> Result<T, Fault> {
        let start = self.at;
        token(self).inspect_err(|_| self.at = start)
    }

    fn items(&mut self, depth: usize) -> Result<Vec<Value>, Fault> {
        let mut items = Vec::new(self.alloc);
        self.expect("[")?;
        self.skip_space();
        if self.takes(b']') {
            return Ok(items);
        }
        loop {
            items.push(self.value(depth)?)?;
            self.skip_space();
            if self.takes(b']') {
                return Ok(items);
            }
            self.expect(",")?;
        }
    }

    fn members(&mut self, depth: usize) -> Result<Map<String, Value>, Fault> {
        let mut members = Map::new();
        self.expect("{")?;
        self.skip_space();
        if self.takes(b'}') {
            return Ok(members);
        }
        loop {
            self.skip_space();
            let name = self.whole(Reader::string)?;
            self.skip_space();
            self.expect(":")?;
            members.insert(name, self.value(depth)?);
            self.skip_space();
            if self.takes(b'}') {
                return Ok(members);
            }
            self.expect(",")?;
        }
    }

    fn string(&mut self) -> Result<String, Fault> {
        self.expect("\"")?;
        let mut text = String::new(self.alloc);
        loop {
            let start = self.at;
            while self.peek().is_some_and(|byte| byte >= 0x20 && byte != b'"' && byte != b'\\') {
                self.at += 1;
            }
            text.push_str(&self.text[start..self.at])?;
            if self.takes(b'"') {
                return Ok(text);
            }
            self.expect("\\")?;
            let found = self.escaped()?;
            text.push_str(found.encode_utf8(&mut [0; 4]))?;
        }
    }

    /// The character of an escape, from the byte after the backslash on.
    fn escaped(&mut self) -> Result<char, Fault> {
        let byte = self.peek().ok_or(Fault::Syntax)?;
        self.at += 1;
        match byte {
            b'"' | b'\\' | b'/' => Ok(char::from(byte)),
            b'b' => Ok('\u{8}'),
            b'f' => Ok('\u{c}'),
            b'n' => Ok('\n'),
            b'r' => Ok('\r'),
            b't' => Ok('\t'),
            b'u' => {
                let first = self.four_digits()?;
                if !(0xd800..0xdc00).contains(&first) {
                    return char::from_u32(first).ok_or(Fault::Syntax);
                }
                self.expect("\\u")?;
                let second = self.four_digits()?;
                if !(0xdc00..0xe000).contains(&second) {
                    return Err(Fault::Syntax);
                }
                let code = 0x10000 + ((first - 0xd800) << 10) + (second - 0xdc00);
                char::from_u32(code).ok_or(Fault::Syntax)
            }
            _ => Err(Fault::Syntax),
        }
    }

    fn four_digits(&mut self) -> Result<u32, Fault> {
        let mut code = 0;
        for _ in 0..4 {
            let digit = self.peek().and_then(|byte| char::from(byte).to_digit(16)).ok_or(Fault::Syntax)?;
            code = 16 * code + digit;
            self.at += 1;
        }
        Ok(code)
    }

    /// Skips decimal digits, at least one.
    fn digits(&mut self) -> Result<(), Fault> {
        let start = self.at;
        while self.peek().is_some_and(|byte| byte.is_ascii_digit()) {
            self.at += 1;
        }
        if self.at == start { Err(Fault::Syntax) } else { Ok(()) }
    }

    fn number(&mut self) -> Result<Number, Fault> {
        let start = self.at;
        let is_negative = self.takes(b'-');
        if !self.takes(b'0') {
            self.digits()?;
        }
        let end_of_integer = self.at;
        if self.takes(b'.') {
            self.digits()?;
        }
        if self.takes(b'e') || self.takes(b'E') {
            if !self.takes(b'+') {
                self.takes(b'-');
            }
            self.digits()?;
        }
        let text = &self.text[start..self.at];
        if self.at == end_of_integer {
            if !is_negative && let Ok(n) = text.parse() {
                return Ok(Number::Unsigned(n));
            }
            if is_negative && text != "-0" && let Ok(n) = text.parse() {
                return Ok(Number::Negative(n));
            }
        }
        match text.parse::<f64>() {
            Ok(n) if n.is_finite() => Ok(Number::Float),
            _ => Err(Fault::Syntax),
        }
    }
}
