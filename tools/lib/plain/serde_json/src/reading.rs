//! Reads a value, as RFC 8259 has it.
use crate::{Map, Value};
use plain_std::prelude::{String as Text, Vec as List};

// No value is deeper, as in serde_json.
const DEEPEST: usize = 127;

pub fn value_of(bytes: &[u8]) -> Option<Value> {
    let mut reading = Reading {
        text: std::str::from_utf8(bytes).ok()?.as_bytes(),
        at: 0,
        depth: 0,
    };
    let value = reading.value()?;
    reading.blanks();
    (reading.at == reading.text.len()).then_some(value)
}

struct Reading<'a> {
    text: &'a [u8],
    at: usize,
    depth: usize,
}

impl Reading<'_> {
    fn next(&self) -> Option<u8> {
        self.text.get(self.at).copied()
    }
    fn blanks(&mut self) {
        while matches!(self.next(), Some(b' ' | b'\t' | b'\n' | b'\r')) {
            self.at += 1;
        }
    }
    fn takes(&mut self, word: &[u8]) -> bool {
        let found = self.text[self.at..].starts_with(word);
        self.at += if found { word.len() } else { 0 };
        found
    }

    fn value(&mut self) -> Option<Value> {
        self.blanks();
        match self.next()? {
            b'{' => self
                .inside(b"}", Self::member)
                .map(|members| Value::Object(Map(members))),
            b'[' => self
                .inside(b"]", Self::value)
                .map(|items| Value::Array(List(items))),
            b'"' => self.string().map(|text| Value::String(Text(text))),
            b't' => self.takes(b"true").then_some(Value::Bool(true)),
            b'f' => self.takes(b"false").then_some(Value::Bool(false)),
            b'n' => self.takes(b"null").then_some(Value::Null),
            _ => self.number(),
        }
    }

    fn member(&mut self) -> Option<(Text, Value)> {
        self.blanks();
        let name = self.string()?;
        self.blanks();
        if !self.takes(b":") {
            return None;
        }
        Some((Text(name), self.value()?))
    }

    // What stands between brackets, with commas between.
    fn inside<T>(&mut self, end: &[u8], one: fn(&mut Self) -> Option<T>) -> Option<Vec<T>> {
        self.at += 1;
        self.depth += 1;
        if self.depth > DEEPEST {
            return None;
        }
        let mut found = Vec::new();
        self.blanks();
        let mut over = self.takes(end);
        while !over {
            found.push(one(self)?);
            self.blanks();
            over = self.takes(end);
            if !over && !self.takes(b",") {
                return None;
            }
        }
        self.depth -= 1;
        Some(found)
    }

    fn digits(&mut self) -> bool {
        let start = self.at;
        while matches!(self.next(), Some(b'0'..=b'9')) {
            self.at += 1;
        }
        self.at > start
    }

    fn number(&mut self) -> Option<Value> {
        let start = self.at;
        self.takes(b"-");
        if !self.takes(b"0") && !self.digits() {
            return None;
        }
        let whole = self.at;
        if self.takes(b".") && !self.digits() {
            return None;
        }
        if self.takes(b"e") || self.takes(b"E") {
            let _ = self.takes(b"+") || self.takes(b"-");
            if !self.digits() {
                return None;
            }
        }
        let text = std::str::from_utf8(&self.text[start..self.at]).ok()?;
        let value = text
            .parse()
            .ok()
            .filter(|_| self.at == whole && text != "-0");
        Some(value.map_or(Value::Other, Value::Whole))
    }

    fn string(&mut self) -> Option<String> {
        if !self.takes(b"\"") {
            return None;
        }
        let mut found = Vec::new();
        loop {
            let byte = self.next()?;
            self.at += 1;
            match byte {
                b'"' => return String::from_utf8(found).ok(),
                b'\\' => self.escape(&mut found)?,
                0..=31 => return None,
                _ => found.push(byte),
            }
        }
    }

    fn escape(&mut self, found: &mut Vec<u8>) -> Option<()> {
        let byte = self.next()?;
        self.at += 1;
        let own = match byte {
            b'"' | b'\\' | b'/' => char::from(byte),
            b'b' => '\u{8}',
            b'f' => '\u{c}',
            b'n' => '\n',
            b'r' => '\r',
            b't' => '\t',
            b'u' => self.code_point()?,
            _ => return None,
        };
        found.extend_from_slice(own.encode_utf8(&mut [0; 4]).as_bytes());
        Some(())
    }

    fn unit(&mut self) -> Option<u32> {
        let digits = self.text.get(self.at..self.at + 4)?;
        self.at += 4;
        u32::from_str_radix(std::str::from_utf8(digits).ok()?, 16).ok()
    }

    fn code_point(&mut self) -> Option<char> {
        let first = self.unit()?;
        if !(0xD800..0xDC00).contains(&first) {
            return char::from_u32(first);
        }
        if !self.takes(b"\\u") {
            return None;
        }
        let second = self.unit()?;
        char::from_u32(0x10000 + ((first - 0xD800) << 10) + second.checked_sub(0xDC00)?)
    }
}
