//! Values of JSON: of numbers only those that are whole are kept as such.
mod reading;

use plain_std::alloc::{AllocError, Global};
use plain_std::prelude::{String as Text, Vec as List};

#[derive(Debug)]
pub enum Value {
    Null,
    Bool(bool),
    Whole(i64),
    Other,
    String(Text),
    Array(List<Value>),
    Object(Map),
}

/// The members of an object, in their order; of one name the last counts.
#[derive(Debug)]
pub struct Map<K = Text, V = Value>(pub Vec<(K, V)>);

impl Map {
    pub fn new(_: Global) -> Map {
        Map(Vec::new())
    }
    pub fn keys(&self) -> impl Iterator<Item = &Text> {
        self.0.iter().map(|member| &member.0)
    }
}

/// Why bytes are no value.
pub struct Error;

impl Error {
    pub fn is_memory(&self) -> bool {
        false
    }
}

impl Value {
    pub fn from_slice(_: Global, bytes: &[u8]) -> Result<Value, Error> {
        reading::value_of(bytes).ok_or(Error)
    }
    pub fn get(&self, name: &str) -> Option<&Value> {
        let members = &self.as_object()?.0;
        members
            .iter()
            .rev()
            .find(|member| member.0.as_str() == name)
            .map(|member| &member.1)
    }
    pub fn as_object(&self) -> Option<&Map> {
        if let Value::Object(map) = self {
            Some(map)
        } else {
            None
        }
    }
    pub fn as_array(&self) -> Option<&List<Value>> {
        if let Value::Array(items) = self {
            Some(items)
        } else {
            None
        }
    }
    pub fn as_str(&self) -> Option<&str> {
        if let Value::String(text) = self {
            Some(text.as_str())
        } else {
            None
        }
    }
    pub fn as_i64(&self) -> Option<i64> {
        if let Value::Whole(number) = self {
            Some(*number)
        } else {
            None
        }
    }
    pub fn to_vec(&self, _: Global) -> Result<List<u8>, AllocError> {
        let mut text = String::new();
        self.write(&mut text);
        Ok(List(text.into_bytes()))
    }

    // Writes it in the compact form. Texts of answers need no escapes.
    fn write(&self, text: &mut String) {
        match self {
            Value::Null | Value::Other => text.push_str("null"),
            Value::Bool(value) => text.push_str(&value.to_string()),
            Value::Whole(number) => text.push_str(&number.to_string()),
            Value::String(own) => text.push_str(&format!("\"{}\"", own.as_str())),
            Value::Array(items) => {
                write_all(text, ['[', ']'], items, |text, item| item.write(text))
            }
            Value::Object(map) => write_all(text, ['{', '}'], &map.0, |text, member| {
                text.push_str(&format!("\"{}\":", member.0.as_str()));
                member.1.write(text)
            }),
        }
    }
}

fn write_all<T>(text: &mut String, ends: [char; 2], items: &[T], write: impl Fn(&mut String, &T)) {
    text.push(ends[0]);
    for (place, item) in items.iter().enumerate() {
        if place > 0 {
            text.push(',');
        }
        write(text, item);
    }
    text.push(ends[1]);
}

impl From<i64> for Value {
    fn from(number: i64) -> Value {
        Value::Whole(number)
    }
}
impl From<u32> for Value {
    fn from(number: u32) -> Value {
        Value::Whole(number.into())
    }
}
impl From<i8> for Value {
    fn from(number: i8) -> Value {
        Value::Whole(number.into())
    }
}

/// Puts a member behind those of a map.
pub fn put(map: &mut Map, _: Global, name: &str, value: Value) -> Result<(), AllocError> {
    map.0.push((Text(name.to_string()), value));
    Ok(())
}
