//! A small parser of JSON for the tests, which shares nothing with what writes it. It is strict: what it does not know is
//! an error, and so is a name that stands twice.

use std::collections::BTreeMap;

#[derive(Clone, Debug, PartialEq)]
pub enum Value {
    Null,
    Bool(bool),
    Number(i128),
    Text(String),
    List(Vec<Value>),
    Object(BTreeMap<String, Value>),
}

impl Value {
    /// A field of an object.
    pub fn at(&self, name: &str) -> &Value {
        match self {
            Value::Object(fields) => fields
                .get(name)
                .unwrap_or_else(|| panic!("no {name} in {self:?}")),
            other => panic!("{name} of {other:?}"),
        }
    }

    pub fn list(&self) -> &[Value] {
        match self {
            Value::List(values) => values,
            other => panic!("no list: {other:?}"),
        }
    }

    pub fn number(&self) -> i128 {
        match self {
            Value::Number(number) => *number,
            other => panic!("no number: {other:?}"),
        }
    }

    pub fn text(&self) -> &str {
        match self {
            Value::Text(text) => text,
            other => panic!("no text: {other:?}"),
        }
    }

    pub fn numbers(&self) -> Vec<i128> {
        self.list().iter().map(Value::number).collect()
    }
}

/// The one value that a text holds.
pub fn parse(text: &str) -> Value {
    let mut left: &[u8] = text.as_bytes();
    let parsed = value(&mut left);
    assert!(left.trim_ascii().is_empty(), "more than one value: {text}");
    parsed
}

fn value(left: &mut &[u8]) -> Value {
    *left = left.trim_ascii_start();
    match left.first().expect("a value") {
        b'n' => word(left, "null", Value::Null),
        b't' => word(left, "true", Value::Bool(true)),
        b'f' => word(left, "false", Value::Bool(false)),
        b'"' => Value::Text(string(left)),
        b'[' => Value::List(items(left, b']', value)),
        b'{' => object(left),
        _ => number(left),
    }
}

fn word(left: &mut &[u8], word: &str, value: Value) -> Value {
    *left = left.strip_prefix(word.as_bytes()).expect(word);
    value
}

fn number(left: &mut &[u8]) -> Value {
    let end = left
        .iter()
        .position(|byte| !matches!(byte, b'-' | b'0'..=b'9'))
        .unwrap_or(left.len());
    let digits = std::str::from_utf8(&left[..end]).unwrap();
    *left = &left[end..];
    let parsed: i128 = digits
        .parse()
        .unwrap_or_else(|_| panic!("no number: {digits}"));
    assert_eq!(parsed.to_string(), digits, "zeros in front");
    Value::Number(parsed)
}

/// Items between a bracket and its end, with commas between them.
fn items<T>(left: &mut &[u8], end: u8, item: impl Fn(&mut &[u8]) -> T) -> Vec<T> {
    let mut found = Vec::new();
    *left = left[1..].trim_ascii_start();
    while left[0] != end {
        found.push(item(left));
        *left = left.trim_ascii_start();
        if left[0] == b',' {
            *left = left[1..].trim_ascii_start();
            assert_ne!(left[0], end, "a comma before the end");
        } else {
            assert_eq!(left[0], end, "a comma is missing");
        }
    }
    *left = &left[1..];
    found
}

fn object(left: &mut &[u8]) -> Value {
    let field = |left: &mut &[u8]| {
        let name = string(left);
        *left = left.trim_ascii_start().strip_prefix(b":").expect("a colon");
        (name, value(left))
    };
    let fields = items(left, b'}', field);
    let count = fields.len();
    let fields: BTreeMap<String, Value> = fields.into_iter().collect();
    assert_eq!(fields.len(), count, "a name stands twice");
    Value::Object(fields)
}

fn string(left: &mut &[u8]) -> String {
    let mut bytes = Vec::new();
    *left = left.strip_prefix(b"\"").expect("a quote");
    loop {
        let byte = left[0];
        *left = &left[1..];
        match byte {
            b'"' => return String::from_utf8(bytes).unwrap(),
            b'\\' => bytes.extend(escaped(left).to_string().bytes()),
            byte => {
                assert!(byte >= 0x20, "a control character in a string");
                bytes.push(byte);
            }
        }
    }
}

fn escaped(left: &mut &[u8]) -> char {
    let (byte, rest) = left.split_first().expect("an escape");
    *left = rest;
    match byte {
        b'"' | b'\\' | b'/' => char::from(*byte),
        b'n' => '\n',
        b'u' => {
            let digits = std::str::from_utf8(&left[..4]).unwrap();
            *left = &left[4..];
            char::from_u32(u32::from_str_radix(digits, 16).unwrap()).unwrap()
        }
        other => panic!("an escape that is not written here: {other}"),
    }
}
