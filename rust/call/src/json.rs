//! Values as JSON, written on one line. Numbers are whole and exact, with as many digits as they have.

use std::fmt;

pub enum Json {
    Null,
    Bool(bool),
    Number(i128),
    Text(String),
    List(Vec<Json>),
    Object(Vec<(&'static str, Json)>),
}

impl From<bool> for Json {
    fn from(yes: bool) -> Json {
        Json::Bool(yes)
    }
}

impl From<i128> for Json {
    fn from(number: i128) -> Json {
        Json::Number(number)
    }
}

impl From<usize> for Json {
    fn from(count: usize) -> Json {
        Json::Number(count as i128)
    }
}

impl From<&str> for Json {
    fn from(text: &str) -> Json {
        Json::Text(text.to_string())
    }
}

impl<T: Into<Json>> From<Option<T>> for Json {
    fn from(value: Option<T>) -> Json {
        value.map_or(Json::Null, Into::into)
    }
}

impl<T: Into<Json>> From<Vec<T>> for Json {
    fn from(values: Vec<T>) -> Json {
        Json::List(values.into_iter().map(Into::into).collect())
    }
}

impl fmt::Display for Json {
    fn fmt(&self, out: &mut fmt::Formatter) -> fmt::Result {
        match self {
            Json::Null => out.write_str("null"),
            Json::Bool(yes) => write!(out, "{yes}"),
            Json::Number(number) => write!(out, "{number}"),
            Json::Text(text) => string(out, text),
            Json::List(values) => {
                out.write_str("[")?;
                apart(out, values, |out, value| write!(out, "{value}"))?;
                out.write_str("]")
            }
            Json::Object(fields) => {
                out.write_str("{")?;
                apart(out, fields, |out, (name, value)| {
                    string(out, name)?;
                    write!(out, ": {value}")
                })?;
                out.write_str("}")
            }
        }
    }
}

/// The items with a comma between them.
fn apart<T>(
    out: &mut fmt::Formatter,
    items: &[T],
    put: impl Fn(&mut fmt::Formatter, &T) -> fmt::Result,
) -> fmt::Result {
    for (at, item) in items.iter().enumerate() {
        if at > 0 {
            out.write_str(", ")?;
        }
        put(out, item)?;
    }
    Ok(())
}

/// A string in quotes. Characters that JSON does not let stand are written by their number.
fn string(out: &mut fmt::Formatter, text: &str) -> fmt::Result {
    out.write_str("\"")?;
    for c in text.chars() {
        match c {
            '"' | '\\' => write!(out, "\\{c}")?,
            '\n' => out.write_str("\\n")?,
            c if u32::from(c) < 0x20 => write!(out, "\\u{:04x}", u32::from(c))?,
            c => write!(out, "{c}")?,
        }
    }
    out.write_str("\"")
}
