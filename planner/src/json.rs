//! JSON, as far as it is written here.

use std::fmt;

/// A value. Numbers are whole; names stand in the order given.
#[derive(Clone, Debug, PartialEq, Eq)]
pub enum Json {
    Null,
    Bool(bool),
    Number(u64),
    Text(String),
    List(Vec<Json>),
    Record(Vec<(&'static str, Json)>),
}

impl From<bool> for Json {
    fn from(value: bool) -> Json {
        Json::Bool(value)
    }
}

impl From<u64> for Json {
    fn from(number: u64) -> Json {
        Json::Number(number)
    }
}

impl From<usize> for Json {
    fn from(number: usize) -> Json {
        Json::Number(number as u64)
    }
}

impl From<&str> for Json {
    fn from(text: &str) -> Json {
        Json::Text(text.to_string())
    }
}

impl<T: Into<Json>> From<Option<T>> for Json {
    fn from(value: Option<T>) -> Json {
        value.map_or(Json::Null, T::into)
    }
}

impl<T: Into<Json>> FromIterator<T> for Json {
    fn from_iter<I: IntoIterator<Item = T>>(values: I) -> Json {
        Json::List(values.into_iter().map(T::into).collect())
    }
}

impl fmt::Display for Json {
    fn fmt(&self, formatter: &mut fmt::Formatter) -> fmt::Result {
        match self {
            Json::Null => formatter.write_str("null"),
            Json::Bool(value) => write!(formatter, "{value}"),
            Json::Number(number) => write!(formatter, "{number}"),
            Json::Text(text) => write_text(formatter, text),
            Json::List(values) => {
                formatter.write_str("[")?;
                for (place, value) in values.iter().enumerate() {
                    formatter.write_str(if place > 0 { ", " } else { "" })?;
                    write!(formatter, "{value}")?;
                }
                formatter.write_str("]")
            }
            Json::Record(fields) => {
                formatter.write_str("{")?;
                for (place, (name, value)) in fields.iter().enumerate() {
                    formatter.write_str(if place > 0 { ", " } else { "" })?;
                    write_text(formatter, name)?;
                    write!(formatter, ": {value}")?;
                }
                formatter.write_str("}")
            }
        }
    }
}

fn write_text(formatter: &mut fmt::Formatter, text: &str) -> fmt::Result {
    formatter.write_str("\"")?;
    for character in text.chars() {
        match character {
            '"' | '\\' => write!(formatter, "\\{character}")?,
            control if u32::from(control) < 0x20 => write!(formatter, "\\u{:04x}", u32::from(control))?,
            other => write!(formatter, "{other}")?,
        }
    }
    formatter.write_str("\"")
}

#[cfg(test)]
mod tests {
    use super::*;

    #[test]
    fn values_are_written_as_rfc_8259_has_them() {
        let list: Json = [1_u64, u64::MAX].into_iter().collect();
        let record = Json::Record(vec![
            ("none", Json::Null),
            ("list", list),
            ("text", "a\"b\\c\n\u{1}é/".into()),
            ("empty", Json::List(vec![])),
            ("bool", true.into()),
            ("inner", Json::Record(vec![])),
        ]);
        let expected = r#"{"none": null, "list": [1, 18446744073709551615], "text": "a\"b\\c\u000a\u0001é/", "empty": [], "bool": true, "inner": {}}"#;
        assert_eq!(record.to_string(), expected);
    }
}
