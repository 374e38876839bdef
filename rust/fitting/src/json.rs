//! Answers as JSON (RFC 8259), for programs that run the tool. `fitting help json` describes the
//! answers.

use crate::table::Table;
use std::fmt;

/// A value of JSON.
#[derive(Clone, Debug, PartialEq, Eq)]
pub enum Json {
    Null,
    Bool(bool),
    Number(usize),
    Text(String),
    List(Vec<Json>),
    Object(Vec<(&'static str, Json)>),
}

impl Json {
    pub fn object<const N: usize>(members: [(&'static str, Json); N]) -> Json {
        Json::Object(members.into())
    }

    pub fn list<T: Into<Json>>(items: impl IntoIterator<Item = T>) -> Json {
        Json::List(items.into_iter().map(Into::into).collect())
    }

    /// The value with line breaks, and a line end behind it.
    pub fn lines(&self) -> Vec<u8> {
        format!("{self:#}\n").into_bytes()
    }

    fn is_small(&self) -> bool {
        match self {
            Json::List(items) => items.iter().all(|item| {
                !matches!(item, Json::Object(_))
                    && !matches!(item, Json::List(more) if !more.is_empty())
            }),
            Json::Object(members) => members.is_empty(),
            _ => true,
        }
    }

    fn write(&self, indent: usize, text: &mut String) {
        let (open, close) = match self {
            Json::Null => return text.push_str("null"),
            Json::Bool(value) => return text.push_str(&value.to_string()),
            Json::Number(value) => return text.push_str(&value.to_string()),
            Json::Text(value) => return quote(value, text),
            Json::List(_) => ('[', ']'),
            Json::Object(_) => ('{', '}'),
        };
        // A value that contains only small values stands on one line.
        let (gap, end) = match self.is_small() {
            true => (String::new(), String::new()),
            false => (
                format!("\n{}", " ".repeat(indent + 2)),
                format!("\n{}", " ".repeat(indent)),
            ),
        };
        let between = match gap.is_empty() {
            true => ", ".to_string(),
            false => format!(",{gap}"),
        };
        text.push(open);
        text.push_str(&gap);
        match self {
            Json::List(items) => {
                for (place, item) in items.iter().enumerate() {
                    text.push_str(if place > 0 { &between } else { "" });
                    item.write(indent + 2, text);
                }
            }
            Json::Object(members) => {
                for (place, (name, value)) in members.iter().enumerate() {
                    text.push_str(if place > 0 { &between } else { "" });
                    quote(name, text);
                    text.push_str(": ");
                    value.write(indent + 2, text);
                }
            }
            _ => {}
        }
        text.push_str(&end);
        text.push(close);
    }
}

fn quote(value: &str, text: &mut String) {
    text.push('"');
    for character in value.chars() {
        match character {
            '"' => text.push_str("\\\""),
            '\\' => text.push_str("\\\\"),
            '\n' => text.push_str("\\n"),
            '\t' => text.push_str("\\t"),
            control if control.is_control() => {
                text.push_str(&format!("\\u{:04x}", u32::from(control)));
            }
            other => text.push(other),
        }
    }
    text.push('"');
}

impl fmt::Display for Json {
    fn fmt(&self, formatter: &mut fmt::Formatter<'_>) -> fmt::Result {
        let mut text = String::new();
        self.write(0, &mut text);
        formatter.write_str(&text)
    }
}

impl From<bool> for Json {
    fn from(value: bool) -> Json {
        Json::Bool(value)
    }
}

impl From<usize> for Json {
    fn from(value: usize) -> Json {
        Json::Number(value)
    }
}

impl From<&str> for Json {
    fn from(value: &str) -> Json {
        Json::Text(value.to_string())
    }
}

impl From<String> for Json {
    fn from(value: String) -> Json {
        Json::Text(value)
    }
}

impl<T: Into<Json>> From<Option<T>> for Json {
    fn from(value: Option<T>) -> Json {
        value.map_or(Json::Null, Into::into)
    }
}

/// What every answer tells of its table.
pub fn table(table: &Table, file: &str) -> Json {
    Json::object([
        ("file", file.into()),
        ("types", table.n.into()),
        ("fingerprint", table.fingerprint().into()),
    ])
}

/// A path from the root: its features by name, or by number.
pub fn path(table: &Table, path: &[u8]) -> Json {
    Json::list(path.iter().map(|&feature| table.feature_name(feature)))
}

#[cfg(test)]
mod tests {
    use super::*;

    #[test]
    fn values_are_written() {
        let value = Json::object([
            ("empty", Json::List(Vec::new())),
            ("names", Json::list(["a", "\"\\\n\u{1}é"])),
            (
                "many",
                Json::List(vec![Json::object([("n", 1.into())]), Json::Null]),
            ),
            ("no", Json::object([])),
            ("is", true.into()),
            ("none", None::<&str>.into()),
        ]);
        assert_eq!(
            value.to_string(),
            "{\n  \"empty\": [],\n  \"names\": [\"a\", \"\\\"\\\\\\n\\u0001é\"],\n  \"many\": [\n    \
             {\n      \"n\": 1\n    },\n    null\n  ],\n  \"no\": {},\n  \"is\": true,\n  \
             \"none\": null\n}"
        );
    }
}
