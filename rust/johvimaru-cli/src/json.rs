//! JSON, as far as reports need it.

use std::fmt;

/// A value.
#[derive(Debug)]
pub enum Json {
    /// Nothing.
    Null,
    /// Yes or no.
    Bool(bool),
    /// A whole number.
    Number(u64),
    /// A text.
    Text(String),
    /// Values in order.
    List(Vec<Json>),
    /// Values by name, in the order in which they are printed.
    Object(Vec<(&'static str, Json)>),
}

impl Json {
    /// The numbers of a list.
    pub fn numbers(numbers: impl IntoIterator<Item = usize>) -> Json {
        Json::List(numbers.into_iter().map(Json::from).collect())
    }

    /// Prints a value that stands so many levels deep, from behind its name on.
    fn print(&self, f: &mut fmt::Formatter, depth: usize) -> fmt::Result {
        match self {
            Json::Null => f.write_str("null"),
            Json::Bool(yes) => write!(f, "{yes}"),
            Json::Number(number) => write!(f, "{number}"),
            Json::Text(text) => print_text(f, text),
            Json::List(values) => {
                let values = values.iter().map(|value| (None, value));
                print_all(f, depth, ['[', ']'], values)
            }
            Json::Object(values) => {
                let values = values.iter().map(|(name, value)| (Some(*name), value));
                print_all(f, depth, ['{', '}'], values)
            }
        }
    }
}

impl From<usize> for Json {
    fn from(number: usize) -> Json {
        Json::Number(number as u64)
    }
}

impl From<u32> for Json {
    fn from(number: u32) -> Json {
        Json::Number(number.into())
    }
}

impl From<&str> for Json {
    fn from(text: &str) -> Json {
        Json::Text(text.into())
    }
}

impl From<String> for Json {
    fn from(text: String) -> Json {
        Json::Text(text)
    }
}

impl From<bool> for Json {
    fn from(yes: bool) -> Json {
        Json::Bool(yes)
    }
}

/// The value as a text of several lines, without a line's end.
impl fmt::Display for Json {
    fn fmt(&self, f: &mut fmt::Formatter) -> fmt::Result {
        self.print(f, 0)
    }
}

/// Prints the values of a list or an object, a line for each.
fn print_all<'a>(
    f: &mut fmt::Formatter,
    depth: usize,
    [open, close]: [char; 2],
    values: impl Iterator<Item = (Option<&'static str>, &'a Json)>,
) -> fmt::Result {
    write!(f, "{open}")?;
    let mut any = false;
    for (name, value) in values {
        let comma = if any { "," } else { "" };
        write!(f, "{comma}\n{:1$}", "", 2 * (depth + 1))?;
        if let Some(name) = name {
            write!(f, "\"{name}\": ")?;
        }
        value.print(f, depth + 1)?;
        any = true;
    }
    if any {
        write!(f, "\n{:1$}", "", 2 * depth)?;
    }
    write!(f, "{close}")
}

fn print_text(f: &mut fmt::Formatter, text: &str) -> fmt::Result {
    f.write_str("\"")?;
    for c in text.chars() {
        match c {
            '"' | '\\' => write!(f, "\\{c}")?,
            c if c.is_control() => write!(f, "\\u{:04x}", c as u32)?,
            c => write!(f, "{c}")?,
        }
    }
    f.write_str("\"")
}

#[cfg(test)]
mod tests {
    use super::*;

    #[test]
    fn values_in_lines() {
        let value = Json::Object(vec![
            ("name", "a \"b\"\\\n".into()),
            ("none", Json::Null),
            ("yes", true.into()),
            ("blocks", Json::numbers([3, 4])),
            ("nothing", Json::List(Vec::new())),
        ]);
        let expected = "{
  \"name\": \"a \\\"b\\\"\\\\\\u000a\",
  \"none\": null,
  \"yes\": true,
  \"blocks\": [
    3,
    4
  ],
  \"nothing\": []
}";
        assert_eq!(value.to_string(), expected);
    }
}
