//! As much of JSON as verdicts are written in.

/// A value of a JSON text.
#[derive(Debug, PartialEq, Eq)]
pub(crate) enum Json {
    /// `null`, `true`, `false`, or a number, as it is written.
    Word(String),
    /// A text, without its escapes.
    Text(String),
    List(Vec<Json>),
    Object(Vec<(String, Json)>),
}

impl Json {
    /// Reads a text that is one value. None where it isn't.
    pub(crate) fn read(text: &str) -> Option<Json> {
        let mut rest = text;
        let value = value(&mut rest)?;
        rest.is_empty().then_some(value)
    }

    /// The field of an object that has this name.
    pub(crate) fn field(&self, name: &str) -> Option<&Json> {
        match self {
            Json::Object(fields) => fields.iter().find(|it| it.0 == name).map(|it| &it.1),
            _ => None,
        }
    }

    /// The one name that an object of a single field has, and its value.
    pub(crate) fn variant(&self) -> Option<(&str, &Json)> {
        match self {
            Json::Object(fields) => match fields.as_slice() {
                [(name, value)] => Some((name, value)),
                _ => None,
            },
            _ => None,
        }
    }

    pub(crate) fn text(&self) -> Option<&str> {
        match self {
            Json::Text(text) => Some(text),
            _ => None,
        }
    }

    pub(crate) fn list(&self) -> Option<&[Json]> {
        match self {
            Json::List(values) => Some(values),
            _ => None,
        }
    }

    pub(crate) fn number<T: std::str::FromStr>(&self) -> Option<T> {
        match self {
            Json::Word(word) => word.parse().ok(),
            _ => None,
        }
    }
}

/// Takes this character from the front, if it is there.
fn take(rest: &mut &str, wanted: char) -> Option<()> {
    *rest = rest.strip_prefix(wanted)?;
    Some(())
}

fn value(rest: &mut &str) -> Option<Json> {
    match rest.chars().next()? {
        '"' => text(rest).map(Json::Text),
        '[' => list(rest, '[', ']', value).map(Json::List),
        '{' => list(rest, '{', '}', field).map(Json::Object),
        _ => word(rest),
    }
}

fn word(rest: &mut &str) -> Option<Json> {
    let is_other = |it: char| !it.is_ascii_alphanumeric() && !matches!(it, '+' | '-' | '.');
    let end = rest.find(is_other).unwrap_or(rest.len());
    let (word, left) = rest.split_at(end);
    *rest = left;
    (!word.is_empty()).then(|| Json::Word(word.to_owned()))
}

fn field(rest: &mut &str) -> Option<(String, Json)> {
    let name = text(rest)?;
    take(rest, ':')?;
    Some((name, value(rest)?))
}

/// Items between two brackets, with commas between.
fn list<T>(rest: &mut &str, open: char, close: char, item: fn(&mut &str) -> Option<T>) -> Option<Vec<T>> {
    let mut items = Vec::new();
    take(rest, open)?;
    while take(rest, close).is_none() {
        if !items.is_empty() {
            take(rest, ',')?;
        }
        items.push(item(rest)?);
    }
    Some(items)
}

fn text(rest: &mut &str) -> Option<String> {
    let mut text = String::new();
    take(rest, '"')?;
    loop {
        let mut characters = rest.chars();
        let next = characters.next()?;
        *rest = characters.as_str();
        match next {
            '"' => return Some(text),
            '\\' => text.push(escape(rest)?),
            _ => text.push(next),
        }
    }
}

/// What comes after a backslash. Verdicts have no surrogates: what isn't a control character stands for itself.
fn escape(rest: &mut &str) -> Option<char> {
    let mut characters = rest.chars();
    let letter = characters.next()?;
    *rest = characters.as_str();
    match letter {
        '"' | '\\' | '/' => Some(letter),
        'b' => Some('\u{8}'),
        'f' => Some('\u{c}'),
        'n' => Some('\n'),
        'r' => Some('\r'),
        't' => Some('\t'),
        'u' => {
            let digits = rest.get(..4)?;
            *rest = &rest[4..];
            char::from_u32(u32::from_str_radix(digits, 16).ok()?)
        }
        _ => None,
    }
}

#[cfg(test)]
mod tests {
    use super::Json;

    #[test]
    fn escapes_and_brackets() {
        let read = Json::read(r#"{"a":["x\"\\\n\u001f",-1,null],"b":{}}"#).unwrap();
        let list = read.field("a").unwrap().list().unwrap();
        assert_eq!(list[0].text(), Some("x\"\\\n\u{1f}"));
        assert_eq!(list[1].number::<i64>(), Some(-1));
        assert_eq!(list[2], Json::Word("null".to_owned()));
        assert_eq!(read.field("b"), Some(&Json::Object(Vec::new())));
    }

    #[test]
    fn what_is_no_value() {
        for text in ["", "{", "[1", "[1 2]", "\"a", "{\"a\"}", "[]x", "\"\\x\"", "\"\\u12\""] {
            assert_eq!(Json::read(text), None, "{text}");
        }
    }
}
