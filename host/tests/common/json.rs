//! As much of a JSON reader as a test needs: it takes what the standard takes and panics at anything else.

#[derive(Clone, Debug, PartialEq)]
pub enum Value {
    Null,
    Bool(bool),
    Number(i64),
    Text(String),
    List(Vec<Value>),
    Object(Vec<(String, Value)>),
}

impl Value {
    pub fn get(&self, name: &str) -> &Value {
        let Value::Object(fields) = self else { panic!("no object: {self:?}") };
        &fields.iter().find(|(field, _)| field == name).unwrap_or_else(|| panic!("no {name}")).1
    }

    pub fn keys(&self) -> Vec<&str> {
        let Value::Object(fields) = self else { panic!("no object: {self:?}") };
        fields.iter().map(|(name, _)| name.as_str()).collect()
    }

    pub fn list(&self) -> &[Value] {
        let Value::List(items) = self else { panic!("no list: {self:?}") };
        items
    }

    pub fn number(&self) -> i64 {
        let Value::Number(number) = self else { panic!("no number: {self:?}") };
        *number
    }

    pub fn text(&self) -> &str {
        let Value::Text(text) = self else { panic!("no text: {self:?}") };
        text
    }

    pub fn numbers(&self) -> Vec<i64> {
        self.list().iter().map(Value::number).collect()
    }
}

pub fn parsed(text: &str) -> Value {
    let mut rest = text;
    let value = value(&mut rest);
    assert_eq!(rest.trim(), "");
    value
}

fn taken(rest: &mut &str, mark: &str) -> bool {
    *rest = rest.trim_start();
    let found = rest.strip_prefix(mark);
    *rest = found.unwrap_or(rest);
    found.is_some()
}

fn value(rest: &mut &str) -> Value {
    let words = [("null", Value::Null), ("true", Value::Bool(true)), ("false", Value::Bool(false))];
    for (word, value) in words {
        if taken(rest, word) {
            return value;
        }
    }
    if taken(rest, "\"") {
        return Value::Text(string(rest));
    }
    if taken(rest, "[") {
        return Value::List(items(rest, "]", value));
    }
    if taken(rest, "{") {
        return Value::Object(items(rest, "}", |rest| {
            assert!(taken(rest, "\""), "a name: {rest:.20}");
            let name = string(rest);
            assert!(taken(rest, ":"), "a colon: {rest:.20}");
            (name, value(rest))
        }));
    }
    let end = rest.find(|c: char| c != '-' && !c.is_ascii_digit()).unwrap_or(rest.len());
    let (number, behind) = rest.split_at(end);
    *rest = behind;
    Value::Number(number.parse().unwrap_or_else(|_| panic!("a value: {number:?}{behind:.20}")))
}

fn items<T>(rest: &mut &str, end: &str, each: impl Fn(&mut &str) -> T) -> Vec<T> {
    let mut items = Vec::new();
    if taken(rest, end) {
        return items;
    }
    loop {
        items.push(each(rest));
        if taken(rest, end) {
            return items;
        }
        assert!(taken(rest, ","), "a comma: {rest:.20}");
    }
}

fn string(rest: &mut &str) -> String {
    let mut text = String::new();
    let mut chars = rest.chars();
    loop {
        match chars.next().expect("a text ends") {
            '"' => break,
            '\\' => match chars.next() {
                Some(c @ ('"' | '\\')) => text.push(c),
                Some('u') => {
                    let digits: String = chars.by_ref().take(4).collect();
                    text.push(char::from_u32(u32::from_str_radix(&digits, 16).unwrap()).unwrap());
                }
                other => panic!("an escape: {other:?}"),
            },
            c => {
                assert!(c >= ' ', "a control character");
                text.push(c);
            }
        }
    }
    *rest = chars.as_str();
    text
}
