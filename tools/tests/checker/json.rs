//! Reads JSON, as far as explanations use it.

#[derive(Clone, Debug, PartialEq)]
pub enum Value {
    Null,
    Bool(bool),
    Number(i64),
    Text(String),
    List(Vec<Value>),
    Map(Vec<(String, Value)>),
}

impl Value {
    pub fn get(&self, name: &str) -> &Value {
        let Value::Map(fields) = self else { panic!("no map: {self:?}") };
        let found = fields.iter().find(|(field, _)| field == name);
        &found.unwrap_or_else(|| panic!("no field {name} in {self:?}")).1
    }

    pub fn number(&self) -> i64 {
        let Value::Number(number) = self else { panic!("no number: {self:?}") };
        *number
    }

    pub fn place(&self) -> usize {
        usize::try_from(self.number()).unwrap()
    }

    pub fn text(&self) -> &str {
        let Value::Text(text) = self else { panic!("no text: {self:?}") };
        text
    }

    pub fn bool(&self) -> bool {
        let Value::Bool(value) = self else { panic!("no truth value: {self:?}") };
        *value
    }

    pub fn list(&self) -> &[Value] {
        let Value::List(values) = self else { panic!("no list: {self:?}") };
        values
    }

    /// The value, or none for null.
    pub fn some(&self) -> Option<&Value> {
        (*self != Value::Null).then_some(self)
    }
}

pub fn parse(text: &str) -> Value {
    let mut reader = Reader { rest: text.trim_end() };
    let value = reader.value();
    assert_eq!(reader.rest, "", "behind the value");
    value
}

struct Reader<'a> {
    rest: &'a str,
}

impl Reader<'_> {
    fn take(&mut self, word: &str) -> bool {
        let found = self.rest.strip_prefix(word);
        self.rest = found.unwrap_or(self.rest);
        found.is_some()
    }

    fn value(&mut self) -> Value {
        for (word, value) in
            [("null", Value::Null), ("true", Value::Bool(true)), ("false", Value::Bool(false))]
        {
            if self.take(word) {
                return value;
            }
        }
        match self.rest.chars().next() {
            Some('"') => Value::Text(self.string()),
            Some('[') => Value::List(self.items("[", "]", Reader::value)),
            Some('{') => Value::Map(self.items("{", "}", Reader::field)),
            _ => self.digits(),
        }
    }

    fn items<T>(&mut self, open: &str, close: &str, item: fn(&mut Self) -> T) -> Vec<T> {
        assert!(self.take(open));
        let mut items = Vec::new();
        while !self.take(close) {
            assert!(items.is_empty() || self.take(","), "{}", self.rest);
            items.push(item(self));
        }
        items
    }

    fn field(&mut self) -> (String, Value) {
        let name = self.string();
        assert!(self.take(":"));
        (name, self.value())
    }

    fn string(&mut self) -> String {
        assert!(self.take("\""), "{}", self.rest);
        let mut text = String::new();
        loop {
            let c = self.rest.chars().next().expect("a text ends");
            self.rest = &self.rest[c.len_utf8()..];
            match c {
                '"' => return text,
                '\\' if self.take("u") => {
                    let (code, rest) = self.rest.split_at(4);
                    self.rest = rest;
                    text.push(char::from_u32(u32::from_str_radix(code, 16).unwrap()).unwrap());
                }
                '\\' => {
                    text.push(self.rest.chars().next().unwrap());
                    self.rest = &self.rest[1..];
                }
                c => text.push(c),
            }
        }
    }

    fn digits(&mut self) -> Value {
        let end = self.rest.find(|c: char| c != '-' && !c.is_ascii_digit());
        let (number, rest) = self.rest.split_at(end.unwrap_or(self.rest.len()));
        self.rest = rest;
        Value::Number(number.parse().unwrap_or_else(|_| panic!("no number: '{number}'")))
    }
}
