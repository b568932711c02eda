//! A reader of JSON, as far as modules need it: objects, arrays, plain strings and whole numbers of
//! 64 bits.

pub enum Value {
    Number(i64),
    /// A constant, or any other number.
    Other,
    Text(String),
    List(Vec<Value>),
    Object(Vec<(String, Value)>),
}

impl Value {
    pub fn number(&self) -> i64 {
        match self {
            Value::Number(n) => *n,
            _ => panic!("no number"),
        }
    }

    pub fn text(&self) -> &str {
        match self {
            Value::Text(text) => text,
            _ => panic!("no string"),
        }
    }

    pub fn list(&self) -> &[Value] {
        match self {
            Value::List(items) => items,
            _ => panic!("no array"),
        }
    }

    /// What stands under a key; of a key that comes twice, the last.
    pub fn at(&self, key: &str) -> &Value {
        match self {
            Value::Object(members) => {
                let found = members.iter().rev().find(|(name, _)| name == key);
                &found.unwrap_or_else(|| panic!("no key {key}")).1
            }
            _ => panic!("no object"),
        }
    }
}

pub fn read(text: &str) -> Value {
    let mut reader = Reader { text: text.as_bytes(), at: 0 };
    let value = reader.value();
    assert!(reader.next().is_none(), "more than one value");
    value
}

struct Reader<'t> {
    text: &'t [u8],
    at: usize,
}

impl Reader<'_> {
    /// The next byte that isn't white space; it isn't taken.
    fn next(&mut self) -> Option<u8> {
        while self.text.get(self.at).is_some_and(u8::is_ascii_whitespace) {
            self.at += 1;
        }
        self.text.get(self.at).copied()
    }

    /// Takes the sign if it comes next.
    fn takes(&mut self, sign: u8) -> bool {
        let found = self.next() == Some(sign);
        self.at += usize::from(found);
        found
    }

    fn wants(&mut self, sign: u8) {
        assert!(self.takes(sign), "no {} at {}", char::from(sign), self.at);
    }

    fn value(&mut self) -> Value {
        match self.next() {
            Some(b'{') => Value::Object(self.items(b'{', b'}', Reader::member)),
            Some(b'[') => Value::List(self.items(b'[', b']', Reader::value)),
            Some(b'"') => Value::Text(self.word()),
            _ => self.bare(),
        }
    }

    fn items<T>(&mut self, open: u8, close: u8, item: fn(&mut Self) -> T) -> Vec<T> {
        let mut items = Vec::new();
        self.wants(open);
        if self.takes(close) {
            return items;
        }
        loop {
            items.push(item(self));
            if self.takes(close) {
                return items;
            }
            self.wants(b',');
        }
    }

    fn member(&mut self) -> (String, Value) {
        let key = self.word();
        self.wants(b':');
        (key, self.value())
    }

    fn word(&mut self) -> String {
        self.wants(b'"');
        let start = self.at;
        while self.text[self.at] != b'"' {
            assert!(self.text[self.at] != b'\\', "an escape at {}", self.at);
            self.at += 1;
        }
        self.at += 1;
        String::from_utf8(self.text[start..self.at - 1].to_vec()).expect("UTF-8")
    }

    /// What stands up to the next sign or space.
    fn bare(&mut self) -> Value {
        let rest = &self.text[self.at..];
        let ends = |byte: &u8| b",]} \t\r\n".contains(byte);
        let length = rest.iter().position(ends).unwrap_or(rest.len());
        assert!(length > 0, "no value at {}", self.at);
        self.at += length;
        let word = std::str::from_utf8(&rest[..length]).expect("UTF-8");
        word.parse().map_or(Value::Other, Value::Number)
    }
}
