//! Trees as text:
//!
//! - a constructor with its fields: `Name(FIELD, FIELD)`, `Name { field: FIELD, field: FIELD }`, or `Name` alone
//! - a list of values: `[VALUE, VALUE]`
//! - a text in quotation marks, with `\xHH` for a byte, and `\` before a byte that stands for itself; an empty text may
//!   be written as an empty list
//! - a number.

/// A value that stands in the text of a tree. The names of fields are dropped.
pub enum Value {
    Made(String, Vec<Value>),
    List(Vec<Value>),
    Text(Vec<u8>),
}

impl Value {
    /// The values of a list.
    pub fn items(&self) -> &[Value] {
        match self {
            Value::List(items) => items,
            _ => panic!("no list"),
        }
    }

    /// The bytes of a text.
    pub fn bytes(&self) -> &[u8] {
        match self {
            Value::Text(bytes) => bytes,
            Value::List(items) if items.is_empty() => b"",
            _ => panic!("no text"),
        }
    }

    /// The name of a constructor.
    pub fn name(&self) -> &str {
        match self {
            Value::Made(name, _) => name,
            _ => panic!("no constructor"),
        }
    }

    /// The fields of a constructor.
    pub fn fields(&self) -> &[Value] {
        match self {
            Value::Made(_, fields) => fields,
            _ => panic!("no constructor"),
        }
    }

    /// Whether it is `true`.
    pub fn is_true(&self) -> bool {
        match self.name() {
            "true" => true,
            "false" => false,
            other => panic!("neither true nor false: {other}"),
        }
    }

    /// The field of `Some`, or nothing for `None`.
    pub fn option(&self) -> Option<&Value> {
        match (self.name(), self.fields()) {
            ("Some", [field]) => Some(field),
            ("None", []) => None,
            (other, _) => panic!("no option: {other}"),
        }
    }
}

/// The value that a text stands for.
pub fn parsed(text: &str) -> Value {
    let mut reader = Reader { text: text.as_bytes(), at: 0 };
    let value = reader.value();
    assert!(reader.at == text.len(), "more behind a tree: {}", &text[reader.at..]);
    value
}

/// The bytes of a text with `\xHH` and `\` before bytes that stand for themselves.
pub fn plain(text: &str) -> Vec<u8> {
    let mut reader = Reader { text: text.as_bytes(), at: 0 };
    let mut bytes = Vec::new();
    while reader.at < reader.text.len() {
        bytes.push(reader.byte());
    }
    bytes
}

/// A text, and the place in it that is read next.
struct Reader<'a> {
    text: &'a [u8],
    at: usize,
}

impl Reader<'_> {
    /// Skips a byte if it is next, and says whether it is.
    fn skips(&mut self, byte: u8) -> bool {
        let is_next = self.text.get(self.at) == Some(&byte);
        self.at += usize::from(is_next);
        is_next
    }

    /// Skips blanks.
    fn skip_blanks(&mut self) {
        while self.skips(b' ') {}
    }

    /// Skips a word, and returns it: a name or a number.
    fn word(&mut self) -> String {
        let rest = &self.text[self.at..];
        let length = rest.iter().take_while(|byte| byte.is_ascii_alphanumeric() || **byte == b'_').count();
        assert!(length != 0, "no value at {}: {}", self.at, String::from_utf8_lossy(rest));
        self.at += length;
        String::from_utf8_lossy(&rest[..length]).into_owned()
    }

    /// A byte of a text. Two hexadecimal digits behind `\x` are one.
    fn byte(&mut self) -> u8 {
        if !self.skips(b'\\') {
            self.at += 1;
            return self.text[self.at - 1];
        }
        if self.skips(b'x') {
            let digits = std::str::from_utf8(&self.text[self.at..self.at + 2]).expect("two digits");
            self.at += 2;
            return u8::from_str_radix(digits, 16).expect("two hexadecimal digits");
        }
        self.at += 1;
        self.text[self.at - 1]
    }

    /// The values up to a byte, with commas between, and perhaps the name of a field and a colon before each.
    fn values(&mut self, end: u8, has_names: bool) -> Vec<Value> {
        let mut values = Vec::new();
        self.skip_blanks();
        while !self.skips(end) {
            if has_names {
                self.word();
                assert!(self.skips(b':'), "a field without a colon at {}", self.at);
                self.skip_blanks();
            }
            values.push(self.value());
            self.skips(b',');
            self.skip_blanks();
        }
        values
    }

    fn value(&mut self) -> Value {
        if self.skips(b'[') {
            return Value::List(self.values(b']', false));
        }
        if self.skips(b'"') {
            let mut bytes = Vec::new();
            while !self.skips(b'"') {
                bytes.push(self.byte());
            }
            return Value::Text(bytes);
        }
        let name = self.word();
        if self.skips(b'(') {
            return Value::Made(name, self.values(b')', false));
        }
        if self.text[self.at..].starts_with(b" {") {
            self.at += 2;
            return Value::Made(name, self.values(b'}', true));
        }
        Value::Made(name, Vec::new())
    }
}
