//! A reader for JSON text that knows where in the text everything stands.

/// A value, and the offset of its first byte.
#[derive(Debug, PartialEq)]
pub struct Node<'a> {
    pub at: usize,
    pub value: Value<'a>,
}

#[derive(Debug, PartialEq)]
pub enum Value<'a> {
    /// true, false or null.
    Literal,
    /// A number as it is written.
    Number(&'a str),
    Text(String),
    List(Vec<Node<'a>>),
    Object(Vec<(String, Node<'a>)>),
}

/// What is wrong with a text, and at which byte.
#[derive(Debug, PartialEq)]
pub struct Fault {
    pub at: usize,
    pub what: String,
}

/// Lists and objects inside each other, at most.
const DEPTH: usize = 32;

/// Reads a text that is one value.
pub fn parse(text: &str) -> Result<Node<'_>, Fault> {
    let mut reader = Reader { text, at: 0 };
    let node = reader.node(DEPTH)?;
    reader.skip_space();
    match reader.peek() {
        None => Ok(node),
        Some(_) => reader.fault("something follows the end of the value"),
    }
}

pub fn fault<T>(at: usize, what: impl Into<String>) -> Result<T, Fault> {
    Err(Fault {
        at,
        what: what.into(),
    })
}

struct Reader<'a> {
    text: &'a str,
    at: usize,
}

impl<'a> Reader<'a> {
    fn fault<T>(&self, what: &str) -> Result<T, Fault> {
        fault(self.at, what)
    }

    fn peek(&self) -> Option<u8> {
        self.text.as_bytes().get(self.at).copied()
    }

    fn rest(&self) -> &'a str {
        &self.text[self.at..]
    }

    fn skip_space(&mut self) {
        while matches!(self.peek(), Some(b' ' | b'\t' | b'\n' | b'\r')) {
            self.at += 1;
        }
    }

    /// Takes a byte if it comes next.
    fn take(&mut self, byte: u8) -> bool {
        let comes = self.peek() == Some(byte);
        self.at += usize::from(comes);
        comes
    }

    /// Skips space, then takes a byte that must come next.
    fn expect(&mut self, byte: u8) -> Result<(), Fault> {
        self.skip_space();
        if self.take(byte) {
            return Ok(());
        }
        self.fault(&format!("expected {:?}", char::from(byte)))
    }

    fn node(&mut self, depth: usize) -> Result<Node<'a>, Fault> {
        self.skip_space();
        let at = self.at;
        let value = match self.peek() {
            Some(b'[' | b'{') if depth == 0 => return self.fault("nested too deep"),
            Some(b'[') => Value::List(self.list(depth - 1)?),
            Some(b'{') => Value::Object(self.object(depth - 1)?),
            Some(b'"') => Value::Text(self.string()?),
            Some(b'-' | b'0'..=b'9') => Value::Number(self.number()?),
            _ => self.literal()?,
        };
        Ok(Node { at, value })
    }

    fn literal(&mut self) -> Result<Value<'a>, Fault> {
        for word in ["true", "false", "null"] {
            if self.rest().starts_with(word) {
                self.at += word.len();
                return Ok(Value::Literal);
            }
        }
        self.fault("expected a value")
    }

    fn list(&mut self, depth: usize) -> Result<Vec<Node<'a>>, Fault> {
        self.expect(b'[')?;
        let mut nodes = Vec::new();
        self.skip_space();
        if self.take(b']') {
            return Ok(nodes);
        }
        loop {
            nodes.push(self.node(depth)?);
            self.skip_space();
            if !self.take(b',') {
                self.expect(b']')?;
                return Ok(nodes);
            }
        }
    }

    fn object(&mut self, depth: usize) -> Result<Vec<(String, Node<'a>)>, Fault> {
        self.expect(b'{')?;
        let mut members = Vec::new();
        self.skip_space();
        if self.take(b'}') {
            return Ok(members);
        }
        loop {
            let key = self.new_key(&members)?;
            self.expect(b':')?;
            members.push((key, self.node(depth)?));
            self.skip_space();
            if !self.take(b',') {
                self.expect(b'}')?;
                return Ok(members);
            }
        }
    }

    /// A key that none of the members before it has.
    fn new_key(&mut self, members: &[(String, Node)]) -> Result<String, Fault> {
        self.skip_space();
        let at = self.at;
        let key = self.string()?;
        if members.iter().any(|(other, _)| *other == key) {
            return fault(at, format!("the key {key:?} comes twice"));
        }
        Ok(key)
    }

    fn digits(&mut self) -> Result<(), Fault> {
        if !matches!(self.peek(), Some(b'0'..=b'9')) {
            return self.fault("expected a digit");
        }
        while matches!(self.peek(), Some(b'0'..=b'9')) {
            self.at += 1;
        }
        Ok(())
    }

    fn number(&mut self) -> Result<&'a str, Fault> {
        let start = self.at;
        self.take(b'-');
        if !self.take(b'0') {
            self.digits()?;
        }
        if self.take(b'.') {
            self.digits()?;
        }
        if self.take(b'e') || self.take(b'E') {
            let _ = self.take(b'+') || self.take(b'-');
            self.digits()?;
        }
        Ok(&self.text[start..self.at])
    }

    fn string(&mut self) -> Result<String, Fault> {
        if !self.take(b'"') {
            return self.fault("expected '\"'");
        }
        let mut string = String::new();
        loop {
            match self.rest().chars().next() {
                None => return self.fault("the text ends inside a string"),
                Some('"') => {
                    self.at += 1;
                    return Ok(string);
                }
                Some('\\') => string.push(self.escape()?),
                Some(plain) if plain < ' ' => return self.fault("control character in a string"),
                Some(plain) => {
                    self.at += plain.len_utf8();
                    string.push(plain);
                }
            }
        }
    }

    fn escape(&mut self) -> Result<char, Fault> {
        let start = self.at;
        self.at += 1;
        let letter = self.peek();
        self.at += usize::from(letter.is_some());
        match letter {
            Some(b'"') => Ok('"'),
            Some(b'\\') => Ok('\\'),
            Some(b'/') => Ok('/'),
            Some(b'b') => Ok('\u{8}'),
            Some(b'f') => Ok('\u{C}'),
            Some(b'n') => Ok('\n'),
            Some(b'r') => Ok('\r'),
            Some(b't') => Ok('\t'),
            Some(b'u') => self.unicode(start),
            _ => fault(start, "unknown escape in a string"),
        }
    }

    /// The character of a \u escape, or of two of them that form a pair.
    fn unicode(&mut self, start: usize) -> Result<char, Fault> {
        let mut units = vec![self.hex4(start)?];
        if matches!(units[0], 0xD800..=0xDBFF) && self.rest().starts_with("\\u") {
            self.at += 2;
            units.push(self.hex4(start)?);
        }
        match char::decode_utf16(units).next() {
            Some(Ok(character)) => Ok(character),
            _ => fault(start, "half of a surrogate pair in a string"),
        }
    }

    fn hex4(&mut self, start: usize) -> Result<u16, Fault> {
        let digits = self.rest().get(..4).filter(|digits| {
            let mut bytes = digits.bytes();
            bytes.all(|byte| byte.is_ascii_hexdigit())
        });
        match digits.and_then(|digits| u16::from_str_radix(digits, 16).ok()) {
            Some(unit) => {
                self.at += 4;
                Ok(unit)
            }
            None => fault(start, "expected four hexadecimal digits after \\u"),
        }
    }
}

#[cfg(test)]
mod tests {
    use super::*;

    fn number(at: usize, text: &str) -> Node<'_> {
        Node {
            at,
            value: Value::Number(text),
        }
    }

    fn text_of(json: &str) -> String {
        match parse(json).unwrap().value {
            Value::Text(text) => text,
            other => panic!("{other:?}"),
        }
    }

    fn fault_at(json: &str) -> usize {
        parse(json).unwrap_err().at
    }

    #[test]
    fn values_know_their_offsets() {
        let json = " [1, -20.5e+3, {\"k\" : 0, \"l\":null}, [] ] ";
        let nodes = match parse(json).unwrap().value {
            Value::List(nodes) => nodes,
            _ => panic!("not a list"),
        };
        assert_eq!(nodes[0], number(2, "1"));
        assert_eq!(nodes[1], number(5, "-20.5e+3"));
        let members = vec![
            ("k".to_string(), number(22, "0")),
            (
                "l".to_string(),
                Node {
                    at: 29,
                    value: Value::Literal,
                },
            ),
        ];
        assert_eq!(nodes[2].value, Value::Object(members));
        assert_eq!((nodes[3].at, &nodes[3].value), (36, &Value::List(vec![])));
        assert_eq!(nodes.len(), 4);
    }

    #[test]
    fn strings_and_their_escapes() {
        assert_eq!(text_of(r#""cb 00 é""#), "cb 00 é");
        assert_eq!(
            text_of(r#""\"\\\/\b\f\n\r\t\u0041""#),
            "\"\\/\u{8}\u{C}\n\r\tA"
        );
        assert_eq!(text_of(r#""\uD83D\uDE00""#), "\u{1F600}");
    }

    #[test]
    fn faults_are_where_the_text_goes_wrong() {
        assert_eq!(fault_at(""), 0);
        assert_eq!(fault_at("[1, 2"), 5);
        assert_eq!(fault_at("[1 2]"), 3);
        assert_eq!(fault_at("[1,]"), 3);
        assert_eq!(fault_at("[01]"), 2);
        assert_eq!(fault_at("[1.]"), 3);
        assert_eq!(fault_at("[-]"), 2);
        assert_eq!(fault_at("[1e]"), 3);
        assert_eq!(fault_at("[tru]"), 1);
        assert_eq!(fault_at("{\"a\" 1}"), 5);
        assert_eq!(fault_at("{\"a\":1,}"), 7);
        assert_eq!(fault_at("{\"a\":1,\"a\":2}"), 7);
        assert_eq!(fault_at("[] []"), 3);
        assert_eq!(fault_at("\"ab"), 3);
        assert_eq!(fault_at("\"a\nb\""), 2);
        assert_eq!(fault_at(r#""a\q""#), 2);
        assert_eq!(fault_at(r#""a\u12G4""#), 2);
        assert_eq!(fault_at(r#""\uD83D""#), 1);
        assert_eq!(fault_at(r#""\uD83D\u0041""#), 1);
        assert_eq!(fault_at(r#""\"#), 1);
    }

    #[test]
    fn nesting_has_a_limit() {
        let nested = |depth| "[".repeat(depth) + &"]".repeat(depth);
        assert!(parse(&nested(32)).is_ok());
        assert_eq!(fault_at(&nested(33)), 32);
        assert_eq!(fault_at(&"[".repeat(1_000_000)), 32);
    }
}
