//! A small reader of JSON texts.

pub enum Value {
    Null,
    Truth,
    Number(f64),
    Text(String),
    List(Vec<Value>),
    Object(Vec<(String, Value)>),
}

/// The value of a whole text, where it is one.
pub fn read(text: &[u8]) -> Option<Value> {
    let mut reader = Reader { text, place: 0 };
    let value = reader.value()?;
    reader.skip_space();
    (reader.place == text.len()).then_some(value)
}

struct Reader<'t> {
    text: &'t [u8],
    place: usize,
}

impl Reader<'_> {
    fn peek(&self) -> Option<u8> {
        self.text.get(self.place).copied()
    }

    fn skip_space(&mut self) {
        while matches!(self.peek(), Some(b' ' | b'\t' | b'\n' | b'\r')) {
            self.place += 1;
        }
    }

    /// Steps over a byte, where that comes next.
    fn takes(&mut self, byte: u8) -> bool {
        self.skip_space();
        let found = self.peek() == Some(byte);
        self.place += usize::from(found);
        found
    }

    fn expect(&mut self, byte: u8) -> Option<()> {
        self.takes(byte).then_some(())
    }

    fn word(&mut self, word: &[u8], value: Value) -> Option<Value> {
        let found = self.text[self.place..].starts_with(word);
        self.place += word.len();
        found.then_some(value)
    }

    fn value(&mut self) -> Option<Value> {
        self.skip_space();
        match self.peek()? {
            b'{' => self.object(),
            b'[' => self.list(),
            b'"' => Some(Value::Text(self.string()?)),
            b'n' => self.word(b"null", Value::Null),
            b't' => self.word(b"true", Value::Truth),
            b'f' => self.word(b"false", Value::Truth),
            _ => self.number(),
        }
    }

    fn object(&mut self) -> Option<Value> {
        self.expect(b'{')?;
        let mut members = Vec::new();
        if self.takes(b'}') {
            return Some(Value::Object(members));
        }
        loop {
            self.skip_space();
            let name = self.string()?;
            self.expect(b':')?;
            members.push((name, self.value()?));
            if !self.takes(b',') {
                self.expect(b'}')?;
                return Some(Value::Object(members));
            }
        }
    }

    fn list(&mut self) -> Option<Value> {
        self.expect(b'[')?;
        let mut values = Vec::new();
        if self.takes(b']') {
            return Some(Value::List(values));
        }
        loop {
            values.push(self.value()?);
            if !self.takes(b',') {
                self.expect(b']')?;
                return Some(Value::List(values));
            }
        }
    }

    fn number(&mut self) -> Option<Value> {
        let rest = &self.text[self.place..];
        let belongs = |byte: &u8| matches!(byte, b'0'..=b'9' | b'-' | b'+' | b'.' | b'e' | b'E');
        let length = rest.iter().take_while(|byte| belongs(byte)).count();
        self.place += length;
        let number = std::str::from_utf8(&rest[..length]).ok()?;
        number.parse().ok().map(Value::Number)
    }

    fn string(&mut self) -> Option<String> {
        self.expect(b'"')?;
        let mut bytes = Vec::new();
        loop {
            let rest = &self.text[self.place..];
            let plain = rest.iter().position(|byte| matches!(byte, b'"' | b'\\' | ..b' '))?;
            bytes.extend_from_slice(&rest[..plain]);
            self.place += plain + 1;
            match rest[plain] {
                b'"' => return String::from_utf8(bytes).ok(),
                b'\\' => self.escape(&mut bytes)?,
                _ => return None,
            }
        }
    }

    fn escape(&mut self, bytes: &mut Vec<u8>) -> Option<()> {
        let letter = self.peek()?;
        self.place += 1;
        let byte = match letter {
            b'"' | b'\\' | b'/' => letter,
            b'b' => 8,
            b'f' => 12,
            b'n' => b'\n',
            b'r' => b'\r',
            b't' => b'\t',
            b'u' => {
                let character = self.character()?;
                bytes.extend_from_slice(character.encode_utf8(&mut [0; 4]).as_bytes());
                return Some(());
            }
            _ => return None,
        };
        bytes.push(byte);
        Some(())
    }

    /// A character of one escape, or of two that are a pair of surrogates.
    fn character(&mut self) -> Option<char> {
        let first = self.digits()?;
        if !(0xD800..0xDC00).contains(&first) {
            return char::from_u32(first);
        }
        (self.text.get(self.place..self.place + 2)? == b"\\u").then_some(())?;
        self.place += 2;
        let second = self.digits()?;
        (0xDC00..0xE000).contains(&second).then_some(())?;
        char::from_u32(0x10000 + ((first - 0xD800) << 10) + (second - 0xDC00))
    }

    fn digits(&mut self) -> Option<u32> {
        let digits = self.text.get(self.place..self.place + 4)?;
        self.place += 4;
        let all = digits.iter().all(u8::is_ascii_hexdigit);
        all.then(|| u32::from_str_radix(std::str::from_utf8(digits).ok()?, 16).ok())?
    }
}
