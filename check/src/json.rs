//! JSON, as far as a list needs it: whole numbers, strings, truth, arrays and objects.

#[derive(Clone, PartialEq, Eq, Debug)]
pub enum Json {
    Null,
    Truth(bool),
    /// Whole numbers are all that a list has.
    Number(i128),
    Text(String),
    Array(Vec<Json>),
    Object(Vec<(String, Json)>),
}

/// A list nests five deep; more than this is no list.
const DEEPEST: usize = 16;

struct Reader<'a> {
    text: &'a [u8],
    at: usize,
}

/// Reads one value and nothing after it; else says where the fault is, from 1.
pub fn read(text: &[u8]) -> Result<Json, String> {
    let mut reader = Reader { text, at: 0 };
    let value = reader.value(DEEPEST).and_then(|value| {
        reader.skip_blanks();
        if reader.at == text.len() {
            Ok(value)
        } else {
            Err("more after its end")
        }
    });
    value.map_err(|fault| format!("not JSON at octet {}: {fault}", reader.at + 1))
}

impl Json {
    pub fn member(&self, name: &str) -> Option<&Json> {
        match self {
            Json::Object(members) => {
                members.iter().find(|(own, _)| own == name).map(|(_, value)| value)
            }
            _ => None,
        }
    }

    pub fn array(&self) -> Option<&[Json]> {
        match self {
            Json::Array(values) => Some(values),
            _ => None,
        }
    }

    pub fn number<N: TryFrom<i128>>(&self) -> Option<N> {
        match self {
            Json::Number(number) => N::try_from(*number).ok(),
            _ => None,
        }
    }

    pub fn truth(&self) -> Option<bool> {
        match self {
            Json::Truth(truth) => Some(*truth),
            _ => None,
        }
    }

    pub fn text(&self) -> Option<&str> {
        match self {
            Json::Text(text) => Some(text),
            _ => None,
        }
    }
}

type Read<T> = Result<T, &'static str>;

impl Reader<'_> {
    fn skip_blanks(&mut self) {
        while matches!(self.text.get(self.at), Some(b' ' | b'\t' | b'\r' | b'\n')) {
            self.at += 1;
        }
    }

    /// The next octet that is no blank.
    fn peek(&mut self) -> Option<u8> {
        self.skip_blanks();
        self.text.get(self.at).copied()
    }

    fn expect(&mut self, octet: u8) -> Read<()> {
        match self.peek() == Some(octet) {
            true => {
                self.at += 1;
                Ok(())
            }
            false => Err("another octet than is due"),
        }
    }

    fn word(&mut self, word: &[u8], value: Json) -> Read<Json> {
        match self.text[self.at..].starts_with(word) {
            true => {
                self.at += word.len();
                Ok(value)
            }
            false => Err("an unknown word"),
        }
    }

    fn value(&mut self, depth: usize) -> Read<Json> {
        if depth == 0 {
            return Err("nested too deep");
        }
        match self.peek().ok_or("it ends too early")? {
            b'{' => self.object(depth),
            b'[' => self.array(depth),
            b'"' => Ok(Json::Text(self.string()?)),
            b't' => self.word(b"true", Json::Truth(true)),
            b'f' => self.word(b"false", Json::Truth(false)),
            b'n' => self.word(b"null", Json::Null),
            b'-' | b'0'..=b'9' => self.number(),
            _ => Err("no value"),
        }
    }

    fn object(&mut self, depth: usize) -> Read<Json> {
        self.expect(b'{')?;
        let mut members = Vec::new();
        if self.peek() == Some(b'}') {
            self.at += 1;
            return Ok(Json::Object(members));
        }
        loop {
            self.skip_blanks();
            let name = self.string()?;
            if members.iter().any(|(known, _)| *known == name) {
                return Err("a member that stands twice");
            }
            self.expect(b':')?;
            members.push((name, self.value(depth - 1)?));
            if self.peek() == Some(b',') {
                self.at += 1;
                continue;
            }
            self.expect(b'}')?;
            return Ok(Json::Object(members));
        }
    }

    fn array(&mut self, depth: usize) -> Read<Json> {
        self.expect(b'[')?;
        let mut values = Vec::new();
        if self.peek() == Some(b']') {
            self.at += 1;
            return Ok(Json::Array(values));
        }
        loop {
            values.push(self.value(depth - 1)?);
            if self.peek() == Some(b',') {
                self.at += 1;
                continue;
            }
            self.expect(b']')?;
            return Ok(Json::Array(values));
        }
    }

    fn number(&mut self) -> Read<Json> {
        let start = self.at;
        while matches!(self.text.get(self.at), Some(b'-' | b'0'..=b'9')) {
            self.at += 1;
        }
        let digits = std::str::from_utf8(&self.text[start..self.at]).unwrap_or("");
        let number = digits.parse().map_err(|_| "a number that is not whole")?;
        match self.text.get(self.at) {
            Some(b'.' | b'e' | b'E' | b'+') => Err("a number that is not whole"),
            _ => Ok(Json::Number(number)),
        }
    }

    /// A string without escapes but those of a quote, a stroke and a slash: a list has no others.
    fn string(&mut self) -> Read<String> {
        if self.text.get(self.at) != Some(&b'"') {
            return Err("no string");
        }
        self.at += 1;
        let mut octets = Vec::new();
        loop {
            match self.text.get(self.at).ok_or("it ends too early")? {
                b'"' => break,
                b'\\' => {
                    self.at += 1;
                    match self.text.get(self.at) {
                        Some(octet @ (b'"' | b'\\' | b'/')) => octets.push(*octet),
                        _ => return Err("an escape that a list does not have"),
                    }
                }
                0..=31 => return Err("a control character"),
                octet => octets.push(*octet),
            }
            self.at += 1;
        }
        self.at += 1;
        String::from_utf8(octets).map_err(|_| "no text")
    }
}
