//! A small JSON reader for the sidecars: objects, arrays, strings, integers, true, false, null.

#[derive(Clone, Debug, PartialEq)]
pub enum Json {
    Null,
    Bool(bool),
    Integer(i128),
    String(String),
    Array(Vec<Json>),
    Object(Vec<(String, Json)>),
}

impl Json {
    pub fn get(&self, key: &str) -> Option<&Json> {
        match self {
            Json::Object(members) => {
                let (_, value) = members.iter().find(|(name, _)| name == key)?;
                Some(value)
            }
            _ => None,
        }
    }

    pub fn number(&self) -> Option<u64> {
        match self {
            Json::Integer(number) => u64::try_from(*number).ok(),
            _ => None,
        }
    }

    pub fn text(&self) -> Option<&str> {
        match self {
            Json::String(text) => Some(text),
            _ => None,
        }
    }

    /// The numbers of an array of numbers.
    pub fn numbers(&self) -> Option<Vec<u64>> {
        match self {
            Json::Array(items) => items.iter().map(Json::number).collect(),
            _ => None,
        }
    }
}

/// Reads a text that is one JSON value.
pub fn read(text: &str) -> Result<Json, String> {
    let mut reader = Reader { text, at: 0 };
    let value = reader.value()?;
    reader.skip_blanks();
    if reader.at == text.len() {
        Ok(value)
    } else {
        Err(reader.error("text behind the value"))
    }
}

struct Reader<'a> {
    text: &'a str,
    at: usize,
}

impl Reader<'_> {
    fn error(&self, what: &str) -> String {
        format!("JSON, byte {}: {what}", self.at)
    }

    fn rest(&self) -> &str {
        &self.text[self.at..]
    }

    fn skip_blanks(&mut self) {
        let rest = self.rest();
        self.at += rest.len() - rest.trim_start_matches([' ', '\t', '\r', '\n']).len();
    }

    /// Takes the token if it is next, blanks before it aside.
    fn took(&mut self, token: &str) -> bool {
        self.skip_blanks();
        let found = self.rest().starts_with(token);
        if found {
            self.at += token.len();
        }
        found
    }

    fn expect(&mut self, token: &str) -> Result<(), String> {
        if self.took(token) {
            Ok(())
        } else {
            Err(self.error(&format!("no {token}")))
        }
    }

    fn value(&mut self) -> Result<Json, String> {
        if self.took("{") {
            self.object()
        } else if self.took("[") {
            self.array()
        } else if self.took("\"") {
            Ok(Json::String(self.string()?))
        } else if self.took("true") {
            Ok(Json::Bool(true))
        } else if self.took("false") {
            Ok(Json::Bool(false))
        } else if self.took("null") {
            Ok(Json::Null)
        } else {
            self.integer()
        }
    }

    fn object(&mut self) -> Result<Json, String> {
        let mut members = Vec::new();
        if self.took("}") {
            return Ok(Json::Object(members));
        }
        loop {
            self.expect("\"")?;
            let name = self.string()?;
            self.expect(":")?;
            members.push((name, self.value()?));
            if self.took("}") {
                return Ok(Json::Object(members));
            }
            self.expect(",")?;
        }
    }

    fn array(&mut self) -> Result<Json, String> {
        let mut items = Vec::new();
        if self.took("]") {
            return Ok(Json::Array(items));
        }
        loop {
            items.push(self.value()?);
            if self.took("]") {
                return Ok(Json::Array(items));
            }
            self.expect(",")?;
        }
    }

    fn integer(&mut self) -> Result<Json, String> {
        let rest = self.rest();
        let size = rest
            .find(|c: char| c != '-' && !c.is_ascii_digit())
            .unwrap_or(rest.len());
        match rest[..size].parse() {
            Ok(number) => {
                self.at += size;
                Ok(Json::Integer(number))
            }
            Err(_) => Err(self.error("no value")),
        }
    }

    fn character(&mut self) -> Result<char, String> {
        match self.rest().chars().next() {
            Some(c) => {
                self.at += c.len_utf8();
                Ok(c)
            }
            None => Err(self.error("the text ends in a string")),
        }
    }

    /// The string behind an opening quotation mark.
    fn string(&mut self) -> Result<String, String> {
        let mut text = String::new();
        loop {
            match self.character()? {
                '"' => return Ok(text),
                '\\' => text.push(self.escape()?),
                c => text.push(c),
            }
        }
    }

    fn escape(&mut self) -> Result<char, String> {
        match self.character()? {
            'b' => Ok('\u{8}'),
            'f' => Ok('\u{c}'),
            'n' => Ok('\n'),
            'r' => Ok('\r'),
            't' => Ok('\t'),
            'u' => self.unicode(),
            c @ ('"' | '\\' | '/') => Ok(c),
            _ => Err(self.error("unknown escape")),
        }
    }

    /// The character behind `\u`: four hex digits, or two such numbers that make a surrogate pair.
    fn unicode(&mut self) -> Result<char, String> {
        let mut code = self.hex4()?;
        if (0xd800..0xdc00).contains(&code) {
            self.expect("\\u")?;
            let low = self.hex4()?;
            if !(0xdc00..0xe000).contains(&low) {
                return Err(self.error("half a surrogate pair"));
            }
            code = 0x10000 + ((code - 0xd800) << 10) + (low - 0xdc00);
        }
        char::from_u32(code).ok_or_else(|| self.error("no such character"))
    }

    fn hex4(&mut self) -> Result<u32, String> {
        let mut number = 0;
        for _ in 0..4 {
            match self.character()?.to_digit(16) {
                Some(digit) => number = number * 16 + digit,
                None => return Err(self.error("no hex digit")),
            }
        }
        Ok(number)
    }
}
