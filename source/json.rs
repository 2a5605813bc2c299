//! Reading JSON, as far as the compiler writes it: a number, `true`, `false` and `null` stay as their
//! text, and so does what is escaped in a string.

pub enum Json {
    Bare(String),
    Text(String),
    List(Vec<Json>),
    Fields(Vec<(String, Json)>),
}

struct Reader<'a> {
    text: &'a str,
    at: usize,
}

/// The one value that a text is.
pub fn read(text: &str) -> Result<Json, String> {
    let mut reader = Reader { text, at: 0 };
    let value = reader.value()?;
    reader.space();
    if reader.at == text.len() {
        return Ok(value);
    }
    reader.trouble("ends")
}

impl Json {
    pub fn list(&self) -> Option<&[Json]> {
        match self {
            Json::List(values) => Some(values),
            _ => None,
        }
    }

    pub fn text(&self) -> Option<&str> {
        match self {
            Json::Text(text) => Some(text),
            _ => None,
        }
    }

    pub fn number(&self) -> Option<u64> {
        match self {
            Json::Bare(text) => text.parse().ok(),
            _ => None,
        }
    }

    /// The value of a field that stands alone, as in `{"Int": 8}`, and its name.
    pub fn alone(&self) -> Option<(&str, &Json)> {
        match self {
            Json::Fields(fields) if fields.len() == 1 => Some((&fields[0].0, &fields[0].1)),
            _ => None,
        }
    }

    /// The value of a field.
    pub fn field(&self, name: &str) -> Option<&Json> {
        match self {
            Json::Fields(fields) => fields
                .iter()
                .find(|(field, _)| field == name)
                .map(|(_, value)| value),
            _ => None,
        }
    }

    /// Shows each field inside to `look`, those around another first.
    pub fn each_field<'a>(&'a self, look: &mut impl FnMut(&'a str, &'a Json)) {
        match self {
            Json::List(values) => values.iter().for_each(|value| value.each_field(look)),
            Json::Fields(fields) => {
                for (name, value) in fields {
                    look(name, value);
                    value.each_field(look);
                }
            }
            Json::Bare(_) | Json::Text(_) => {}
        }
    }
}

impl Reader<'_> {
    fn rest(&self) -> &str {
        &self.text[self.at..]
    }

    fn space(&mut self) {
        self.at = self.text.len() - self.rest().trim_start().len();
    }

    fn trouble<T>(&self, expected: &str) -> Result<T, String> {
        Err(format!("byte {} is not where it {expected}", self.at))
    }

    fn eats(&mut self, mark: char) -> bool {
        self.space();
        let here = self.rest().starts_with(mark);
        self.at += usize::from(here);
        here
    }

    fn value(&mut self) -> Result<Json, String> {
        if self.eats('[') {
            return Ok(Json::List(self.parts(']', Self::value)?));
        }
        if self.eats('{') {
            return Ok(Json::Fields(self.parts('}', Self::field)?));
        }
        if self.rest().starts_with('"') {
            return Ok(Json::Text(self.string()?));
        }
        let is_bare = |c: char| c.is_ascii_alphanumeric() || "+-.".contains(c);
        let rest = self.rest();
        let end = rest.find(|c| !is_bare(c)).unwrap_or(rest.len());
        if end == 0 {
            return self.trouble("has a value");
        }
        let text = rest[..end].to_string();
        self.at += end;
        Ok(Json::Bare(text))
    }

    fn field(&mut self) -> Result<(String, Json), String> {
        self.space();
        let name = self.string()?;
        if !self.eats(':') {
            return self.trouble("has a colon");
        }
        Ok((name, self.value()?))
    }

    /// What stands between commas, up to the mark that closes it.
    fn parts<T>(
        &mut self,
        closing: char,
        part: fn(&mut Self) -> Result<T, String>,
    ) -> Result<Vec<T>, String> {
        let mut found = Vec::new();
        if self.eats(closing) {
            return Ok(found);
        }
        loop {
            found.push(part(self)?);
            if self.eats(closing) {
                return Ok(found);
            }
            if !self.eats(',') {
                return self.trouble("has a comma");
            }
        }
    }

    fn string(&mut self) -> Result<String, String> {
        let mut escaped = false;
        for (i, c) in self.rest().char_indices() {
            if i == 0 && c != '"' {
                break;
            }
            if i > 0 && c == '"' && !escaped {
                let text = self.rest()[1..i].to_string();
                self.at += i + 1;
                return Ok(text);
            }
            escaped = i > 0 && c == '\\' && !escaped;
        }
        self.trouble("has a string")
    }
}
