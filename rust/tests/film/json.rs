//! A strict reader of JSON.

#[derive(Clone, Debug, PartialEq)]
pub enum Value {
    Null,
    Bool(bool),
    /// As it is written.
    Number(String),
    Text(String),
    List(Vec<Value>),
    Object(Vec<(String, Value)>),
}

impl Value {
    /// A field of an object.
    pub fn of(&self, name: &str) -> &Value {
        let Value::Object(fields) = self else { panic!("no object: {self:?}") };
        let found = fields.iter().find(|(field, _)| field == name);
        &found.unwrap_or_else(|| panic!("no field {name}: {self:?}")).1
    }

    pub fn text(&self) -> &str {
        let Value::Text(text) = self else { panic!("no text: {self:?}") };
        text
    }

    pub fn list(&self) -> &[Value] {
        let Value::List(list) = self else { panic!("no list: {self:?}") };
        list
    }

    pub fn number<T: std::str::FromStr>(&self) -> T {
        let Value::Number(number) = self else { panic!("no number: {self:?}") };
        number.parse().unwrap_or_else(|_| panic!("another kind of number: {number}"))
    }
}

/// Reads one value, with nothing behind it but blanks.
pub fn read(text: &str) -> Result<Value, String> {
    let mut reader = Reader { left: text };
    let value = reader.value()?;
    reader.blanks();
    if reader.left.is_empty() {
        Ok(value)
    } else {
        reader.fault("the end")
    }
}

struct Reader<'a> {
    left: &'a str,
}

impl Reader<'_> {
    fn fault<T>(&self, wanted: &str) -> Result<T, String> {
        Err(format!("not {wanted}: {:?}", self.left.chars().take(30).collect::<String>()))
    }

    fn blanks(&mut self) {
        self.left = self.left.trim_start_matches([' ', '\n', '\r', '\t']);
    }

    /// Takes a text if it comes next.
    fn taken(&mut self, text: &str) -> bool {
        let rest = self.left.strip_prefix(text);
        self.left = rest.unwrap_or(self.left);
        rest.is_some()
    }

    /// The same after blanks.
    fn mark(&mut self, mark: &str) -> bool {
        self.blanks();
        self.taken(mark)
    }

    fn value(&mut self) -> Result<Value, String> {
        self.blanks();
        for (word, value) in [("null", Value::Null), ("true", Value::Bool(true)), ("false", Value::Bool(false))] {
            if self.taken(word) {
                return Ok(value);
            }
        }
        if self.taken("\"") {
            self.text().map(Value::Text)
        } else if self.taken("[") {
            self.all("]", Self::value).map(Value::List)
        } else if self.taken("{") {
            self.all("}", Self::field).and_then(object)
        } else {
            self.number()
        }
    }

    /// Values with commas between them, up to the end mark.
    fn all<T>(&mut self, end: &str, each: impl Fn(&mut Self) -> Result<T, String>) -> Result<Vec<T>, String> {
        let mut all = Vec::new();
        if self.mark(end) {
            return Ok(all);
        }
        loop {
            all.push(each(self)?);
            if self.mark(end) {
                return Ok(all);
            }
            if !self.mark(",") {
                return self.fault("a comma");
            }
        }
    }

    fn field(&mut self) -> Result<(String, Value), String> {
        if !self.mark("\"") {
            return self.fault("a name");
        }
        let name = self.text()?;
        if !self.mark(":") {
            return self.fault("a colon");
        }
        Ok((name, self.value()?))
    }

    /// A text, after its first quotation mark.
    fn text(&mut self) -> Result<String, String> {
        let mut text = String::new();
        loop {
            let mut rest = self.left.chars();
            match rest.next() {
                Some('"') => {
                    self.left = rest.as_str();
                    return Ok(text);
                }
                Some('\\') => {
                    self.left = rest.as_str();
                    text.push(self.escaped()?);
                }
                Some(character) if character >= ' ' => {
                    self.left = rest.as_str();
                    text.push(character);
                }
                _ => return self.fault("a character of a text"),
            }
        }
    }

    fn escaped(&mut self) -> Result<char, String> {
        let marks = ["\"", "\\", "/", "b", "f", "n", "r", "t"];
        let meant = ['"', '\\', '/', '\u{8}', '\u{c}', '\n', '\r', '\t'];
        let found = marks.iter().position(|mark| self.left.starts_with(mark));
        if let Some(place) = found {
            self.taken(marks[place]);
            return Ok(meant[place]);
        }
        let digits = self.left.get(1..5).filter(|_| self.left.starts_with('u')).unwrap_or("none");
        let Some(character) = u32::from_str_radix(digits, 16).ok().and_then(char::from_u32) else {
            return self.fault("an escaped character");
        };
        self.left = &self.left[5..];
        Ok(character)
    }

    fn number(&mut self) -> Result<Value, String> {
        let end = self.left.find(|c: char| !c.is_ascii_digit() && !"+-.eE".contains(c)).unwrap_or(self.left.len());
        let (number, rest) = self.left.split_at(end);
        if !is_number(number) {
            return self.fault("a value");
        }
        self.left = rest;
        Ok(Value::Number(number.into()))
    }
}

fn object(fields: Vec<(String, Value)>) -> Result<Value, String> {
    let twice =
        fields.iter().enumerate().find(|(place, (name, _))| fields[..*place].iter().any(|(other, _)| other == name));
    match twice {
        Some((_, (name, _))) => Err(format!("the name {name} twice")),
        None => Ok(Value::Object(fields)),
    }
}

/// An optional minus, a whole number without a leading 0, and optionally digits behind a point and an exponent.
fn is_number(text: &str) -> bool {
    let digits = |text: &str| !text.is_empty() && text.bytes().all(|byte| byte.is_ascii_digit());
    let (number, exponent) = text.split_once(['e', 'E']).unwrap_or((text, "0"));
    let (whole, part) = number.split_once('.').unwrap_or((number, "0"));
    let whole = whole.strip_prefix('-').unwrap_or(whole);
    let plain = whole == "0" || !whole.starts_with('0');
    plain && digits(whole) && digits(part) && digits(exponent.strip_prefix(['+', '-']).unwrap_or(exponent))
}

#[test]
fn json_is_read() {
    let value =
        read(" {\"a\": [1, -2.5e+3, \"x\\n\\u00e9\\\"\"], \"b\": {}, \"c\": [], \"d\": null, \"e\": true}\n").unwrap();
    assert_eq!(value.of("a").list()[1].number::<f64>(), -2500.0);
    assert_eq!(value.of("a").list()[2].text(), "x\né\"");
    assert_eq!((value.of("b"), value.of("d")), (&Value::Object(Vec::new()), &Value::Null));
}

#[test]
fn what_is_no_json_is_refused() {
    let wrong = [
        "",
        "{",
        "[1,]",
        "[1 2]",
        "{\"a\":1,}",
        "{\"a\" 1}",
        "{a:1}",
        "{\"a\":1,\"a\":2}",
        "01",
        "1.",
        ".5",
        "+1",
        "-",
        "1e",
        "inf",
        "NaN",
        "nul",
        "[1]]",
        "\"a",
        "\"\n\"",
        "\"\\x\"",
        "\"\\u12\"",
        "'a'",
        "1 2",
        "1-2",
        "\u{a0}1",
    ];
    for text in wrong {
        assert!(read(text).is_err(), "{text}");
    }
}
