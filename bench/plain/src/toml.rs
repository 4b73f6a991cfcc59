//! A reader of as much of TOML as well-formed scenarios have.

/// A value of the text.
pub enum Value {
    Number(i64),
    Truth(bool),
    Text(String),
    /// A float or a date, which no key wants.
    Other,
    List(Vec<Value>),
    Table(Table),
}

pub type Table = Vec<(String, Value)>;

struct Reader<'a> {
    text: &'a [u8],
    at: usize,
}

impl Reader<'_> {
    fn look(&self) -> Option<u8> {
        self.text.get(self.at).copied()
    }

    fn starts(&self, with: &str) -> bool {
        self.text[self.at..].starts_with(with.as_bytes())
    }

    fn eat(&mut self, what: &str) -> Option<()> {
        if !self.starts(what) {
            return None;
        }
        self.at += what.len();
        Some(())
    }

    fn blanks(&mut self) {
        while let Some(b' ' | b'\t') = self.look() {
            self.at += 1;
        }
    }

    /// Blanks, comments and line ends.
    fn space(&mut self) {
        loop {
            self.blanks();
            match self.look() {
                Some(b'\r' | b'\n') => self.at += 1,
                Some(b'#') => {
                    while self.look().is_some_and(|byte| byte != b'\n') {
                        self.at += 1;
                    }
                }
                _ => return,
            }
        }
    }

    fn line_end(&mut self) -> Option<()> {
        self.blanks();
        match self.look() {
            None | Some(b'\r' | b'\n' | b'#') => Some(()),
            _ => None,
        }
    }

    /// What a letter behind a backslash stands for.
    fn escaped(&mut self) -> Option<char> {
        let letter = self.look()?;
        self.at += 1;
        let width = match letter {
            b'u' => 4,
            b'U' => 8,
            b'n' => return Some('\n'),
            b't' => return Some('\t'),
            b'r' => return Some('\r'),
            b'"' | b'\\' => return Some(char::from(letter)),
            _ => return None,
        };
        let digits = std::str::from_utf8(self.text.get(self.at..self.at + width)?).ok()?;
        self.at += width;
        char::from_u32(u32::from_str_radix(digits, 16).ok()?)
    }

    fn string(&mut self) -> Option<String> {
        let quote = self.look()?;
        let is_long = self.starts("\"\"\"") || self.starts("'''");
        self.at += if is_long { 3 } else { 1 };
        if is_long {
            let _ = self.eat("\r\n").or_else(|| self.eat("\n"));
        }
        let close = if is_long { [quote; 3].to_vec() } else { vec![quote] };
        let mut found = Vec::new();
        while !self.text[self.at..].starts_with(&close) {
            let byte = self.look()?;
            self.at += 1;
            match byte {
                b'\\' if quote == b'"' => {
                    let letter = self.escaped()?;
                    found.extend_from_slice(letter.encode_utf8(&mut [0; 4]).as_bytes());
                }
                b'\n' | b'\r' if !is_long => return None,
                byte => found.push(byte),
            }
        }
        self.at += close.len();
        String::from_utf8(found).ok()
    }

    fn bare(&mut self) -> Option<&str> {
        let start = self.at;
        while self.look().is_some_and(|byte| byte.is_ascii_alphanumeric() || matches!(byte, b'_' | b'-' | b'+')) {
            self.at += 1;
        }
        std::str::from_utf8(&self.text[start..self.at]).ok().filter(|word| !word.is_empty())
    }

    fn name(&mut self) -> Option<String> {
        if let Some(b'"' | b'\'') = self.look() {
            self.string()
        } else {
            self.bare().map(String::from)
        }
    }

    fn list(&mut self) -> Option<Value> {
        self.eat("[")?;
        let mut list = Vec::new();
        loop {
            self.space();
            if self.eat("]").is_some() {
                return Some(Value::List(list));
            }
            list.push(self.value()?);
            self.space();
            if !self.starts("]") {
                self.eat(",")?;
            }
        }
    }

    fn inline_table(&mut self) -> Option<Value> {
        self.eat("{")?;
        let mut table = Vec::new();
        loop {
            self.space();
            if self.eat("}").is_some() {
                return Some(Value::Table(table));
            }
            self.pair(&mut table)?;
            self.space();
            if !self.starts("}") {
                self.eat(",")?;
            }
        }
    }

    /// A number, a truth value, or what no key wants.
    fn plain_value(&mut self) -> Option<Value> {
        let start = self.at;
        while self.look().is_some_and(|byte| byte.is_ascii_alphanumeric() || b"_-+.:".contains(&byte)) {
            self.at += 1;
        }
        let word = std::str::from_utf8(&self.text[start..self.at]).ok()?;
        match word {
            "true" => return Some(Value::Truth(true)),
            "false" => return Some(Value::Truth(false)),
            _ => {}
        }
        let digits: String = word.chars().filter(|letter| *letter != '_').collect();
        let (radix, digits) = match digits.get(..2) {
            Some("0x") => (16, &digits[2..]),
            Some("0o") => (8, &digits[2..]),
            Some("0b") => (2, &digits[2..]),
            _ => (10, &digits[..]),
        };
        if radix == 10 && is_other(digits) {
            return Some(Value::Other);
        }
        i64::from_str_radix(digits, radix).ok().map(Value::Number)
    }

    fn value(&mut self) -> Option<Value> {
        match self.look()? {
            b'"' | b'\'' => self.string().map(Value::Text),
            b'[' => self.list(),
            b'{' => self.inline_table(),
            _ => self.plain_value(),
        }
    }

    /// `key = value`, where the key may have dots.
    fn pair(&mut self, mut table: &mut Table) -> Option<()> {
        loop {
            let name = self.name()?;
            self.blanks();
            if self.eat(".").is_some() {
                self.blanks();
                table = table_in(table, name)?;
                continue;
            }
            self.eat("=")?;
            self.blanks();
            let value = self.value()?;
            if table.iter().any(|(key, _)| *key == name) {
                return None;
            }
            table.push((name, value));
            return Some(());
        }
    }

    /// The name of a table, between these brackets.
    fn header(&mut self, open: &str, close: &str) -> Option<String> {
        self.eat(open)?;
        self.blanks();
        let name = self.name()?;
        self.blanks();
        self.eat(close)?;
        self.line_end()?;
        Some(name)
    }

    fn document(&mut self) -> Option<Table> {
        let mut top = Table::new();
        let mut into: Option<String> = None;
        loop {
            self.space();
            if self.look().is_none() {
                return Some(top);
            }
            if self.starts("[[") {
                let name = self.header("[[", "]]")?;
                add_to_list(&mut top, &name)?;
                into = Some(name);
            } else if self.starts("[") {
                let name = self.header("[", "]")?;
                table_in(&mut top, name.clone())?;
                into = Some(name);
            } else {
                let table = table_named(&mut top, into.as_deref())?;
                self.pair(table)?;
                self.line_end()?;
            }
        }
    }
}

/// Whether digits of base ten are those of a float or a date.
fn is_other(digits: &str) -> bool {
    let name = digits.trim_start_matches(['+', '-']);
    let has_mark = digits.contains(['.', ':', 'e', 'E']) || digits.get(1..).is_some_and(|rest| rest.contains('-'));
    (name == "inf" || name == "nan" || has_mark) && digits.ends_with(|letter: char| letter.is_ascii_alphanumeric())
}

/// Adds an empty table to the list of this name.
fn add_to_list(top: &mut Table, name: &str) -> Option<()> {
    match top.iter_mut().find(|(key, _)| key == name) {
        Some((_, Value::List(list))) => list.push(Value::Table(Vec::new())),
        Some(_) => return None,
        None => top.push((name.to_string(), Value::List(vec![Value::Table(Vec::new())]))),
    }
    Some(())
}

/// The table to which a pair belongs: the last one of a list.
fn table_named<'a>(top: &'a mut Table, name: Option<&str>) -> Option<&'a mut Table> {
    let Some(name) = name else { return Some(top) };
    // Mostly the last one of the document.
    match &mut top.iter_mut().rev().find(|(key, _)| key == name)?.1 {
        Value::Table(table) => Some(table),
        Value::List(list) => match list.last_mut()? {
            Value::Table(table) => Some(table),
            _ => None,
        },
        _ => None,
    }
}

fn table_in(table: &mut Table, name: String) -> Option<&mut Table> {
    let at = match table.iter().position(|(key, _)| *key == name) {
        Some(at) => at,
        None => {
            table.push((name, Value::Table(Vec::new())));
            table.len() - 1
        }
    };
    match &mut table[at].1 {
        Value::Table(table) => Some(table),
        _ => None,
    }
}

/// The table of a text; none where it is no TOML.
pub fn read_table(text: &[u8]) -> Option<Table> {
    Reader { text, at: 0 }.document()
}
