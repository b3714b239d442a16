//! Reads a TOML document as plans are written in it: TOML 1.1, integers of 64 bits with sign, at
//! most 80 parts in a key and 80 arrays and tables in one another.

use std::fmt;

/// How many arrays and tables may be nested, and how many parts a key may have.
const DEPTH: usize = 80;

/// A value of a document. Of those that no plan uses only the kind is kept.
#[derive(Debug)]
pub enum Value {
    Integer(i64),
    Text(String),
    Array(Vec<Value>),
    Table(Table),
    Other(&'static str),
}

impl Value {
    /// What the value is, for a message.
    pub fn kind(&self) -> &'static str {
        match self {
            Value::Integer(_) => "an integer",
            Value::Text(_) => "a string",
            Value::Array(_) => "an array",
            Value::Table(_) => "a table",
            Value::Other(kind) => kind,
        }
    }
}

/// What made a table; an array whose tables came by headers is marked on its key.
#[derive(Debug, Clone, Copy, PartialEq)]
enum Made {
    Header,
    Dotted,
    Passed,
    Value,
}

#[derive(Debug)]
struct Pair {
    key: String,
    value: Value,
    line: usize,
    has_headers: bool,
}

/// A table: its keys in their order, each with its line.
#[derive(Debug)]
pub struct Table {
    pairs: Vec<Pair>,
    made: Made,
}

impl Table {
    fn new(made: Made) -> Table {
        Table { pairs: Vec::new(), made }
    }

    fn position(&self, key: &str) -> Option<usize> {
        self.pairs.iter().position(|pair| pair.key == key)
    }

    /// The value of a key, with its line.
    pub fn get(&self, key: &str) -> Option<(&Value, usize)> {
        self.position(key).map(|i| (&self.pairs[i].value, self.pairs[i].line))
    }

    fn add(&mut self, key: String, value: Value, line: usize, has_headers: bool) -> usize {
        self.pairs.push(Pair { key, value, line, has_headers });
        self.pairs.len() - 1
    }

    fn twice(&self, i: usize, fault_line: usize) -> Fault {
        let Pair { key, line, .. } = &self.pairs[i];
        Fault { line: fault_line, column: 1, why: format!("{key} is there already, on line {line}") }
    }

    /// Makes the table a value, with the tables that its dotted keys made: no key may be added.
    fn close(&mut self) {
        self.made = Made::Value;
        for pair in &mut self.pairs {
            if let Value::Table(inner) = &mut pair.value {
                inner.close();
            }
        }
    }
}

/// Why a text is no document, with the line and the column, both counted from 1.
#[derive(Debug)]
pub struct Fault {
    pub line: usize,
    pub column: usize,
    pub why: String,
}

impl fmt::Display for Fault {
    fn fmt(&self, out: &mut fmt::Formatter) -> fmt::Result {
        write!(out, "column {}: {}", self.column, self.why)
    }
}

type Read<T> = Result<T, Fault>;

/// Reads the document of a text. A byte order mark at its beginning is no part of it.
pub fn read_document(text: &str) -> Read<Table> {
    let text: Vec<char> = text.strip_prefix('\u{feff}').unwrap_or(text).chars().collect();
    Reader { text: &text, at: 0 }.document()
}

fn is_bare(letter: char) -> bool {
    letter.is_ascii_alphanumeric() || letter == '_' || letter == '-'
}

/// Whether a character may be in a comment or, apart from delimiters, in a string.
fn is_plain(letter: char) -> bool {
    letter == '\t' || !(letter.is_ascii_control())
}

struct Reader<'t> {
    text: &'t [char],
    at: usize,
}

impl<'t> Reader<'t> {
    fn peek(&self) -> Option<char> {
        self.text.get(self.at).copied()
    }

    fn begins(&self, word: &str) -> bool {
        word.chars().enumerate().all(|(i, letter)| self.text.get(self.at + i) == Some(&letter))
    }

    fn take_while(&mut self, fits: impl Fn(char) -> bool) -> String {
        let begin = self.at;
        while self.peek().map_or(false, &fits) {
            self.at += 1;
        }
        self.text[begin..self.at].iter().collect()
    }

    fn line_of(&self, place: usize) -> usize {
        1 + self.text[..place].iter().filter(|&&letter| letter == '\n').count()
    }

    fn fault_at<T>(&self, place: usize, why: &str) -> Read<T> {
        let place = place.min(self.text.len());
        let column = 1 + self.text[..place].iter().rev().take_while(|&&it| it != '\n').count();
        Err(Fault { line: self.line_of(place), column, why: why.to_string() })
    }

    fn fault<T>(&self, why: &str) -> Read<T> {
        self.fault_at(self.at, why)
    }

    fn skip_space(&mut self) {
        self.take_while(|it| it == ' ' || it == '\t');
    }

    fn is_line_end(&self) -> bool {
        self.begins("\n") || self.begins("\r\n")
    }

    /// Skips white space, line ends and comments.
    fn skip_blank(&mut self) {
        loop {
            self.skip_space();
            if self.begins("#") {
                self.take_while(is_plain);
            } else if self.is_line_end() {
                self.at += if self.begins("\n") { 1 } else { 2 };
            } else {
                return;
            }
        }
    }

    fn document(&mut self) -> Read<Table> {
        let mut root = Table::new(Made::Header);
        let mut path: Vec<usize> = Vec::new();
        self.skip_blank();
        while self.at < self.text.len() {
            if self.begins("[") {
                path = self.header(&mut root)?;
            } else {
                self.pair(at_path(&mut root, &path), DEPTH)?;
            }
            self.skip_space();
            if !(self.at == self.text.len() || self.begins("#") || self.is_line_end()) {
                return self.fault("each key needs a line of its own");
            }
            self.skip_blank();
        }
        Ok(root)
    }

    fn key(&mut self) -> Read<Vec<String>> {
        let mut parts = vec![self.key_part()?];
        self.skip_space();
        while self.begins(".") {
            if parts.len() == DEPTH {
                return self.fault("a key has at most 80 parts");
            }
            self.at += 1;
            self.skip_space();
            parts.push(self.key_part()?);
            self.skip_space();
        }
        Ok(parts)
    }

    fn key_part(&mut self) -> Read<String> {
        match self.peek() {
            Some(quote) if quote == '"' || quote == '\'' => self.short_string(quote),
            _ => {
                let found = self.take_while(is_bare);
                if found.is_empty() { self.fault("a key is expected here") } else { Ok(found) }
            }
        }
    }

    /// Reads a header; returns the way to its table: an index of a key for each level.
    fn header(&mut self, root: &mut Table) -> Read<Vec<usize>> {
        let line = self.line_of(self.at);
        let brackets = if self.begins("[[") { "]]" } else { "]" };
        self.at += brackets.len();
        self.skip_space();
        let mut parts = self.key()?;
        if !self.begins(brackets) {
            return self.fault("the header does not end");
        }
        self.at += brackets.len();
        let last = parts.pop().unwrap_or_default();
        let mut path = Vec::new();
        for part in parts {
            let step = passed(at_path(root, &path), part, line)?;
            path.push(step);
        }
        let table = at_path(root, &path);
        let step = if brackets == "]" { headed(table, last, line)? } else { element(table, last, line)? };
        path.push(step);
        Ok(path)
    }

    /// Reads a key and its value into a table.
    fn pair(&mut self, table: &mut Table, depth: usize) -> Read<()> {
        let line = self.line_of(self.at);
        let mut parts = self.key()?;
        if !self.begins("=") {
            return self.fault("= is expected after the key");
        }
        self.at += 1;
        self.skip_space();
        let value = self.value(depth)?;
        let last = parts.pop().unwrap_or_default();
        let mut inner = table;
        for part in parts {
            inner = dotted(inner, part, line)?;
        }
        match inner.position(&last) {
            Some(i) => Err(inner.twice(i, line)),
            None => {
                inner.add(last, value, line, false);
                Ok(())
            }
        }
    }

    fn value(&mut self, depth: usize) -> Read<Value> {
        match self.peek() {
            Some('[') | Some('{') if depth == 0 => self.fault("more than 80 arrays and tables are nested"),
            Some('[') => self.array(depth - 1),
            Some('{') => self.inline_table(depth - 1),
            Some(quote) if quote == '"' || quote == '\'' => self.string(quote).map(Value::Text),
            _ => self.scalar(),
        }
    }

    fn array(&mut self, depth: usize) -> Read<Value> {
        let mut items = Vec::new();
        self.at += 1;
        self.skip_blank();
        while !self.begins("]") {
            items.push(self.value(depth)?);
            self.end_element("]")?;
        }
        self.at += 1;
        Ok(Value::Array(items))
    }

    fn inline_table(&mut self, depth: usize) -> Read<Value> {
        let mut table = Table::new(Made::Dotted);
        self.at += 1;
        self.skip_blank();
        while !self.begins("}") {
            self.pair(&mut table, depth)?;
            self.end_element("}")?;
        }
        self.at += 1;
        table.close();
        Ok(Value::Table(table))
    }

    fn end_element(&mut self, closing: &str) -> Read<()> {
        self.skip_blank();
        if self.begins(",") {
            self.at += 1;
            self.skip_blank();
        } else if !self.begins(closing) {
            return self.fault(&format!("a comma or {closing} is expected here"));
        }
        Ok(())
    }

    fn scalar(&mut self) -> Read<Value> {
        let begin = self.at;
        let is_word = |it: char| it.is_ascii_alphanumeric() || "_+.:-".contains(it);
        let mut word = self.take_while(is_word);
        if self.begins(" ") && self.text.get(self.at + 1).map_or(false, char::is_ascii_digit) {
            self.at += 1;
            word = format!("{word} {}", self.take_while(is_word));
        }
        match scalar_of(&word) {
            Some(value) => Ok(value),
            None if word.is_empty() => self.fault_at(begin, "a value is expected here"),
            None => self.fault_at(begin, &format!("{word} is no value: a string needs quotes, an integer 64 bits")),
        }
    }

    fn string(&mut self, quote: char) -> Read<String> {
        let triple: String = vec![quote; 3].into_iter().collect();
        if !self.begins(&triple) {
            return self.short_string(quote);
        }
        let begin = self.at;
        self.at += 3;
        if self.is_line_end() {
            self.at += if self.begins("\n") { 1 } else { 2 };
        }
        let mut content = String::new();
        loop {
            let quotes = self.text[self.at..].iter().take_while(|&&it| it == quote).count();
            match self.peek() {
                Some(it) if it == quote && (3..6).contains(&quotes) => {
                    content.extend(vec![quote; quotes - 3]);
                    self.at += quotes;
                    return Ok(content);
                }
                Some(it) if it == quote && quotes < 3 => self.take_into(&mut content),
                Some('\\') if quote == '"' => self.escape(true, &mut content)?,
                Some('\r') if self.begins("\r\n") => self.take_into(&mut content),
                Some(it) if it == '\n' || (it != quote && is_plain(it)) => self.take_into(&mut content),
                _ => return self.fault_at(begin, "the string is not closed"),
            }
        }
    }

    fn take_into(&mut self, content: &mut String) {
        content.extend(self.peek());
        self.at += 1;
    }

    fn short_string(&mut self, quote: char) -> Read<String> {
        let begin = self.at;
        let mut content = String::new();
        self.at += 1;
        loop {
            match self.peek() {
                Some(it) if it == quote => {
                    self.at += 1;
                    return Ok(content);
                }
                Some('\\') if quote == '"' => self.escape(false, &mut content)?,
                Some(it) if is_plain(it) => self.take_into(&mut content),
                _ => return self.fault_at(begin, "the string is not closed"),
            }
        }
    }

    /// Reads an escape. At the end of a line of a long string it skips all white space.
    fn escape(&mut self, is_long: bool, content: &mut String) -> Read<()> {
        let begin = self.at;
        self.at += 1;
        if is_long {
            let here = self.at;
            self.skip_space();
            if self.is_line_end() {
                while self.is_line_end() {
                    self.at += if self.begins("\n") { 1 } else { 2 };
                    self.skip_space();
                }
                return Ok(());
            }
            self.at = here;
        }
        let letter = self.peek().unwrap_or('\n');
        self.at += 1;
        let plain = "befnrt\"\\".find(letter).and_then(|i| "\u{8}\u{1b}\u{c}\n\r\t\"\\".chars().nth(i));
        let found = plain.or_else(|| self.code_point(letter));
        content.extend(found);
        if found.is_some() { Ok(()) } else { self.fault_at(begin, "this is no escape: a backslash is written \\\\") }
    }

    fn code_point(&mut self, letter: char) -> Option<char> {
        let count = match letter {
            'x' => 2,
            'u' => 4,
            'U' => 8,
            _ => return None,
        };
        let digits: String = self.text.get(self.at..self.at + count)?.iter().collect();
        self.at += count;
        let is_hex = digits.chars().all(|it| it.is_ascii_hexdigit());
        u32::from_str_radix(&digits, 16).ok().filter(|_| is_hex).and_then(char::from_u32)
    }
}

fn at_path<'t>(root: &'t mut Table, path: &[usize]) -> &'t mut Table {
    let mut table = root;
    for &i in path {
        table = match &mut table.pairs[i].value {
            Value::Table(inner) => inner,
            Value::Array(items) => match items.last_mut() {
                Some(Value::Table(inner)) => inner,
                _ => unreachable!("a path leads through tables"),
            },
            _ => unreachable!("a path leads through tables"),
        };
    }
    table
}

/// The key of the table through which a header passes, made if it is missing.
fn passed(table: &mut Table, part: String, line: usize) -> Read<usize> {
    let Some(i) = table.position(&part) else {
        return Ok(table.add(part, Value::Table(Table::new(Made::Passed)), line, false));
    };
    match &table.pairs[i] {
        Pair { has_headers: true, .. } => Ok(i),
        Pair { value: Value::Table(inner), .. } if inner.made != Made::Value => Ok(i),
        _ => Err(table.twice(i, line)),
    }
}

/// The key of the table of a header in single brackets.
fn headed(table: &mut Table, part: String, line: usize) -> Read<usize> {
    let Some(i) = table.position(&part) else {
        return Ok(table.add(part, Value::Table(Table::new(Made::Header)), line, false));
    };
    if let Value::Table(inner) = &mut table.pairs[i].value {
        if inner.made == Made::Passed {
            inner.made = Made::Header;
            return Ok(i);
        }
    }
    Err(table.twice(i, line))
}

/// The key of an array of tables, which has one table more.
fn element(table: &mut Table, part: String, line: usize) -> Read<usize> {
    let place = table.position(&part);
    let i = place.unwrap_or_else(|| table.add(part, Value::Array(Vec::new()), line, true));
    match &mut table.pairs[i] {
        Pair { value: Value::Array(items), has_headers: true, .. } => {
            items.push(Value::Table(Table::new(Made::Header)));
            Ok(i)
        }
        _ => Err(table.twice(i, line)),
    }
}

/// The table to which a part of a dotted key leads, made if it is missing.
fn dotted(table: &mut Table, part: String, line: usize) -> Read<&mut Table> {
    let place = table.position(&part);
    let i = place.unwrap_or_else(|| table.add(part, Value::Table(Table::new(Made::Dotted)), line, false));
    let is_open = match &table.pairs[i].value {
        Value::Table(inner) => inner.made == Made::Dotted || inner.made == Made::Passed,
        _ => false,
    };
    if !is_open {
        return Err(table.twice(i, line));
    }
    match &mut table.pairs[i].value {
        Value::Table(inner) => {
            inner.made = Made::Dotted;
            Ok(inner)
        }
        _ => unreachable!("it is an open table"),
    }
}

/// The boolean, date, time or number that a word spells.
fn scalar_of(word: &str) -> Option<Value> {
    if word == "true" || word == "false" {
        return Some(Value::Other("a boolean"));
    }
    let digits = word.bytes().take_while(u8::is_ascii_digit).count();
    match word.as_bytes().get(digits) {
        Some(b'-') | Some(b':') if digits > 0 => moment_of(word),
        _ => number_of(word),
    }
}

/// Whether each underscore of a word is between two digits.
fn has_good_underscores(word: &[u8], is_digit: impl Fn(&u8) -> bool) -> bool {
    word.iter().enumerate().filter(|&(_, &it)| it == b'_').all(|(i, _)| {
        i > 0 && is_digit(&word[i - 1]) && word.get(i + 1).map_or(false, &is_digit)
    })
}

fn number_of(word: &str) -> Option<Value> {
    let is_hex = word.starts_with("0x");
    if !has_good_underscores(word.as_bytes(), |it| if is_hex { it.is_ascii_hexdigit() } else { it.is_ascii_digit() }) {
        return None;
    }
    let word = word.replace('_', "");
    for (prefix, radix) in [("0x", 16), ("0o", 8), ("0b", 2)].iter() {
        if let Some(digits) = word.strip_prefix(prefix) {
            let are_digits = digits.chars().all(|it| it.is_digit(*radix));
            return if are_digits { i64::from_str_radix(digits, *radix).ok().map(Value::Integer) } else { None };
        }
    }
    let unsigned = word.strip_prefix(|it| it == '+' || it == '-').unwrap_or(&word);
    if unsigned == "inf" || unsigned == "nan" {
        return Some(Value::Other("a float"));
    }
    let whole = unsigned.bytes().take_while(u8::is_ascii_digit).count();
    if whole == 0 || (whole > 1 && unsigned.starts_with('0')) {
        return None;
    }
    if whole == unsigned.len() {
        return word.parse().ok().map(Value::Integer);
    }
    if !is_float_tail(&unsigned[whole..]) {
        return None;
    }
    word.parse::<f64>().ok().filter(|it| it.is_finite()).map(|_| Value::Other("a float"))
}

/// Whether a text is a fraction, an exponent, or both.
fn is_float_tail(tail: &str) -> bool {
    let count = |text: &str| text.bytes().take_while(u8::is_ascii_digit).count();
    let mut rest = tail;
    if let Some(fraction) = rest.strip_prefix('.') {
        if count(fraction) == 0 {
            return false;
        }
        rest = &fraction[count(fraction)..];
    }
    match rest.strip_prefix(|it| it == 'e' || it == 'E') {
        None => rest.is_empty(),
        Some(exponent) => {
            let digits = exponent.strip_prefix(|it| it == '+' || it == '-').unwrap_or(exponent);
            !digits.is_empty() && count(digits) == digits.len()
        }
    }
}

/// Takes two digits that are below a bound.
fn two_digits(text: &str, below: u32) -> Option<(u32, &str)> {
    let digits = text.get(..2)?;
    let number = digits.parse().ok().filter(|&it| it < below && digits.bytes().all(|it| it.is_ascii_digit()))?;
    Some((number, &text[2..]))
}

/// What follows a time of day.
fn after_time(text: &str) -> Option<&str> {
    let (_, rest) = two_digits(text, 24)?;
    let (_, rest) = two_digits(rest.strip_prefix(':')?, 60)?;
    let Some(second) = rest.strip_prefix(':') else { return Some(rest) };
    let (_, rest) = two_digits(second, 61)?;
    let Some(fraction) = rest.strip_prefix('.') else { return Some(rest) };
    let digits = fraction.bytes().take_while(u8::is_ascii_digit).count();
    if digits > 0 { Some(&fraction[digits..]) } else { None }
}

fn moment_of(word: &str) -> Option<Value> {
    let is_whole = if word.as_bytes().get(2) == Some(&b':') {
        after_time(word)?.is_empty()
    } else {
        let rest = after_date(word)?;
        match rest.strip_prefix(|it| it == 'T' || it == 't' || it == ' ') {
            None => rest.is_empty(),
            Some(time) => is_offset(after_time(time)?),
        }
    };
    if is_whole { Some(Value::Other("a date or a time")) } else { None }
}

fn after_date(word: &str) -> Option<&str> {
    let year: u32 = word.get(..4)?.parse().ok()?;
    let (month, rest) = two_digits(word[4..].strip_prefix('-')?, 13)?;
    let (day, rest) = two_digits(rest.strip_prefix('-')?, 32)?;
    let is_leap = year % 4 == 0 && (year % 100 != 0 || year % 400 == 0);
    let most = match month {
        2 => 28 + u32::from(is_leap),
        4 | 6 | 9 | 11 => 30,
        _ => 31,
    };
    if month > 0 && day > 0 && day <= most { Some(rest) } else { None }
}

fn is_offset(text: &str) -> bool {
    let Some(offset) = text.strip_prefix(|it| it == '+' || it == '-') else {
        return text.is_empty() || text == "Z" || text == "z";
    };
    two_digits(offset, 24)
        .and_then(|(_, rest)| two_digits(rest.strip_prefix(':')?, 60))
        .map_or(false, |(_, rest)| rest.is_empty())
}
