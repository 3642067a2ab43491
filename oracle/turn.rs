//! A turned rule: in one file, in one function, one token stands for another. The Rust is named by tokens alone, none of its text
//! stands in the list.

/// A line of `turned.list`: its first five fields.
pub struct Turn {
    /// `utility` or `peak`, for the Rust; `own/NAME` for a file of src.
    pub file: String,
    /// The function, TYPE::FUNCTION where several have that name, or `whole file`.
    function: String,
    token: String,
    /// Which of the places that have the token, from 1.
    ordinal: usize,
    replacement: String,
    /// Its line of the list, from 1.
    number: usize,
}

impl Turn {
    /// The line with that number. Fields stand between two spaces or more.
    pub fn read(list: &str, number: usize) -> Turn {
        let line = list.lines().nth(number - 1).unwrap_or_else(|| panic!("turned.list has no line {number}"));
        let mut fields = line.split("  ").map(str::trim).filter(|f| !f.is_empty()).map(str::to_string);
        let mut next = || fields.next().unwrap_or_default();
        Turn { file: next(), function: next(), token: next(), ordinal: next().parse().unwrap_or(0), replacement: next(), number }
    }

    /// The lines of the comparison's own files.
    pub fn own(list: &str) -> Vec<Turn> {
        let lines = list.lines().enumerate().filter(|(_, line)| line.starts_with("own/"));
        lines.map(|(k, _)| Turn::read(list, k + 1)).collect()
    }

    fn told(&self) -> String {
        format!("turned.list, line {}: {} of {} in {}, number {}", self.number, self.token, self.function, self.file, self.ordinal)
    }

    /// Where the token stands in the text of its file.
    fn place(&self, text: &str) -> usize {
        let (from, to) = part(text, &self.function).unwrap_or_else(|| panic!("{}: no such function, or more than one", self.told()));
        let places: Vec<usize> = (from..to).filter(|at| text.is_char_boundary(*at) && stands(text, *at, &self.token)).collect();
        *places.get(self.ordinal.wrapping_sub(1)).unwrap_or_else(|| panic!("{}: there are {}", self.told(), places.len()))
    }

    /// The text of the Rust with that one replacement.
    pub fn of(&self, text: &str) -> String {
        let at = self.place(text);
        format!("{}{}{}", &text[..at], self.replacement, &text[at + self.token.len()..])
    }
}

/// The text of a file of the comparison's own in which each of its tokens, which are expressions, asks which rule is turned
/// (`turned` in main.rs).
pub fn switched(text: &str, turns: &[Turn]) -> String {
    let mut places: Vec<(usize, &str, Vec<&Turn>)> = Vec::new();
    for t in turns {
        let at = t.place(text);
        match places.iter_mut().find(|p| p.0 == at && p.1 == t.token) {
            Some(p) => p.2.push(t),
            None => places.push((at, &t.token, vec![t])),
        }
    }
    places.sort_by_key(|p| p.0);
    let (mut out, mut from) = (String::new(), 0);
    for (at, token, turns) in places {
        assert!(at >= from, "{}: it overlaps another", turns[0].told());
        let arms: String = turns.iter().map(|t| format!("{} => {{ {} }} ", t.number, t.replacement)).collect();
        out += &format!("{}(match crate::turned() {{ {arms}_ => {{ {token} }} }})", &text[from..at]);
        from = at + token.len();
    }
    out + &text[from..]
}

/// Where the function starts and ends: its first line, and the line that closes a brace as far to the left.
fn part(text: &str, function: &str) -> Option<(usize, usize)> {
    if function == "whole file" {
        return Some((0, text.len()));
    }
    let (mut from, mut to) = (0, text.len());
    let mut name = function;
    if let Some((of, own)) = function.split_once("::") {
        (from, to) = block(text, from, to, &format!("impl {of} {{"))?;
        name = own;
    }
    block(text, from, to, &format!("fn {name}(")).or_else(|| block(text, from, to, &format!("fn {name}<")))
}

/// The lines from the only one that has that head to the one that closes it.
fn block(text: &str, from: usize, to: usize, head: &str) -> Option<(usize, usize)> {
    let at = from + text[from..to].find(head)?;
    if text[at + 1..to].contains(head) {
        return None;
    }
    let start = text[..at].rfind('\n').map_or(0, |k| k + 1);
    let line = text[start..].lines().next()?;
    if line.ends_with('}') {
        return Some((start, start + line.len()));
    }
    let indent = &line[..line.len() - line.trim_start().len()];
    let end = text[start..to].find(&format!("\n{indent}}}"))?;
    Some((start, start + end))
}

/// Whether the token stands there as a whole, and not in a comment.
fn stands(text: &str, at: usize, token: &str) -> bool {
    if !text[at..].starts_with(token) || text[..at].rsplit('\n').next().unwrap().contains("//") {
        return false;
    }
    let (before, behind) = (&text[..at], &text[at + token.len()..]);
    let word = |c: char| c.is_alphanumeric() || c == '_';
    let operator = |c: char| "<>=!&|+-*/.".contains(c);
    let (first, last) = (token.chars().next().unwrap(), token.chars().last().unwrap());
    let (left, right) = (before.chars().last().unwrap_or(' '), behind.chars().next().unwrap_or(' '));
    if token.chars().all(|c| "<>".contains(c)) {
        return left == ' ' && right == ' ';
    }
    let digit = |c: Option<char>| c.is_some_and(|c| c.is_ascii_digit());
    if first.is_ascii_digit() && left == '.' && digit(before.chars().rev().nth(1)) {
        return false;
    }
    if last.is_ascii_digit() && right == '.' && digit(behind.chars().nth(1)) {
        return false;
    }
    !(word(first) && word(left) || operator(first) && first != '.' && operator(left) || word(last) && word(right) || operator(last) && operator(right))
}
