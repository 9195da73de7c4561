//! A second evaluator of the actor language of document 01: standard input to standard output, as its section
//! "A worked run" says. It keeps no plan: the cycle walks the tree that the reading built. Row 13 goes by the plan's
//! length and is left out. Over each rule stands the sentence of document 01 that it follows.

use std::collections::{BTreeMap, BTreeSet};
use std::io::{Read, Write};

/// A reading refusal: number and place.
type Refusal = (u32, usize);

// ---------------------------------------------------------------------------------------------------------------
// Row 1 and row 2: lengths and bindings
// ---------------------------------------------------------------------------------------------------------------

/// "actor 8,192 bytes; bindings 2,048"
const ACTOR_BYTES: usize = 8192;
const BINDINGS_BYTES: usize = 2048;
/// "Names have at most 31 bytes."
const NAME_BYTES: usize = 31;

const KEYWORDS: [&str; 18] = [
    "input", "output", "reg", "ff", "and", "or", "let", "val", "in", "end", "case", "if", "then", "else", "max", "log",
    "ceil", "floor",
];

struct Bound {
    name: String,
    at: usize,
    value: u64,
}

struct Bindings {
    widths: Vec<Bound>,
    values: Vec<Bound>,
}

/// "Bindings text: a count (0 to 16), that many lines `port width` (0 to 32); a count (0 to 16), that many lines
/// `name value` (0 to 65,535). One blank between, a newline after each line, no leading zeros, no name twice in a
/// section, nothing after." The error is the "first byte at which no right text continues".
fn read_bindings(text: &[u8]) -> Result<Bindings, usize> {
    let mut pos = 0;
    let widths = read_section(text, &mut pos, 32)?;
    let values = read_section(text, &mut pos, 65_535)?;
    if pos < text.len() {
        return Err(pos);
    }
    Ok(Bindings { widths, values })
}

fn read_section(text: &[u8], pos: &mut usize, greatest: u64) -> Result<Vec<Bound>, usize> {
    let count = read_ranged(text, pos, 16)?;
    expect_byte(text, pos, b'\n')?;
    let mut section: Vec<Bound> = Vec::new();
    for _ in 0..count {
        let at = *pos;
        let name = read_bound_name(text, pos, &section)?;
        expect_byte(text, pos, b' ')?;
        let value = read_ranged(text, pos, greatest)?;
        expect_byte(text, pos, b'\n')?;
        section.push(Bound { name, at, value });
    }
    Ok(section)
}

fn expect_byte(text: &[u8], pos: &mut usize, byte: u8) -> Result<(), usize> {
    if text.get(*pos) == Some(&byte) {
        *pos += 1;
        Ok(())
    } else {
        Err(*pos)
    }
}

/// A number from 0 to the greatest without leading zeros. A digit that makes it too great continues no right text.
fn read_ranged(text: &[u8], pos: &mut usize, greatest: u64) -> Result<u64, usize> {
    let start = *pos;
    let mut value: u64 = 0;
    while let Some(digit) = text.get(*pos).filter(|b| b.is_ascii_digit()) {
        let next = value * 10 + u64::from(digit - b'0');
        let leading_zero = *pos > start && value == 0;
        if leading_zero || next > greatest {
            return Err(*pos);
        }
        value = next;
        *pos += 1;
    }
    if *pos == start {
        return Err(*pos);
    }
    Ok(value)
}

/// A name of the bindings. After each byte the name must be one that can still go on to a right line: a name of 31
/// bytes cannot grow, so there a name that is none, or that stands already, fails at its last byte.
fn read_bound_name(text: &[u8], pos: &mut usize, section: &[Bound]) -> Result<String, usize> {
    let start = *pos;
    loop {
        let byte = match text.get(*pos) {
            Some(b) if b.is_ascii_alphabetic() || *b == b'_' => *b,
            Some(b) if b.is_ascii_digit() && *pos > start => *b,
            _ => break,
        };
        let _ = byte;
        let so_far = &text[start..=*pos];
        if so_far.len() > NAME_BYTES {
            return Err(*pos);
        }
        if so_far.len() == NAME_BYTES && !right_name(so_far, section) {
            return Err(*pos);
        }
        *pos += 1;
    }
    if *pos == start || !right_name(&text[start..*pos], section) {
        return Err(*pos);
    }
    Ok(String::from_utf8_lossy(&text[start..*pos]).into_owned())
}

fn right_name(name: &[u8], section: &[Bound]) -> bool {
    is_name(name) && !section.iter().any(|bound| bound.name.as_bytes() == name)
}

/// "A name starts with a letter, or with underscores and later has a letter or digit; `_` alone is the default mark.
/// ... Keywords (...) are no names."
fn is_name(bytes: &[u8]) -> bool {
    bytes.iter().any(|b| b.is_ascii_alphanumeric()) && !KEYWORDS.iter().any(|k| k.as_bytes() == bytes)
}

// ---------------------------------------------------------------------------------------------------------------
// Rows 3 and 4: words
// ---------------------------------------------------------------------------------------------------------------

#[derive(Clone, PartialEq, Debug)]
enum Kind {
    Name(String),
    Key(&'static str),
    Number(u64),
    /// `_` alone
    Default,
    /// `'`, a base and its digits; a value that no 64 bits hold is kept as 2^100
    Digits(u128),
    /// a bare `'d`
    BareD,
    Sign(&'static str),
    /// a word of row 4
    LeftOut,
}

struct Word {
    kind: Kind,
    at: usize,
    bytes: usize,
}

const SIGNS: [&str; 37] = [
    "==", "!=", "<=", ">=", "<<", ">>", "~&", "~|", "~^", "^~", "&&", "||", "=>", "(", ")", "{", "}", "[", "]", "<",
    ">", ",", ";", ":", ".", "=", "+", "-", "*", "/", "%", "&", "|", "^", "~", "!", "?",
];

/// Where a separator at `pos` ends, or none if there is none; an unclosed comment is an error.
/// "Blanks, tabs, bytes 13, line ends (byte 10) and both comment kinds separate words."
fn separator(text: &[u8], pos: usize) -> Result<Option<usize>, usize> {
    match text.get(pos) {
        Some(b' ' | b'\t' | 13 | 10) => Ok(Some(pos + 1)),
        Some(b'/') if text.get(pos + 1) == Some(&b'/') => {
            let mut end = pos;
            while end < text.len() && text[end] != b'\n' {
                end += 1;
            }
            Ok(Some(end))
        }
        Some(b'/') if text.get(pos + 1) == Some(&b'*') => {
            let mut end = pos + 2;
            while end + 1 < text.len() {
                if text[end] == b'*' && text[end + 1] == b'/' {
                    return Ok(Some(end + 2));
                }
                end += 1;
            }
            Err(pos)
        }
        _ => Ok(None),
    }
}

/// "The longest word wins." Row 3: "bad byte, name, number or unclosed comment", at the word.
fn read_words(text: &[u8]) -> Result<Vec<Word>, usize> {
    let mut words = Vec::new();
    let mut pos = 0;
    while pos < text.len() {
        if let Some(end) = separator(text, pos)? {
            pos = end;
            continue;
        }
        let at = pos;
        let byte = text[pos];
        let kind = if byte.is_ascii_alphabetic() || byte == b'_' {
            while pos < text.len() && (text[pos].is_ascii_alphanumeric() || text[pos] == b'_') {
                pos += 1;
            }
            name_word(&text[at..pos]).ok_or(at)?
        } else if byte.is_ascii_digit() {
            while pos < text.len() && text[pos].is_ascii_digit() {
                pos += 1;
            }
            // "Plain numbers are decimal, at most 4,294,967,295."
            let value = saturating_value(&text[at..pos], 10);
            if value > 4_294_967_295 {
                return Err(at);
            }
            Kind::Number(value as u64)
        } else if byte == b'\'' {
            constant_word(text, &mut pos).ok_or(at)?
        } else if matches!(byte, b'@' | b'$' | b'#') {
            pos += 1;
            Kind::LeftOut
        } else {
            // two-byte signs stand first in the list
            let sign = SIGNS.iter().find(|sign| text[pos..].starts_with(sign.as_bytes())).ok_or(at)?;
            pos += sign.len();
            Kind::Sign(sign)
        };
        words.push(Word { kind, at, bytes: pos - at });
    }
    Ok(words)
}

fn name_word(bytes: &[u8]) -> Option<Kind> {
    if bytes == b"_" {
        return Some(Kind::Default);
    }
    if let Some(key) = KEYWORDS.iter().find(|k| k.as_bytes() == bytes) {
        return Some(Kind::Key(key));
    }
    if bytes == b"foreach" || bytes == b"instruction" {
        return Some(Kind::LeftOut);
    }
    if bytes.len() > NAME_BYTES || !is_name(bytes) {
        return None;
    }
    Some(Kind::Name(String::from_utf8_lossy(bytes).into_owned()))
}

fn saturating_value(digits: &[u8], base: u32) -> u128 {
    let mut value: u128 = 0;
    for digit in digits {
        let d = (*digit as char).to_digit(base).expect("a digit of the base");
        value = (value * u128::from(base) + u128::from(d)).min(1 << 100);
    }
    value
}

/// "then one word: `'` and d, o, h or b in either case and digits of that base. After a bare `'d` and a separator an
/// environment name may stand instead; any other `'` is 3."
fn constant_word(text: &[u8], pos: &mut usize) -> Option<Kind> {
    let letter = text.get(*pos + 1)?.to_ascii_lowercase();
    let base = match letter {
        b'd' => 10,
        b'o' => 8,
        b'h' => 16,
        b'b' => 2,
        _ => return None,
    };
    let first = *pos + 2;
    let mut end = first;
    while end < text.len() && (text[end] as char).is_digit(base) {
        end += 1;
    }
    *pos = end;
    if end > first {
        return Some(Kind::Digits(saturating_value(&text[first..end], base)));
    }
    // a bare `'d` before anything but a separator and a name is an "other `'`"
    let mut name = end;
    while let Ok(Some(next)) = separator(text, name) {
        name = next;
    }
    let mut name_end = name;
    while name_end < text.len() && (text[name_end].is_ascii_alphanumeric() || text[name_end] == b'_') {
        name_end += 1;
    }
    let named = name < name_end
        && !text[name].is_ascii_digit()
        && matches!(name_word(&text[name..name_end]), Some(Kind::Name(_)));
    (letter == b'd' && name > end && named).then_some(Kind::BareD)
}

// ---------------------------------------------------------------------------------------------------------------
// The tree
// ---------------------------------------------------------------------------------------------------------------

#[derive(Debug)]
struct Type {
    tree: TypeTree,
    first_word: usize,
    end_word: usize,
}

#[derive(Debug)]
enum TypeTree {
    Number(u64, usize),
    Env(String, usize),
    Port(String, usize),
    Add(Box<TypeTree>, Box<TypeTree>),
    Sub(Box<TypeTree>, Box<TypeTree>),
    Log(Box<TypeTree>, usize),
    Ceil(Box<TypeTree>),
    Floor(Box<TypeTree>),
    Max(Vec<TypeTree>, usize),
}

#[derive(Debug)]
struct Expr {
    at: usize,
    node: Node,
}

#[derive(Debug)]
enum Node {
    Paren(Box<Expr>),
    Number(u64),
    Sized(Width, Value),
    Name(String),
    Read(String, Box<Expr>),
    /// what is indexed, the place of `[`, one or two positions
    Index(Box<Expr>, usize, Type, Option<Type>),
    Unary(&'static str, Box<Expr>),
    Binary(&'static str, Box<Expr>, Box<Expr>),
    /// `if` and `?:`
    Choice(Box<Expr>, Box<Expr>, Box<Expr>),
    Case(Box<Expr>, Vec<(u64, Expr)>, Box<Expr>),
    Join(Vec<Expr>),
    Copies(u64, Box<Expr>),
}

#[derive(Debug)]
enum Width {
    Number(u64),
    Type(Type),
}

#[derive(Debug)]
enum Value {
    Digits(u128),
    Env(String, usize),
}

/// An expression that is part of no other, with its words.
struct Whole {
    expr: Expr,
    first_word: usize,
    end_word: usize,
}

struct Port {
    name: String,
    at: usize,
    output: bool,
    width: Option<Type>,
}

struct Memory {
    name: String,
    at: usize,
    width: Option<Type>,
    size: Option<(u64, usize)>,
}

struct Group {
    at: usize,
    rules: Vec<Rule>,
}

struct Rule {
    at: usize,
    list: Vec<Listed>,
    statements: Vec<Statement>,
}

struct Listed {
    name: String,
    at: usize,
    present: bool,
}

struct Statement {
    lets: Vec<Let>,
    assignments: Vec<Assignment>,
}

struct Let {
    name: String,
    at: usize,
    width: Option<Type>,
    value: Whole,
}

struct Assignment {
    name: String,
    at: usize,
    address: Option<Whole>,
    value: Whole,
}

struct Actor {
    signature: Vec<(String, usize)>,
    ports: Vec<Port>,
    memories: Vec<Memory>,
    groups: Vec<Group>,
}

// ---------------------------------------------------------------------------------------------------------------
// Row 5: the grammar, by recursive descent. Every reader takes a word only if some actor goes on so; the error is
// the place of the "first word that continues no actor", at the end of the text its length.
// ---------------------------------------------------------------------------------------------------------------

struct Reader<'a> {
    words: &'a [Word],
    next: usize,
    end: usize,
    memories: BTreeSet<String>,
}

type Read5<T> = Result<T, usize>;

/// Section 4.10's table, from `||` (lowest) to `*` (highest), "with `==` for `=` and `^~` as `~^`".
const LEVELS: [&[&str]; 9] = [
    &["||"],
    &["&&"],
    &["|", "~|"],
    &["&", "~&", "^", "~^", "^~"],
    &["==", "!="],
    &["<", "<=", ">", ">="],
    &["<<", ">>"],
    &["+", "-"],
    &["*", "/", "%"],
];

const UNARY: [&str; 9] = ["!", "&", "~&", "|", "~|", "^", "~^", "^~", "+"];

impl<'a> Reader<'a> {
    fn peek(&self) -> Option<&'a Kind> {
        self.words.get(self.next).map(|word| &word.kind)
    }

    fn peek_at(&self, ahead: usize) -> Option<&'a Kind> {
        self.words.get(self.next + ahead).map(|word| &word.kind)
    }

    fn place(&self) -> usize {
        self.words.get(self.next).map_or(self.end, |word| word.at)
    }

    fn is_sign(&self, sign: &str) -> bool {
        matches!(self.peek(), Some(Kind::Sign(s)) if *s == sign)
    }

    fn is_key(&self, key: &str) -> bool {
        matches!(self.peek(), Some(Kind::Key(k)) if *k == key)
    }

    fn take_sign(&mut self, sign: &str) -> bool {
        let taken = self.is_sign(sign);
        self.next += usize::from(taken);
        taken
    }

    fn take_key(&mut self, key: &str) -> bool {
        let taken = self.is_key(key);
        self.next += usize::from(taken);
        taken
    }

    fn sign(&mut self, sign: &str) -> Read5<()> {
        if self.take_sign(sign) { Ok(()) } else { Err(self.place()) }
    }

    fn key(&mut self, key: &str) -> Read5<()> {
        if self.take_key(key) { Ok(()) } else { Err(self.place()) }
    }

    fn name(&mut self) -> Read5<(String, usize)> {
        let at = self.place();
        match self.peek() {
            Some(Kind::Name(name)) => {
                self.next += 1;
                Ok((name.clone(), at))
            }
            _ => Err(at),
        }
    }

    /// A word that is a name of just this spelling: `p` and `type` are no keywords.
    fn spelled(&mut self, spelling: &str) -> Read5<()> {
        match self.peek() {
            Some(Kind::Name(name)) if name == spelling => {
                self.next += 1;
                Ok(())
            }
            _ => Err(self.place()),
        }
    }

    /// "Signature, port declarations, memories, then one `or (...)` of rules or one `and (...)` of such `or` groups.
    /// Each group and each port list has at least one entry."
    fn actor(&mut self) -> Read5<Actor> {
        self.name()?;
        self.sign("(")?;
        let mut signature = vec![self.name()?];
        while self.take_sign(",") {
            signature.push(self.name()?);
        }
        self.sign(")")?;
        self.sign("{")?;
        let mut ports = Vec::new();
        loop {
            let output = if self.take_key("input") {
                false
            } else if self.take_key("output") {
                true
            } else if ports.is_empty() {
                return Err(self.place());
            } else {
                break;
            };
            let width = self.bracketed_type()?;
            let (name, at) = self.name()?;
            self.sign(";")?;
            ports.push(Port { name, at, output, width });
        }
        let mut memories = Vec::new();
        while self.take_key("reg") || self.take_key("ff") {
            let width = self.bracketed_type()?;
            let (name, at) = self.name()?;
            let size = self.number();
            self.sign(";")?;
            self.memories.insert(name.clone());
            memories.push(Memory { name, at, width, size });
        }
        let mut groups = Vec::new();
        if self.take_key("and") {
            self.sign("(")?;
            groups.push(self.group()?);
            while !self.is_sign(")") {
                groups.push(self.group()?);
            }
            self.sign(")")?;
        } else {
            groups.push(self.group()?);
        }
        self.sign("}")?;
        if self.next < self.words.len() {
            return Err(self.place());
        }
        Ok(Actor { signature, ports, memories, groups })
    }

    fn number(&mut self) -> Option<(u64, usize)> {
        let at = self.place();
        match self.peek() {
            Some(Kind::Number(value)) => {
                self.next += 1;
                Some((*value, at))
            }
            _ => None,
        }
    }

    fn bracketed_type(&mut self) -> Read5<Option<Type>> {
        if !self.take_sign("<") {
            return Ok(None);
        }
        let read = self.type_()?;
        self.sign(">")?;
        Ok(Some(read))
    }

    fn group(&mut self) -> Read5<Group> {
        let at = self.place();
        self.key("or")?;
        self.sign("(")?;
        let mut rules = vec![self.rule()?];
        while !self.is_sign(")") {
            rules.push(self.rule()?);
        }
        self.sign(")")?;
        Ok(Group { at, rules })
    }

    /// "rules bound by `.p.1` and `.p.0`"
    fn rule(&mut self) -> Read5<Rule> {
        let (_, at) = self.name()?;
        self.sign("(")?;
        let mut list = Vec::new();
        loop {
            let (name, at) = self.name()?;
            self.sign(".")?;
            self.spelled("p")?;
            self.sign(".")?;
            // spelled so: `.p.01` is neither
            let present = match self.words.get(self.next) {
                Some(Word { kind: Kind::Number(0), bytes: 1, .. }) => false,
                Some(Word { kind: Kind::Number(1), bytes: 1, .. }) => true,
                _ => return Err(self.place()),
            };
            self.next += 1;
            list.push(Listed { name, at, present });
            if !self.take_sign(",") {
                break;
            }
        }
        self.sign(")")?;
        self.sign("{")?;
        let mut statements = Vec::new();
        while !self.take_sign("}") {
            statements.push(self.statement()?);
        }
        Ok(Rule { at, list, statements })
    }

    fn statement(&mut self) -> Read5<Statement> {
        let mut lets = Vec::new();
        let mut assignments = Vec::new();
        if self.take_key("let") {
            self.key("val")?;
            loop {
                let width = self.bracketed_type()?;
                let (name, at) = self.name()?;
                self.sign("=")?;
                let value = self.whole()?;
                self.sign(";")?;
                lets.push(Let { name, at, width, value });
                if !self.take_key("val") {
                    break;
                }
            }
            self.key("in")?;
            assignments.push(self.assignment()?);
            while !self.take_key("end") {
                assignments.push(self.assignment()?);
            }
        } else {
            assignments.push(self.assignment()?);
        }
        Ok(Statement { lets, assignments })
    }

    /// "A memory read or written takes an address, also at size 1; without `[` it is 5 at the next word." Left out:
    /// "slices on the left of `=`".
    fn assignment(&mut self) -> Read5<Assignment> {
        let (name, at) = self.name()?;
        let mut address = None;
        if self.memories.contains(&name) {
            self.sign("[")?;
            address = Some(self.whole()?);
            self.sign("]")?;
        }
        self.sign("=")?;
        let value = self.whole()?;
        self.sign(";")?;
        Ok(Assignment { name, at, address, value })
    }

    fn whole(&mut self) -> Read5<Whole> {
        let first_word = self.next;
        let expr = self.expression(false)?;
        Ok(Whole { expr, first_word, end_word: self.next })
    }

    /// A whole expression. `in_arm`: it may end at a `|` before the next arm of a case.
    /// "`if` stands only where a whole expression begins, as between `?` and `:`, and its `else` runs as far as it
    /// can."
    fn expression(&mut self, in_arm: bool) -> Read5<Expr> {
        let at = self.place();
        if self.take_key("if") {
            let condition = self.expression(false)?;
            self.key("then")?;
            let yes = self.expression(false)?;
            self.key("else")?;
            let no = self.expression(in_arm)?;
            return Ok(Expr { at, node: Node::Choice(Box::new(condition), Box::new(yes), Box::new(no)) });
        }
        // "All operators group to the left, `?:` included."
        let mut left = self.level(0, in_arm)?;
        while self.take_sign("?") {
            let yes = self.expression(false)?;
            self.sign(":")?;
            let no = self.level(0, in_arm)?;
            left = Expr { at, node: Node::Choice(Box::new(left), Box::new(yes), Box::new(no)) };
        }
        Ok(left)
    }

    /// Whether the next arm of the case begins here: `|` and then `_`, or a number and `=>`.
    fn at_next_arm(&self) -> bool {
        self.is_sign("|")
            && match self.peek_at(1) {
                Some(Kind::Default) => true,
                Some(Kind::Number(_)) => matches!(self.peek_at(2), Some(Kind::Sign("=>"))),
                _ => false,
            }
    }

    fn level(&mut self, level: usize, in_arm: bool) -> Read5<Expr> {
        if level == LEVELS.len() {
            return self.operand();
        }
        let at = self.place();
        let mut left = self.level(level + 1, in_arm)?;
        loop {
            let sign = match self.peek() {
                Some(Kind::Sign(sign)) if LEVELS[level].contains(sign) => *sign,
                _ => return Ok(left),
            };
            if in_arm && self.at_next_arm() {
                return Ok(left);
            }
            self.next += 1;
            let right = self.level(level + 1, in_arm)?;
            left = Expr { at, node: Node::Binary(sign, Box::new(left), Box::new(right)) };
        }
    }

    fn operand(&mut self) -> Read5<Expr> {
        let at = self.place();
        let node = match self.peek() {
            Some(Kind::Sign(sign)) if UNARY.contains(sign) || *sign == "~" => {
                self.next += 1;
                Node::Unary(sign, Box::new(self.operand()?))
            }
            Some(Kind::Sign("(")) => {
                self.next += 1;
                let inner = self.expression(false)?;
                self.sign(")")?;
                return self.indexed(Expr { at, node: Node::Paren(Box::new(inner)) });
            }
            Some(Kind::Sign("{")) => {
                self.next += 1;
                let mut parts = vec![self.expression(false)?];
                while self.take_sign(",") {
                    parts.push(self.expression(false)?);
                }
                self.sign("}")?;
                Node::Join(parts)
            }
            Some(Kind::Sign("<")) => {
                self.next += 1;
                let width = self.type_()?;
                self.sign(">")?;
                let value = self.constant_value()?;
                Node::Sized(Width::Type(width), value)
            }
            Some(Kind::Number(number)) => {
                self.next += 1;
                if matches!(self.peek(), Some(Kind::Digits(_) | Kind::BareD)) {
                    let value = self.constant_value()?;
                    Node::Sized(Width::Number(*number), value)
                } else if self.take_sign("{") {
                    // "Replication is `n { e }`, not `n(e)`."
                    let copied = self.expression(false)?;
                    self.sign("}")?;
                    Node::Copies(*number, Box::new(copied))
                } else {
                    Node::Number(*number)
                }
            }
            Some(Kind::Name(name)) => {
                self.next += 1;
                // "`name[...]` holds an address expression if the name was declared a memory, else bit positions
                // written as types."
                if self.memories.contains(name) {
                    self.sign("[")?;
                    let address = self.expression(false)?;
                    self.sign("]")?;
                    Node::Read(name.clone(), Box::new(address))
                } else {
                    return self.indexed(Expr { at, node: Node::Name(name.clone()) });
                }
            }
            Some(Kind::Key("case")) => {
                self.next += 1;
                self.case()?
            }
            _ => return Err(at),
        };
        Ok(Expr { at, node })
    }

    /// "A case is `case (e) { n => e | ... | _ => e }`: other arms may be absent"
    fn case(&mut self) -> Read5<Node> {
        self.sign("(")?;
        let chosen = self.expression(false)?;
        self.sign(")")?;
        self.sign("{")?;
        let mut arms = Vec::new();
        while let Some((label, _)) = self.number() {
            self.sign("=>")?;
            arms.push((label, self.expression(true)?));
            self.sign("|")?;
        }
        if self.peek() != Some(&Kind::Default) {
            return Err(self.place());
        }
        self.next += 1;
        self.sign("=>")?;
        let other = self.expression(false)?;
        self.sign("}")?;
        Ok(Node::Case(Box::new(chosen), arms, Box::new(other)))
    }

    fn constant_value(&mut self) -> Read5<Value> {
        match self.peek() {
            Some(Kind::Digits(value)) => {
                self.next += 1;
                Ok(Value::Digits(*value))
            }
            Some(Kind::BareD) => {
                self.next += 1;
                let (name, at) = self.name()?;
                Ok(Value::Env(name, at))
            }
            _ => Err(self.place()),
        }
    }

    fn indexed(&mut self, whole: Expr) -> Read5<Expr> {
        let bracket = self.place();
        if !self.take_sign("[") {
            return Ok(whole);
        }
        let high = self.type_()?;
        let low = if self.take_sign(":") { Some(self.type_()?) } else { None };
        self.sign("]")?;
        Ok(Expr { at: whole.at, node: Node::Index(Box::new(whole), bracket, high, low) })
    }

    fn type_(&mut self) -> Read5<Type> {
        let first_word = self.next;
        let tree = self.type_sum()?;
        Ok(Type { tree, first_word, end_word: self.next })
    }

    /// "A type is built from numbers and environment names (0 to 65,535), `port.type`, `+`, `-`, `log`, `ceil`,
    /// `floor`, `max`." "Row 5 takes `max` anywhere in a type."
    fn type_sum(&mut self) -> Read5<TypeTree> {
        let mut left = self.type_term()?;
        loop {
            if self.take_sign("+") {
                left = TypeTree::Add(Box::new(left), Box::new(self.type_term()?));
            } else if self.take_sign("-") {
                left = TypeTree::Sub(Box::new(left), Box::new(self.type_term()?));
            } else {
                return Ok(left);
            }
        }
    }

    fn type_term(&mut self) -> Read5<TypeTree> {
        let at = self.place();
        match self.peek() {
            Some(Kind::Number(value)) => {
                self.next += 1;
                Ok(TypeTree::Number(*value, at))
            }
            Some(Kind::Name(name)) => {
                self.next += 1;
                if self.take_sign(".") {
                    self.spelled("type")?;
                    Ok(TypeTree::Port(name.clone(), at))
                } else {
                    Ok(TypeTree::Env(name.clone(), at))
                }
            }
            Some(Kind::Sign("(")) => {
                self.next += 1;
                let inner = self.type_sum()?;
                self.sign(")")?;
                Ok(inner)
            }
            Some(Kind::Key(key @ ("log" | "ceil" | "floor"))) => {
                self.next += 1;
                self.sign("(")?;
                let inner = Box::new(self.type_sum()?);
                self.sign(")")?;
                Ok(match *key {
                    "log" => TypeTree::Log(inner, at),
                    "ceil" => TypeTree::Ceil(inner),
                    _ => TypeTree::Floor(inner),
                })
            }
            Some(Kind::Key("max")) => {
                self.next += 1;
                self.sign("(")?;
                let mut entries = vec![self.type_sum()?];
                while self.take_sign(",") {
                    entries.push(self.type_sum()?);
                }
                self.sign(")")?;
                Ok(TypeTree::Max(entries, at))
            }
            _ => Err(at),
        }
    }
}

// ---------------------------------------------------------------------------------------------------------------
// Walks
// ---------------------------------------------------------------------------------------------------------------

enum Item<'a> {
    /// an input or let that is read
    Read(&'a str, usize),
    /// an environment name after `'d`
    Env(&'a str, usize),
    Type(&'a Type),
    Copies(u64, usize),
}

fn walk<'a>(expr: &'a Expr, visit: &mut dyn FnMut(Item<'a>)) {
    match &expr.node {
        Node::Number(_) => {}
        Node::Name(name) => visit(Item::Read(name, expr.at)),
        Node::Sized(width, value) => {
            if let Width::Type(width) = width {
                visit(Item::Type(width));
            }
            if let Value::Env(name, at) = value {
                visit(Item::Env(name, *at));
            }
        }
        Node::Paren(a) | Node::Unary(_, a) | Node::Read(_, a) => walk(a, visit),
        Node::Index(a, _, high, low) => {
            walk(a, visit);
            visit(Item::Type(high));
            if let Some(low) = low {
                visit(Item::Type(low));
            }
        }
        Node::Binary(_, a, b) => {
            walk(a, visit);
            walk(b, visit);
        }
        Node::Choice(a, b, c) => {
            walk(a, visit);
            walk(b, visit);
            walk(c, visit);
        }
        Node::Case(chosen, arms, other) => {
            walk(chosen, visit);
            for (_, arm) in arms {
                walk(arm, visit);
            }
            walk(other, visit);
        }
        Node::Join(parts) => {
            for part in parts {
                walk(part, visit);
            }
        }
        Node::Copies(number, a) => {
            visit(Item::Copies(*number, expr.at));
            walk(a, visit);
        }
    }
}

/// Environment names (false) and ports' names (true) of a type.
fn walk_type<'a>(tree: &'a TypeTree, visit: &mut dyn FnMut(bool, &'a str, usize)) {
    match tree {
        TypeTree::Number(..) => {}
        TypeTree::Env(name, at) => visit(false, name, *at),
        TypeTree::Port(name, at) => visit(true, name, *at),
        TypeTree::Add(a, b) | TypeTree::Sub(a, b) => {
            walk_type(a, visit);
            walk_type(b, visit);
        }
        TypeTree::Log(a, _) | TypeTree::Ceil(a) | TypeTree::Floor(a) => walk_type(a, visit),
        TypeTree::Max(entries, _) => {
            for entry in entries {
                walk_type(entry, visit);
            }
        }
    }
}

impl Rule {
    /// Every outermost expression of the rule.
    fn wholes(&self) -> Vec<&Whole> {
        let mut all = Vec::new();
        for statement in &self.statements {
            for one in &statement.lets {
                all.push(&one.value);
            }
            for one in &statement.assignments {
                all.extend(one.address.as_ref());
                all.push(&one.value);
            }
        }
        all
    }
}

impl Actor {
    fn rules(&self) -> impl Iterator<Item = &Rule> {
        self.groups.iter().flat_map(|group| group.rules.iter())
    }

    fn port(&self, name: &str) -> Option<&Port> {
        self.ports.iter().find(|port| port.name == name)
    }

    fn memory(&self, name: &str) -> Option<usize> {
        self.memories.iter().position(|memory| memory.name == name)
    }

    /// Every type of the actor: declared ones, those of `let`s, constants and bit positions.
    fn types(&self) -> Vec<&Type> {
        let mut all: Vec<&Type> = Vec::new();
        all.extend(self.ports.iter().filter_map(|port| port.width.as_ref()));
        all.extend(self.memories.iter().filter_map(|memory| memory.width.as_ref()));
        for rule in self.rules() {
            for statement in &rule.statements {
                all.extend(statement.lets.iter().filter_map(|one| one.width.as_ref()));
            }
            for whole in rule.wholes() {
                walk(&whole.expr, &mut |item| {
                    if let Item::Type(one) = item {
                        all.push(one);
                    }
                });
            }
        }
        all
    }

    /// Every bare name in a type or after `'d`, with its place.
    fn env_names(&self) -> Vec<(&str, usize)> {
        let mut all = Vec::new();
        for one in self.types() {
            walk_type(&one.tree, &mut |is_port, name, at| {
                if !is_port {
                    all.push((name, at));
                }
            });
        }
        for rule in self.rules() {
            for whole in rule.wholes() {
                walk(&whole.expr, &mut |item| {
                    if let Item::Env(name, at) = item {
                        all.push((name, at));
                    }
                });
            }
        }
        all
    }
}

// ---------------------------------------------------------------------------------------------------------------
// Row 6: names
// ---------------------------------------------------------------------------------------------------------------

/// "name unknown, declared twice, signature and declarations differ, wrong kind, output read, port twice in a list"
fn row6(actor: &Actor) -> Vec<usize> {
    let mut faults = Vec::new();
    // signature and declarations
    let mut listed = BTreeSet::new();
    for (name, at) in &actor.signature {
        if !listed.insert(name) || actor.port(name).is_none() {
            faults.push(*at);
        }
    }
    let mut declared = BTreeSet::new();
    for port in &actor.ports {
        if !declared.insert(&port.name) || !listed.contains(&port.name) {
            faults.push(port.at);
        }
    }
    for memory in &actor.memories {
        if !declared.insert(&memory.name) {
            faults.push(memory.at);
        }
    }
    // "In a type or after `'d` a bare name is an environment name; a port's or memory's there is of the wrong kind."
    for (name, at) in actor.env_names() {
        if declared.iter().any(|one| *one == name) {
            faults.push(at);
        }
    }
    // "types refer to ports, never to memories"
    for one in actor.types() {
        walk_type(&one.tree, &mut |is_port, name, at| {
            if is_port && actor.port(name).is_none() {
                faults.push(at);
            }
        });
    }
    for rule in actor.rules() {
        let mut in_list = BTreeSet::new();
        for one in &rule.list {
            if actor.port(&one.name).is_none() || !in_list.insert(&one.name) {
                faults.push(one.at);
            }
        }
        for statement in &rule.statements {
            // "A `let` name lasts to its `end` and may come again in another statement, but not the name of a port
            // or memory."
            let mut lets: BTreeSet<&str> = BTreeSet::new();
            for one in &statement.lets {
                row6_reads(actor, &lets, &one.value.expr, &mut faults);
                if declared.contains(&one.name) || !lets.insert(&one.name) {
                    faults.push(one.at);
                }
            }
            for one in &statement.assignments {
                if let Some(address) = &one.address {
                    row6_reads(actor, &lets, &address.expr, &mut faults);
                } else if !actor.port(&one.name).is_some_and(|port| port.output) {
                    faults.push(one.at);
                }
                row6_reads(actor, &lets, &one.value.expr, &mut faults);
            }
        }
    }
    faults
}

fn row6_reads(actor: &Actor, lets: &BTreeSet<&str>, expr: &Expr, faults: &mut Vec<usize>) {
    walk(expr, &mut |item| {
        if let Item::Read(name, at) = item {
            let input = actor.port(name).is_some_and(|port| !port.output);
            if !input && !lets.contains(name) {
                faults.push(at);
            }
        }
    });
}

// ---------------------------------------------------------------------------------------------------------------
// Row 7: limits
// ---------------------------------------------------------------------------------------------------------------

/// "ports 16; ... memories 8; memory size 1 to 256, 256 cells in all; groups 8; rules 32; `val`s 16 in a rule; type
/// 64 words; expression 256 words; replication 64". "first word too many"; "Row 7 marks a bad size or replication
/// number, an `or`, else a name or the next word."
fn row7(actor: &Actor, words: &[Word]) -> Vec<usize> {
    let mut faults = Vec::new();
    faults.extend(actor.signature.get(16).map(|(_, at)| *at));
    faults.extend(actor.memories.get(8).map(|memory| memory.at));
    let mut cells = 0;
    for memory in &actor.memories {
        let (size, at) = memory.size.unwrap_or((1, memory.at));
        cells += size;
        if size < 1 || size > 256 || cells > 256 {
            faults.push(at);
        }
    }
    faults.extend(actor.groups.get(8).map(|group| group.at));
    faults.extend(actor.rules().nth(32).map(|rule| rule.at));
    for rule in actor.rules() {
        faults.extend(rule.statements.iter().flat_map(|one| one.lets.iter()).nth(16).map(|one| one.at));
        for whole in rule.wholes() {
            if whole.end_word - whole.first_word > 256 {
                faults.push(words[whole.first_word + 256].at);
            }
            walk(&whole.expr, &mut |item| {
                if let Item::Copies(number, at) = item {
                    if number > 64 {
                        faults.push(at);
                    }
                }
            });
        }
    }
    for one in actor.types() {
        if one.end_word - one.first_word > 64 {
            faults.push(words[one.first_word + 64].at);
        }
    }
    faults
}

// ---------------------------------------------------------------------------------------------------------------
// Row 8: type rules
// ---------------------------------------------------------------------------------------------------------------

#[derive(Clone, Copy)]
struct Standing {
    /// a `max` may stand here
    max: bool,
    /// in the right operand of a `-`
    after_minus: bool,
    /// in a log's argument, outside `floor` and `ceil`
    in_log: bool,
}

fn row8(actor: &Actor) -> Vec<usize> {
    let mut faults = Vec::new();
    for one in actor.types() {
        let mut logs = 0;
        row8_type(&one.tree, Standing { max: true, after_minus: false, in_log: false }, &mut logs, &mut faults);
    }
    faults
}

fn row8_type(tree: &TypeTree, standing: Standing, logs: &mut usize, faults: &mut Vec<usize>) {
    match tree {
        // "number over 65,535 in a type"
        TypeTree::Number(value, at) => {
            if *value > 65_535 {
                faults.push(*at);
            }
        }
        TypeTree::Env(..) => {}
        // "After `-`, that is in its right operand, no port's type may stand."
        TypeTree::Port(_, at) => {
            if standing.after_minus {
                faults.push(*at);
            }
        }
        TypeTree::Add(a, b) => {
            row8_type(a, standing, logs, faults);
            row8_type(b, standing, logs, faults);
        }
        TypeTree::Sub(a, b) => {
            row8_type(a, standing, logs, faults);
            row8_type(b, Standing { max: false, after_minus: true, ..standing }, logs, faults);
        }
        // "A log's argument holds no log outside `floor` and `ceil`. At most two logs stand together within one
        // `floor`, one `ceil`, or the type outside them."
        TypeTree::Log(a, at) => {
            *logs += 1;
            if standing.in_log || *logs > 2 {
                faults.push(*at);
            }
            row8_type(a, Standing { max: false, in_log: true, ..standing }, logs, faults);
        }
        TypeTree::Ceil(a) | TypeTree::Floor(a) => {
            row8_type(a, Standing { max: false, in_log: false, ..standing }, &mut 0, faults);
        }
        // "It stands first, or after `+`, at the top of a type or in parentheses that stand so; never after `-` nor
        // inside `log`, `ceil`, `floor` or another `max`."
        TypeTree::Max(entries, at) => {
            if !standing.max {
                faults.push(*at);
            }
            for entry in entries {
                row8_type(entry, Standing { max: false, ..standing }, logs, faults);
            }
        }
    }
}

// ---------------------------------------------------------------------------------------------------------------
// Row 9: bindings and the actor
// ---------------------------------------------------------------------------------------------------------------

/// "binding that names no port, or no environment name, of the actor (first); port or memory with neither type nor
/// binding; environment name without value"; "the name (port: as declared)"
fn row9(actor: &Actor, bindings: &Bindings) -> Option<usize> {
    let env_names = actor.env_names();
    let mut faults = Vec::new();
    for bound in &bindings.widths {
        if actor.port(&bound.name).is_none() {
            faults.push(bound.at);
        }
    }
    for bound in &bindings.values {
        if !env_names.iter().any(|(name, _)| *name == bound.name) {
            faults.push(bound.at);
        }
    }
    if let Some(first) = faults.iter().min() {
        return Some(*first);
    }
    for port in &actor.ports {
        if port.width.is_none() && !bindings.widths.iter().any(|bound| bound.name == port.name) {
            faults.push(port.at);
        }
    }
    for memory in &actor.memories {
        if memory.width.is_none() {
            faults.push(memory.at);
        }
    }
    for (name, at) in env_names {
        if !bindings.values.iter().any(|bound| bound.name == name) {
            faults.push(at);
        }
    }
    faults.into_iter().min()
}

// ---------------------------------------------------------------------------------------------------------------
// Row 10: widths
// ---------------------------------------------------------------------------------------------------------------

/// A type's value before it is floored: k + log2(a / b).
/// "let the terms without a log come to k, the arguments of the added logs multiply to A and those of the subtracted
/// ones to B, an argument below 2 counting as 2 and no log as 1"
#[derive(Clone, Debug)]
struct Sum {
    k: i128,
    a: Big,
    b: Big,
}

/// A natural number, lowest 32 bits first, no zero at the top.
#[derive(Clone, PartialEq, Eq, Debug)]
struct Big(Vec<u32>);

impl Big {
    fn from(mut value: u128) -> Big {
        let mut digits = Vec::new();
        while value > 0 {
            digits.push(value as u32);
            value >>= 32;
        }
        Big(digits)
    }

    fn times(&self, other: &Big) -> Big {
        let mut digits = vec![0u32; self.0.len() + other.0.len()];
        for (i, x) in self.0.iter().enumerate() {
            let mut carry: u64 = 0;
            for (j, y) in other.0.iter().enumerate() {
                let sum = u64::from(digits[i + j]) + u64::from(*x) * u64::from(*y) + carry;
                digits[i + j] = sum as u32;
                carry = sum >> 32;
            }
            digits[i + other.0.len()] = carry as u32;
        }
        while digits.last() == Some(&0) {
            digits.pop();
        }
        Big(digits)
    }

    fn shifted(&self, bits: usize) -> Big {
        let mut digits = vec![0u32; bits / 32];
        let mut carry = 0u64;
        for x in &self.0 {
            let moved = (u64::from(*x) << (bits % 32)) | carry;
            digits.push(moved as u32);
            carry = moved >> 32;
        }
        if carry > 0 {
            digits.push(carry as u32);
        }
        Big(digits)
    }

    fn at_least(&self, other: &Big) -> bool {
        if self.0.len() != other.0.len() {
            return self.0.len() > other.0.len();
        }
        self.0.iter().rev().ge(other.0.iter().rev())
    }

    fn bits(&self) -> i128 {
        match self.0.last() {
            None => 0,
            Some(top) => self.0.len() as i128 * 32 - i128::from(top.leading_zeros()),
        }
    }
}

/// 2^p times x is at least 2^q times y, "both exponents raised alike where one is negative".
fn at_least(p: i128, x: &Big, q: i128, y: &Big) -> bool {
    // far apart, the bits decide
    if p + x.bits() > q + y.bits() {
        return true;
    }
    if p + x.bits() < q + y.bits() {
        return false;
    }
    let low = p.min(q);
    x.shifted((p - low) as usize).at_least(&y.shifted((q - low) as usize))
}

impl Sum {
    fn whole(k: i128) -> Sum {
        Sum { k, a: Big::from(1), b: Big::from(1) }
    }

    fn reaches(&self, other: &Sum) -> bool {
        at_least(self.k, &self.a.times(&other.b), other.k, &other.a.times(&self.b))
    }

    /// "The value is at least w exactly when 2^k times A is at least 2^w times B"
    fn floor(&self) -> i128 {
        let mut w = self.k + self.a.bits() - self.b.bits() + 2;
        while !at_least(self.k, &self.a, w, &self.b) {
            w -= 1;
        }
        w
    }

    /// "and at most w likewise"
    fn ceil(&self) -> i128 {
        let mut w = self.k + self.a.bits() - self.b.bits() - 2;
        while !at_least(w, &self.b, self.k, &self.a) {
            w += 1;
        }
        w
    }
}

struct Widths {
    ports: BTreeMap<String, u64>,
    memories: Vec<u64>,
    env: BTreeMap<String, u64>,
}

impl Widths {
    fn sum(&self, tree: &TypeTree) -> Sum {
        match tree {
            TypeTree::Number(value, _) => Sum::whole(i128::from(*value)),
            TypeTree::Env(name, _) => Sum::whole(i128::from(self.env[name])),
            TypeTree::Port(name, _) => Sum::whole(i128::from(self.ports[name])),
            TypeTree::Add(x, y) => {
                let (x, y) = (self.sum(x), self.sum(y));
                Sum { k: x.k + y.k, a: x.a.times(&y.a), b: x.b.times(&y.b) }
            }
            TypeTree::Sub(x, y) => {
                let (x, y) = (self.sum(x), self.sum(y));
                Sum { k: x.k - y.k, a: x.a.times(&y.b), b: x.b.times(&y.a) }
            }
            // "`log(n)` is 1 below 2, otherwise the exact base-2 logarithm, unrounded."
            TypeTree::Log(x, _) => {
                let argument = self.sum(x);
                assert!(argument.a == Big::from(1) && argument.b == Big::from(1), "a whole argument");
                Sum { k: 0, a: Big::from(argument.k.max(2) as u128), b: Big::from(1) }
            }
            TypeTree::Ceil(x) => Sum::whole(self.sum(x).ceil()),
            TypeTree::Floor(x) => Sum::whole(self.sum(x).floor()),
            // "a `max` is its greatest entry in its place"
            TypeTree::Max(entries, _) => {
                let mut greatest = self.sum(&entries[0]);
                for entry in &entries[1..] {
                    let one = self.sum(entry);
                    if one.reaches(&greatest) {
                        greatest = one;
                    }
                }
                greatest
            }
        }
    }

    /// "A type's value is floored at the end."
    fn value(&self, one: &Type) -> i128 {
        self.sum(&one.tree).floor()
    }

    /// "A declared or constant's width below zero is 0."
    fn width(&self, one: &Type) -> u64 {
        self.value(one).max(0) as u64
    }
}

/// "A bound width overrides a declared type. ... Widths are found for all ports and memories together, each to equal
/// its type's value: refusal 10 exactly when no widths from 0 to 32 satisfy every type; otherwise the least ones are
/// taken." No port's type stands after `-`, so values grow with widths: from 0 upward the first that stand are the
/// least.
fn row10(actor: &Actor, bindings: &Bindings) -> Option<Widths> {
    let mut widths = Widths {
        ports: actor.ports.iter().map(|port| (port.name.clone(), 0)).collect(),
        memories: vec![0; actor.memories.len()],
        env: bindings.values.iter().map(|bound| (bound.name.clone(), bound.value)).collect(),
    };
    for bound in &bindings.widths {
        widths.ports.insert(bound.name.clone(), bound.value);
    }
    loop {
        let mut next = widths.ports.clone();
        for port in &actor.ports {
            if bindings.widths.iter().any(|bound| bound.name == port.name) {
                continue;
            }
            next.insert(port.name.clone(), widths.width(port.width.as_ref().expect("row 9")));
        }
        let memories: Vec<u64> =
            actor.memories.iter().map(|memory| widths.width(memory.width.as_ref().expect("row 9"))).collect();
        if next.values().chain(memories.iter()).any(|width| *width > 32) {
            return None;
        }
        if next == widths.ports && memories == widths.memories {
            return Some(widths);
        }
        widths.ports = next;
        widths.memories = memories;
    }
}

// ---------------------------------------------------------------------------------------------------------------
// Row 11: widths of expressions
// ---------------------------------------------------------------------------------------------------------------

struct Checker<'a> {
    actor: &'a Actor,
    widths: &'a Widths,
    /// of each `let` name in reach, none if its value has a fault
    lets: BTreeMap<String, Option<u64>>,
    faults: Vec<usize>,
}

/// "Unsized constant: the fewest bits that hold it, at least 1."
fn fewest_bits(value: u128) -> u64 {
    u64::from(128 - value.leading_zeros()).max(1)
}

impl Checker<'_> {
    /// "An expression with a fault inside has no width and no further fault, nor has what uses such a `let`."
    fn width(&mut self, expr: &Expr) -> Option<u64> {
        let width = match &expr.node {
            Node::Paren(a) => return self.width(a),
            Node::Number(value) => fewest_bits(u128::from(*value)),
            Node::Sized(width, value) => {
                let width = sized_width(self.widths, width);
                let value = sized_value(self.widths, value);
                if width <= 64 && value >> width != 0 {
                    self.faults.push(expr.at);
                    return None;
                }
                width
            }
            Node::Name(name) => match self.lets.get(name) {
                Some(width) => (*width)?,
                None => self.widths.ports[name],
            },
            Node::Read(name, address) => {
                self.width(address)?;
                self.widths.memories[self.actor.memory(name).expect("row 5")]
            }
            // "A bit position below zero is a bit outside."
            Node::Index(a, bracket, high, low) => {
                let width = i128::from(self.width(a)?);
                let i = self.widths.value(high);
                let j = low.as_ref().map_or(i, |low| self.widths.value(low));
                if i < 0 || j < 0 || i >= width || j >= width {
                    self.faults.push(*bracket);
                    return None;
                }
                ((i - j).abs() + 1) as u64
            }
            Node::Unary(sign, a) => {
                let width = self.width(a)?;
                if matches!(*sign, "~" | "+") { width } else { 1 }
            }
            Node::Binary(sign, a, b) => {
                let (a, b) = (self.width(a), self.width(b));
                binary_width(sign, a?, b?)
            }
            Node::Choice(a, b, c) => {
                let (a, b, c) = (self.width(a), self.width(b), self.width(c));
                a?;
                b?.max(c?)
            }
            Node::Case(chosen, arms, other) => {
                let mut all = vec![self.width(chosen).map(|_| 0)];
                for (_, arm) in arms {
                    all.push(self.width(arm));
                }
                all.push(self.width(other));
                all.into_iter().collect::<Option<Vec<u64>>>()?.into_iter().max().unwrap_or(0)
            }
            Node::Join(parts) => {
                let all: Vec<Option<u64>> = parts.iter().map(|part| self.width(part)).collect();
                all.into_iter().sum::<Option<u64>>()?
            }
            Node::Copies(number, a) => self.width(a)? * number,
        };
        // "expression over 64 wide", at the "smallest expression"
        if width > 64 {
            self.faults.push(expr.at);
            return None;
        }
        Some(width)
    }

    /// "A value narrower than its target is filled with zeros; a wider one is refused."
    fn fits(&mut self, whole: &Whole, target: u64) -> bool {
        match self.width(&whole.expr) {
            None => false,
            Some(width) if width > target => {
                self.faults.push(whole.expr.at);
                false
            }
            Some(_) => true,
        }
    }
}

fn sized_width(widths: &Widths, width: &Width) -> u64 {
    match width {
        Width::Number(number) => *number,
        Width::Type(one) => widths.width(one),
    }
}

fn sized_value(widths: &Widths, value: &Value) -> u128 {
    match value {
        Value::Digits(value) => *value,
        Value::Env(name, _) => u128::from(widths.env[name]),
    }
}

fn binary_width(sign: &str, a: u64, b: u64) -> u64 {
    match sign {
        // "`+ -`: wider operand's width"; "Bitwise: wider width"
        "+" | "-" | "&" | "|" | "^" | "~&" | "~|" | "~^" | "^~" => a.max(b),
        // "`*`: widths added."
        "*" => a + b,
        // "`/ %`: left width"; "Shifts keep the left width"
        "/" | "%" | "<<" | ">>" => a,
        // "Comparisons, `! && ||` and reductions: one bit"
        _ => 1,
    }
}

fn row11(actor: &Actor, widths: &Widths) -> Vec<usize> {
    let mut checker = Checker { actor, widths, lets: BTreeMap::new(), faults: Vec::new() };
    for rule in actor.rules() {
        for statement in &rule.statements {
            checker.lets.clear();
            for one in &statement.lets {
                let width = match &one.width {
                    None => checker.width(&one.value.expr),
                    // "A `let`'s type, 64 at most (else 11 at its name), is its target."
                    Some(declared) => {
                        let target = widths.width(declared);
                        if target > 64 {
                            checker.faults.push(one.at);
                        }
                        let fits = checker.fits(&one.value, target);
                        if fits && target <= 64 { Some(target) } else { None }
                    }
                };
                checker.lets.insert(one.name.clone(), width);
            }
            for one in &statement.assignments {
                let target = match &one.address {
                    Some(address) => {
                        checker.width(&address.expr);
                        widths.memories[actor.memory(&one.name).expect("row 5")]
                    }
                    None => widths.ports[&one.name],
                };
                checker.fits(&one.value, target);
            }
        }
    }
    checker.faults
}

// ---------------------------------------------------------------------------------------------------------------
// Row 12: presence and assignments
// ---------------------------------------------------------------------------------------------------------------

/// "input read or output assigned without `.p.1` in the rule; output assigned twice in a rule or in two groups"
fn row12(actor: &Actor) -> Vec<usize> {
    let mut faults = Vec::new();
    let mut assigned_before: BTreeSet<&str> = BTreeSet::new();
    for group in &actor.groups {
        let mut assigned_in_group: BTreeSet<&str> = BTreeSet::new();
        for rule in &group.rules {
            let present = |name: &str| rule.list.iter().any(|one| one.name == name && one.present);
            for whole in rule.wholes() {
                walk(&whole.expr, &mut |item| {
                    if let Item::Read(name, at) = item {
                        // a `let` has no port's name
                        if actor.port(name).is_some() && !present(name) {
                            faults.push(at);
                        }
                    }
                });
            }
            let mut assigned_in_rule: BTreeSet<&str> = BTreeSet::new();
            for one in rule.statements.iter().flat_map(|statement| statement.assignments.iter()) {
                if one.address.is_some() {
                    continue;
                }
                let again = !assigned_in_rule.insert(&one.name);
                if again || !present(&one.name) || assigned_before.contains(one.name.as_str()) {
                    faults.push(one.at);
                }
                assigned_in_group.insert(&one.name);
            }
        }
        assigned_before.extend(assigned_in_group);
    }
    faults
}

// ---------------------------------------------------------------------------------------------------------------
// Reading: "Each row covers its whole text before the next; within one the earliest place decides."
// ---------------------------------------------------------------------------------------------------------------

fn read(actor_text: &[u8], bindings_text: &[u8]) -> Result<(Actor, Widths), Refusal> {
    if actor_text.len() > ACTOR_BYTES {
        return Err((1, ACTOR_BYTES));
    }
    if bindings_text.len() > BINDINGS_BYTES {
        return Err((1, BINDINGS_BYTES));
    }
    let bindings = read_bindings(bindings_text).map_err(|at| (2, at))?;
    let words = read_words(actor_text).map_err(|at| (3, at))?;
    if let Some(word) = words.iter().find(|word| word.kind == Kind::LeftOut) {
        return Err((4, word.at));
    }
    let mut reader = Reader { words: &words, next: 0, end: actor_text.len(), memories: BTreeSet::new() };
    let actor = reader.actor().map_err(|at| (5, at))?;
    let earliest = |row: u32, faults: Vec<usize>| match faults.into_iter().min() {
        Some(at) => Err((row, at)),
        None => Ok(()),
    };
    earliest(6, row6(&actor))?;
    earliest(7, row7(&actor, &words))?;
    earliest(8, row8(&actor))?;
    if let Some(at) = row9(&actor, &bindings) {
        return Err((9, at));
    }
    let widths = row10(&actor, &bindings).ok_or((10, 0))?;
    earliest(11, row11(&actor, &widths))?;
    earliest(12, row12(&actor))?;
    Ok((actor, widths))
}

// ---------------------------------------------------------------------------------------------------------------
// The cycle
// ---------------------------------------------------------------------------------------------------------------

/// A value with its width.
#[derive(Clone, Copy)]
struct Bits {
    value: u128,
    width: u64,
}

fn ones(width: u64) -> u128 {
    (1u128 << width) - 1
}

struct Moment<'a> {
    actor: &'a Actor,
    widths: &'a Widths,
    inputs: &'a BTreeMap<String, u128>,
    cells: &'a [Vec<u128>],
    lets: BTreeMap<String, Bits>,
}

impl Moment<'_> {
    fn value(&self, expr: &Expr) -> Bits {
        match &expr.node {
            Node::Paren(a) => self.value(a),
            Node::Number(value) => Bits { value: u128::from(*value), width: fewest_bits(u128::from(*value)) },
            Node::Sized(width, value) => {
                Bits { value: sized_value(self.widths, value), width: sized_width(self.widths, width) }
            }
            Node::Name(name) => match self.lets.get(name) {
                Some(bits) => *bits,
                None => Bits { value: self.inputs[name], width: self.widths.ports[name] },
            },
            // "All reads see memory as it was before the cycle." "A read at an address past a memory gives 0"
            Node::Read(name, address) => {
                let address = self.value(address).value;
                let index = self.actor.memory(name).expect("row 5");
                let cells = &self.cells[index];
                let value = if address < cells.len() as u128 { cells[address as usize] } else { 0 };
                Bits { value, width: self.widths.memories[index] }
            }
            // "`[i:j]` takes bits i down to j, and with i less than j the same bits reversed."
            Node::Index(a, _, high, low) => {
                let a = self.value(a).value;
                let i = self.widths.value(high);
                let j = low.as_ref().map_or(i, |low| self.widths.value(low));
                let mut value = 0;
                let mut bit = i;
                loop {
                    value = value << 1 | (a >> bit & 1);
                    if bit == j {
                        break;
                    }
                    bit += if i > j { -1 } else { 1 };
                }
                Bits { value, width: ((i - j).abs() + 1) as u64 }
            }
            Node::Unary(sign, a) => unary(sign, self.value(a)),
            Node::Binary(sign, a, b) => binary(sign, self.value(a), self.value(b)),
            // "`case`, `if`, `?:`: the widest arm."
            Node::Choice(a, b, c) => {
                let (a, b, c) = (self.value(a), self.value(b), self.value(c));
                let chosen = if a.value != 0 { b } else { c };
                Bits { value: chosen.value, width: b.width.max(c.width) }
            }
            // "first equal label wins"
            Node::Case(chosen, arms, other) => {
                let chosen = self.value(chosen).value;
                let other = self.value(other);
                let mut taken = None;
                let mut width = other.width;
                for (label, arm) in arms {
                    let arm = self.value(arm);
                    width = width.max(arm.width);
                    if taken.is_none() && chosen == u128::from(*label) {
                        taken = Some(arm.value);
                    }
                }
                Bits { value: taken.unwrap_or(other.value), width }
            }
            // "`{a, b}`: a above b."
            Node::Join(parts) => {
                let mut all = Bits { value: 0, width: 0 };
                for part in parts {
                    let part = self.value(part);
                    all = Bits { value: all.value << part.width | part.value, width: all.width + part.width };
                }
                all
            }
            // "Replication by 0 has width 0."
            Node::Copies(number, a) => {
                let a = self.value(a);
                let mut all = Bits { value: 0, width: 0 };
                for _ in 0..*number {
                    all = Bits { value: all.value << a.width | a.value, width: all.width + a.width };
                }
                all
            }
        }
    }
}

fn truth(value: bool) -> Bits {
    Bits { value: u128::from(value), width: 1 }
}

/// "Reductions of width 0: `&` 1, `|` 0, `^` 0, and the negated ones the opposite."
fn unary(sign: &str, a: Bits) -> Bits {
    let odd = a.value.count_ones() % 2 == 1;
    match sign {
        "+" => a,
        "~" => Bits { value: !a.value & ones(a.width), width: a.width },
        "!" => truth(a.value == 0),
        "&" => truth(a.value == ones(a.width)),
        "~&" => truth(a.value != ones(a.width)),
        "|" => truth(a.value != 0),
        "~|" => truth(a.value == 0),
        "^" => truth(odd),
        "~^" | "^~" => truth(!odd),
        _ => unreachable!("{sign}"),
    }
}

fn binary(sign: &str, a: Bits, b: Bits) -> Bits {
    let width = binary_width(sign, a.width, b.width);
    let (x, y) = (a.value, b.value);
    let value = match sign {
        // "wrapping on purpose at that width"
        "+" => x.wrapping_add(y) & ones(width),
        "-" => x.wrapping_sub(y) & ones(width),
        "*" => x * y,
        // "by zero, the quotient is all ones and the remainder is the left operand"
        "/" => if y == 0 { ones(width) } else { x / y },
        "%" => if y == 0 { x } else { x % y },
        "&" => x & y,
        "|" => x | y,
        "^" => x ^ y,
        // "`~& ~| ~^ ^~` complement in that width"
        "~&" => !(x & y) & ones(width),
        "~|" => !(x | y) & ones(width),
        "~^" | "^~" => !(x ^ y) & ones(width),
        // "an amount at or past it gives 0"
        "<<" => if y >= u128::from(width) { 0 } else { x << y & ones(width) },
        ">>" => if y >= u128::from(width) { 0 } else { x >> y },
        "==" => u128::from(x == y),
        "!=" => u128::from(x != y),
        "<" => u128::from(x < y),
        "<=" => u128::from(x <= y),
        ">" => u128::from(x > y),
        ">=" => u128::from(x >= y),
        "&&" => u128::from(x != 0 && y != 0),
        "||" => u128::from(x != 0 || y != 0),
        _ => unreachable!("{sign}"),
    };
    Bits { value, width }
}

/// One cycle: the outputs in the signature's order, or the number of the refusal; a refused cycle leaves the cells.
fn cycle(
    actor: &Actor,
    widths: &Widths,
    cells: &mut [Vec<u128>],
    mask: u64,
    values: &BTreeMap<String, u128>,
) -> Result<Vec<u128>, u32> {
    // "Bit i is port i of the signature."
    let present: BTreeMap<&str, bool> =
        actor.signature.iter().enumerate().map(|(i, (name, _))| (name.as_str(), mask >> i & 1 == 1)).collect();
    // "22 a mask bit past the ports, a present input or a cell that doesn't fit"
    if mask >> actor.signature.len() != 0 {
        return Err(22);
    }
    for (name, value) in values {
        if present[name.as_str()] && value >> widths.ports[name] != 0 {
            return Err(22);
        }
    }
    // "then by group in order 23 no rule matches, 24 two or more match"
    let mut taken = Vec::new();
    for group in &actor.groups {
        let matching: Vec<&Rule> = group
            .rules
            .iter()
            .filter(|rule| rule.list.iter().all(|one| present[one.name.as_str()] == one.present))
            .collect();
        match matching.len() {
            0 => return Err(23),
            1 => taken.push(matching[0]),
            _ => return Err(24),
        }
    }
    let mut outputs: BTreeMap<&str, u128> = BTreeMap::new();
    let mut writes: BTreeMap<(usize, usize), u128> = BTreeMap::new();
    for rule in taken {
        for statement in &rule.statements {
            let mut moment = Moment { actor, widths, inputs: values, cells, lets: BTreeMap::new() };
            for one in &statement.lets {
                let mut bits = moment.value(&one.value.expr);
                if let Some(declared) = &one.width {
                    bits.width = widths.width(declared);
                }
                moment.lets.insert(one.name.clone(), bits);
            }
            for one in &statement.assignments {
                let value = moment.value(&one.value.expr).value;
                match &one.address {
                    None => {
                        outputs.insert(&one.name, value);
                    }
                    Some(address) => {
                        let memory = actor.memory(&one.name).expect("row 5");
                        let address = moment.value(&address.expr).value;
                        // "a write there does nothing"; "25 two writes to the same existing cell, equal values too"
                        if address < cells[memory].len() as u128
                            && writes.insert((memory, address as usize), value).is_some()
                        {
                            return Err(25);
                        }
                    }
                }
            }
        }
    }
    for ((memory, address), value) in writes {
        cells[memory][address] = value;
    }
    // "Output slots hold the assigned value, else 0"
    let mut slots = Vec::new();
    for (name, _) in &actor.signature {
        if actor.port(name).is_some_and(|port| port.output) {
            slots.push(outputs.get(name.as_str()).copied().unwrap_or(0));
        }
    }
    Ok(slots)
}

// ---------------------------------------------------------------------------------------------------------------
// The run
// ---------------------------------------------------------------------------------------------------------------

struct Input {
    bytes: Vec<u8>,
    pos: usize,
}

impl Input {
    /// "Numbers are as in bindings": no leading zeros. The error is input "not in this form". A number past the limit
    /// is none.
    fn number(&mut self, below: u128) -> Option<u128> {
        let start = self.pos;
        while self.bytes.get(self.pos).is_some_and(u8::is_ascii_digit) {
            self.pos += 1;
        }
        let digits = &self.bytes[start..self.pos];
        if digits.is_empty() || (digits.len() > 1 && digits[0] == b'0') {
            return None;
        }
        let value = saturating_value(digits, 10);
        (value < below).then_some(value)
    }

    fn byte(&mut self, byte: u8) -> Option<()> {
        (self.bytes.get(self.pos) == Some(&byte)).then(|| self.pos += 1)
    }

    /// "byte count and actor, byte count and bindings (the last line end counted in each)"
    fn counted(&mut self) -> Option<Vec<u8>> {
        let count = self.number(1 << 100)?;
        self.byte(b'\n')?;
        if count > (self.bytes.len() - self.pos) as u128 {
            return None;
        }
        let end = self.pos + count as usize;
        let text = self.bytes[self.pos..end].to_vec();
        self.pos = end;
        Some(text)
    }
}

fn joined(numbers: impl Iterator<Item = u128>) -> String {
    numbers.map(|number| number.to_string()).collect::<Vec<_>>().join(" ")
}

/// The run; none where input is "not in this form".
fn run(input: &mut Input, out: &mut String) -> Option<()> {
    let actor_text = input.counted()?;
    let bindings_text = input.counted()?;
    // "A reading refusal prints number and place on one line"
    let (actor, widths) = match read(&actor_text, &bindings_text) {
        Ok(read) => read,
        Err((number, place)) => {
            out.push_str(&format!("{number} {place}\n"));
            return Some(());
        }
    };
    let inputs: Vec<&str> = actor
        .signature
        .iter()
        .map(|(name, _)| name.as_str())
        .filter(|name| actor.port(name).is_some_and(|port| !port.output))
        .collect();
    // "memory starts at zeros"
    let mut cells: Vec<Vec<u128>> =
        actor.memories.iter().map(|memory| vec![0; memory.size.map_or(1, |(size, _)| size) as usize]).collect();
    let count = input.number(1 << 100)?;
    input.byte(b'\n')?;
    let mut done = 0;
    while done < count {
        // "A cycle is a line: a mask under 2^32, a value under 2^64 for each input port."
        let mask = input.number(1 << 32)? as u64;
        let mut values = BTreeMap::new();
        for name in &inputs {
            input.byte(b' ')?;
            values.insert(name.to_string(), input.number(1 << 64)?);
        }
        input.byte(b'\n')?;
        // "It prints answer, present ports and outputs for each cycle, the answer alone if refused"
        match cycle(&actor, &widths, &mut cells, mask, &values) {
            Ok(outputs) => {
                let line = [0, u128::from(mask.count_ones())].into_iter().chain(outputs);
                out.push_str(&joined(line));
            }
            Err(number) => out.push_str(&number.to_string()),
        }
        out.push('\n');
        done += 1;
    }
    // "then all cells on one line"
    out.push_str(&joined(cells.into_iter().flatten()));
    out.push('\n');
    Some(())
}

fn main() {
    // deep brackets take deep calls
    let worker = std::thread::Builder::new().stack_size(1 << 28).spawn(|| {
        let mut input = Input { bytes: Vec::new(), pos: 0 };
        std::io::stdin().read_to_end(&mut input.bytes).expect("standard input");
        let mut out = String::new();
        if run(&mut input, &mut out).is_none() {
            out.push_str("bad\n");
        }
        std::io::stdout().write_all(out.as_bytes()).expect("standard output");
    });
    worker.expect("a thread").join().expect("no fault of its own");
}
