//! The reader: 1; 2; 3; structure (4, 9); values (5, 6, 7, 8, 13, 15); building; room (12, 10, 11).
//! Only brackets recurse, and those are at most 1,024 deep.

use crate::token::{self, *};
use crate::{refuse, whole_text, Refusal, NODES, NODE_RECORD, OPEN, RULES, RULE_RECORD};

/// What a success used.
#[derive(Clone, Copy, Debug, Default, PartialEq, Eq)]
pub struct Used {
    pub nodes: usize,
    pub rules: usize,
    pub store: usize,
}

/// The tables of a text, before any room is asked for.
#[derive(Clone, Debug, Default, PartialEq, Eq)]
pub struct Tables {
    pub nodes: Vec<u32>,
    pub rules: Vec<u32>,
    pub store: Vec<u8>,
}

impl Tables {
    /// What they use of lent buffers.
    pub fn used(&self) -> Used {
        Used {
            nodes: self.nodes.len() / NODE_RECORD,
            rules: self.rules.len() / RULE_RECORD,
            store: self.store.len(),
        }
    }
}

/// The edition of the layout rules that a caller reads by. It decides refusals, never trees.
#[derive(Clone, Copy, Debug, PartialEq, Eq, PartialOrd, Ord)]
pub enum Edition {
    /// A minimum above its maximum is read.
    First,
    /// It is 15.
    Second,
}

/// Reads into lent buffers by the first edition. A refusal leaves them alone; a success changes what
/// it used.
pub fn read(
    text: &[u8],
    tagged: bool,
    nodes: &mut [u32],
    rules: &mut [u32],
    store: &mut [u8],
) -> Result<Used, Refusal> {
    read_edition(text, tagged, Edition::First, nodes, rules, store)
}

/// As `read`, by an edition that the caller names.
pub fn read_edition(
    text: &[u8],
    tagged: bool,
    edition: Edition,
    nodes: &mut [u32],
    rules: &mut [u32],
    store: &mut [u8],
) -> Result<Used, Refusal> {
    let tables = tables_edition(text, tagged, edition)?;
    let used = tables.used();
    room(used, nodes.len(), rules.len(), store.len())?;
    nodes[..tables.nodes.len()].copy_from_slice(&tables.nodes);
    rules[..tables.rules.len()].copy_from_slice(&tables.rules);
    store[..tables.store.len()].copy_from_slice(&tables.store);
    Ok(used)
}

/// 12, 10 and 11; `nodes` and `rules` are lengths in numbers.
pub fn room(used: Used, nodes: usize, rules: usize, store: usize) -> Result<(), Refusal> {
    if used.rules > RULES.min(rules / RULE_RECORD) {
        return refuse(12, 0);
    }
    if used.nodes > NODES.min(nodes / NODE_RECORD) {
        return refuse(10, 0);
    }
    if used.store > store {
        return refuse(11, 0);
    }
    Ok(())
}

/// Everything but the room, by the first edition.
pub fn tables(text: &[u8], tagged: bool) -> Result<Tables, Refusal> {
    tables_edition(text, tagged, Edition::First)
}

/// Everything but the room.
pub fn tables_edition(text: &[u8], tagged: bool, edition: Edition) -> Result<Tables, Refusal> {
    whole_text(text)?;
    let tokens = tokens(text)?;
    Structure { text, tokens: &tokens, next: 0, open: 0 }.grammar()?;
    values(text, &tokens, tagged, edition)?;
    let mut builder = Builder { text, tokens: &tokens, next: 0, tagged, made: Tables::default() };
    builder.grammar();
    let mut made = builder.made;
    number_lines(text, &mut made.nodes);
    Ok(made)
}

/// The seventh number of each node: one plus the LF bytes before its span's start. The starts are
/// final here, since brackets move some of them after the node is made.
fn number_lines(text: &[u8], nodes: &mut [u32]) {
    let mut line = 1;
    let mut lines = Vec::with_capacity(text.len());
    for byte in text {
        lines.push(line);
        line += u32::from(*byte == b'\n');
    }
    for node in nodes.chunks_exact_mut(NODE_RECORD) {
        node[6] = lines[node[1] as usize];
    }
}

fn tokens(text: &[u8]) -> Result<Vec<Token>, Refusal> {
    let mut tokens = Vec::with_capacity(text.len() / 3);
    let mut place = 0;
    loop {
        match token::next(text, place) {
            Next::Token(token) => {
                place = token.end as usize;
                tokens.push(token);
            }
            Next::End => return Ok(tokens),
            Next::Bad(place) => return refuse(3, place),
        }
    }
}

fn part(text: &[u8], token: Token) -> &[u8] {
    &text[token.start as usize..token.end as usize]
}

/// Whether the tokens make a grammar.
struct Structure<'a> {
    text: &'a [u8],
    tokens: &'a [Token],
    next: usize,
    open: usize,
}

impl Structure<'_> {
    /// The kind of the next token; 0 at the text's end.
    fn kind(&self) -> u8 {
        self.tokens.get(self.next).map_or(0, |token| token.kind)
    }

    fn is_word(&self, spelling: &[u8]) -> bool {
        self.kind() == WORD && part(self.text, self.tokens[self.next]) == spelling
    }

    fn refuse<T>(&self, number: u64) -> Result<T, Refusal> {
        let place = self.tokens.get(self.next).map_or(self.text.len(), |t| t.start as usize);
        refuse(number, place)
    }

    fn want(&mut self, kind: u8) -> Result<(), Refusal> {
        if self.kind() != kind {
            return self.refuse(4);
        }
        self.next += 1;
        Ok(())
    }

    fn may(&mut self, kinds: &[u8]) -> bool {
        let found = kinds.contains(&self.kind());
        if found {
            self.next += 1;
        }
        found
    }

    fn grammar(&mut self) -> Result<(), Refusal> {
        while self.may(&[GRAMMAR_DOC]) {}
        loop {
            if !self.may(&[LINE_DOC]) {
                self.rule()?;
            }
            if self.next == self.tokens.len() {
                return Ok(());
            }
        }
    }

    fn rule(&mut self) -> Result<(), Refusal> {
        if self.is_word(b"PUSH") || self.is_word(b"PUSH_LITERAL") {
            return self.refuse(4);
        }
        self.want(WORD)?;
        self.want(EQUALS)?;
        if self.is_word(b"_") {
            self.next += 1;
        } else {
            self.may(&[AT, DOLLAR, NOT]);
        }
        self.want(OPEN_BRACE)?;
        self.may(&[BAR]);
        self.expression()?;
        self.want(CLOSE_BRACE)
    }

    fn expression(&mut self) -> Result<(), Refusal> {
        self.term()?;
        while self.may(&[TILDE, BAR]) {
            self.term()?;
        }
        Ok(())
    }

    fn term(&mut self) -> Result<(), Refusal> {
        if self.may(&[TAG]) {
            self.want(EQUALS)?;
        }
        while self.may(&[AND, NOT]) {}
        self.node()?;
        while self.postfix()? {}
        Ok(())
    }

    fn open_round(&mut self) -> Result<(), Refusal> {
        if self.kind() == OPEN_ROUND && self.open == OPEN {
            return self.refuse(9);
        }
        self.want(OPEN_ROUND)?;
        self.open += 1;
        Ok(())
    }

    fn close_round(&mut self) -> Result<(), Refusal> {
        self.want(CLOSE_ROUND)?;
        self.open -= 1;
        Ok(())
    }

    fn node(&mut self) -> Result<(), Refusal> {
        match self.kind() {
            OPEN_ROUND => {
                self.open_round()?;
                self.expression()?;
                self.close_round()
            }
            WORD if self.is_word(b"PUSH") => {
                self.next += 1;
                self.open_round()?;
                self.expression()?;
                self.close_round()
            }
            WORD if self.is_word(b"PUSH_LITERAL") => {
                self.next += 1;
                self.open_round()?;
                self.want(STRING)?;
                self.close_round()
            }
            WORD => {
                let peek = self.is_word(b"PEEK");
                self.next += 1;
                if peek && self.may(&[OPEN_SQUARE]) {
                    self.may(&[NUMBER, NEGATIVE]);
                    self.want(DOTS)?;
                    self.may(&[NUMBER, NEGATIVE]);
                    self.want(CLOSE_SQUARE)?;
                }
                Ok(())
            }
            STRING | INSENS => {
                self.next += 1;
                Ok(())
            }
            CHARACTER => {
                self.next += 1;
                self.want(DOTS)?;
                self.want(CHARACTER)
            }
            _ => self.refuse(4),
        }
    }

    fn postfix(&mut self) -> Result<bool, Refusal> {
        if self.may(&[QUESTION, STAR, PLUS]) {
            return Ok(true);
        }
        if !self.may(&[OPEN_BRACE]) {
            return Ok(false);
        }
        if self.may(&[COMMA]) {
            self.want(NUMBER)?;
        } else {
            self.want(NUMBER)?;
            if self.may(&[COMMA]) {
                self.may(&[NUMBER]);
            }
        }
        self.want(CLOSE_BRACE)?;
        Ok(true)
    }
}

/// The value of digits, or nothing above 4,294,967,295.
fn value(digits: &[u8]) -> Option<u32> {
    digits
        .iter()
        .try_fold(0u32, |value, digit| value.checked_mul(10)?.checked_add(u32::from(digit - b'0')))
}

/// The value of a number or a negative number of a PEEK, if it is an i32.
fn peek_value(number: &[u8]) -> Option<i32> {
    match number.strip_prefix(b"-") {
        None => i32::try_from(value(number)?).ok(),
        Some(digits) => i32::try_from(-i64::from(value(digits)?)).ok(),
    }
}

/// Whether a repeat number is a minimum above its maximum: then a comma and another number follow it.
/// A maximum that is 0 or too large has a fault of its own, which comes first.
fn is_above_maximum(text: &[u8], tokens: &[Token], least: u32) -> bool {
    match tokens {
        [_, comma, most, ..] if comma.kind == COMMA && most.kind == NUMBER => {
            value(part(text, *most)).is_some_and(|most| 0 < most && most < least)
        }
        _ => false,
    }
}

/// The first fault of a value, in a text whose structure is good: there, the tokens on both
/// sides of a number say what it is for.
fn values(text: &[u8], tokens: &[Token], tagged: bool, edition: Edition) -> Result<(), Refusal> {
    for (i, token) in tokens.iter().enumerate() {
        let own = part(text, *token);
        match token.kind {
            NUMBER | NEGATIVE => {
                let (before, after) = (tokens[i - 1].kind, tokens[i + 1].kind);
                if matches!(before, OPEN_BRACE | COMMA) {
                    let most = before == COMMA || after == CLOSE_BRACE;
                    match value(own) {
                        None => return refuse(5, token.start as usize),
                        Some(0) if most => return refuse(6, token.start as usize),
                        Some(least) if edition == Edition::Second => {
                            if is_above_maximum(text, &tokens[i..], least) {
                                return refuse(15, token.start as usize);
                            }
                        }
                        Some(_) => (),
                    }
                } else if peek_value(own).is_none() {
                    return refuse(7, token.start as usize);
                }
            }
            STRING | INSENS | CHARACTER => {
                let mut place = token.start as usize;
                while place < token.end as usize {
                    if text[place] != b'\\' {
                        place += 1;
                        continue;
                    }
                    let (end, value) = token::escape(text, place).expect("a good literal");
                    if char::from_u32(value).is_none() {
                        return refuse(8, place);
                    }
                    place = end;
                }
            }
            WORD if !tagged && own == b"PUSH_LITERAL" => return refuse(13, token.start as usize),
            _ => (),
        }
    }
    Ok(())
}

/// Builds the tables of a text whose structure and values are good.
struct Builder<'a> {
    text: &'a [u8],
    tokens: &'a [Token],
    next: usize,
    tagged: bool,
    made: Tables,
}

impl Builder<'_> {
    fn kind(&self) -> u8 {
        self.tokens.get(self.next).map_or(0, |token| token.kind)
    }

    fn take(&mut self) -> Token {
        self.next += 1;
        self.tokens[self.next - 1]
    }

    /// Keeps bytes: offset and length.
    fn keep(&mut self, start: usize, end: usize) -> (u32, u32) {
        let offset = self.made.store.len();
        self.made.store.extend_from_slice(&self.text[start..end]);
        (offset as u32, (end - start) as u32)
    }

    /// Keeps the inside of a string whose quotes are at `quote` and just before `end`.
    fn unescape(&mut self, quote: usize, end: usize) -> (u32, u32) {
        let offset = self.made.store.len();
        let mut place = quote + 1;
        while place < end - 1 {
            if self.text[place] == b'\\' {
                let (past, value) = token::escape(self.text, place).expect("a good literal");
                let character = char::from_u32(value).expect("a good value");
                let mut bytes = [0; 4];
                self.made.store.extend_from_slice(character.encode_utf8(&mut bytes).as_bytes());
                place = past;
            } else {
                self.made.store.push(self.text[place]);
                place += 1;
            }
        }
        (offset as u32, (self.made.store.len() - offset) as u32)
    }

    fn emit(&mut self, kind: u32, start: u32, end: u32, p: u32, q: u32, r: u32) {
        // The line is known once the start is final.
        self.made.nodes.extend_from_slice(&[kind, start, end, p, q, r, 0]);
    }

    /// The index of the node made last.
    fn last(&self) -> u32 {
        (self.made.nodes.len() / NODE_RECORD - 1) as u32
    }

    fn span(&self, node: u32) -> (u32, u32) {
        let at = node as usize * NODE_RECORD;
        (self.made.nodes[at + 1], self.made.nodes[at + 2])
    }

    fn grammar(&mut self) {
        while self.next < self.tokens.len() {
            match self.kind() {
                GRAMMAR_DOC | LINE_DOC => self.next += 1,
                _ => self.rule(),
            }
        }
    }

    fn rule(&mut self) {
        let name = self.take();
        let (offset, length) = self.keep(name.start as usize, name.end as usize);
        self.take();
        let mark = match self.kind() {
            WORD => 1,
            AT => 2,
            DOLLAR => 3,
            NOT => 4,
            _ => 0,
        };
        if mark != 0 {
            self.take();
        }
        self.take();
        if self.kind() == BAR {
            self.take();
        }
        self.expression();
        self.take();
        let root = self.last();
        self.made.rules.extend_from_slice(&[offset, length, mark, root, name.start, name.end]);
    }

    /// `~` binds tighter than `|`, both group left: so a sequence grows term by term, and at
    /// each `|` it joins the choice so far.
    fn expression(&mut self) {
        let mut choice = None;
        loop {
            self.term();
            let mut left = self.last();
            while self.kind() == TILDE {
                self.take();
                self.term();
                self.join(8, left);
                left = self.last();
            }
            if let Some(choice) = choice {
                self.join(9, choice);
            }
            choice = Some(self.last());
            if self.kind() != BAR {
                return;
            }
            self.take();
        }
    }

    fn join(&mut self, kind: u32, left: u32) {
        let right = self.last();
        let (start, end) = (self.span(left).0, self.span(right).1);
        self.emit(kind, start, end, left, right, 0);
    }

    fn term(&mut self) {
        let mut tag = None;
        if self.kind() == TAG {
            let token = self.take();
            self.take();
            if self.tagged {
                let (q, r) = self.keep(token.start as usize + 1, token.end as usize);
                tag = Some((token.start, q, r));
            }
        }
        let first = self.next;
        while matches!(self.kind(), AND | NOT) {
            self.take();
        }
        let past = self.next;
        self.node();
        for i in (first..past).rev() {
            let kind = if self.tokens[i].kind == AND { 6 } else { 7 };
            self.wrap_from(kind, self.tokens[i].start, 0, 0);
        }
        if let Some((start, q, r)) = tag {
            self.wrap_from(19, start, q, r);
        }
    }

    /// Wraps the last node in one that starts at `start` and ends with it.
    fn wrap_from(&mut self, kind: u32, start: u32, q: u32, r: u32) {
        let child = self.last();
        let end = self.span(child).1;
        self.emit(kind, start, end, child, q, r);
    }

    /// A node and its postfixes. A closing bracket moves the node's end, postfixes keep the
    /// inner start, and then the opening bracket moves the start of what is finished.
    fn node(&mut self) {
        let token = self.take();
        match token.kind {
            OPEN_ROUND => {
                self.expression();
                let close = self.take();
                let at = self.last() as usize * NODE_RECORD;
                self.made.nodes[at + 2] = close.end;
                self.postfixes();
                let at = self.last() as usize * NODE_RECORD;
                self.made.nodes[at + 1] = token.start;
            }
            STRING => {
                let (p, q) = self.unescape(token.start as usize, token.end as usize);
                self.emit(1, token.start, token.end, p, q, 0);
                self.postfixes();
            }
            INSENS => {
                let (p, q) = self.unescape(token.start as usize + 1, token.end as usize);
                self.emit(2, token.start, token.end, p, q, 0);
                self.postfixes();
            }
            CHARACTER => {
                self.take();
                let last = self.take();
                let (p, q) = (self.character(token), self.character(last));
                self.emit(3, token.start, last.end, p, q, 0);
                self.postfixes();
            }
            _ => {
                self.word(token);
                self.postfixes();
            }
        }
    }

    fn character(&self, token: Token) -> u32 {
        let inside = token.start as usize + 1;
        if self.text[inside] == b'\\' {
            return token::escape(self.text, inside).expect("a good literal").1;
        }
        let text = &self.text[inside..inside + token::width(self.text[inside])];
        std::str::from_utf8(text).expect("UTF-8").chars().next().expect("a character") as u32
    }

    fn word(&mut self, token: Token) {
        match part(self.text, token) {
            b"PUSH" => {
                self.take();
                self.expression();
                self.wrap_from(17, token.start, 0, 0);
                self.take();
            }
            b"PUSH_LITERAL" => {
                self.take();
                let string = self.take();
                let (p, q) = self.unescape(string.start as usize, string.end as usize);
                self.emit(18, string.start, string.end, p, q, 0);
                self.take();
            }
            b"PEEK" if self.kind() == OPEN_SQUARE => {
                self.take();
                let from = self.peek_number();
                self.take();
                let to = self.peek_number();
                let close = self.take();
                let (q, r) = (u32::from(to.is_some()), to.unwrap_or(0));
                self.emit(5, token.start, close.end, from.unwrap_or(0), q, r);
            }
            _ => {
                let (p, q) = self.keep(token.start as usize, token.end as usize);
                self.emit(4, token.start, token.end, p, q, 0);
            }
        }
    }

    fn peek_number(&mut self) -> Option<u32> {
        if !matches!(self.kind(), NUMBER | NEGATIVE) {
            return None;
        }
        let token = self.take();
        Some(peek_value(part(self.text, token)).expect("a good value") as u32)
    }

    fn postfixes(&mut self) {
        loop {
            let child = self.last();
            let start = self.span(child).0;
            let kind = match self.kind() {
                QUESTION => 10,
                STAR => 11,
                PLUS => 12,
                OPEN_BRACE => 13,
                _ => return,
            };
            let token = self.take();
            if kind != 13 {
                self.emit(kind, start, token.end, child, 0, 0);
                continue;
            }
            let least = self.count();
            let comma = self.kind() == COMMA;
            if comma {
                self.take();
            }
            let most = if comma { self.count() } else { None };
            let end = self.take().end;
            match (least, comma, most) {
                (Some(n), false, _) => self.emit(13, start, end, child, n, 0),
                (Some(n), true, None) => self.emit(14, start, end, child, n, 0),
                (None, _, Some(m)) => self.emit(15, start, end, child, m, 0),
                (Some(n), true, Some(m)) => self.emit(16, start, end, child, n, m),
                (None, _, None) => unreachable!("a good structure"),
            }
        }
    }

    fn count(&mut self) -> Option<u32> {
        if self.kind() != NUMBER {
            return None;
        }
        let token = self.take();
        Some(value(part(self.text, token)).expect("a good value"))
    }
}
