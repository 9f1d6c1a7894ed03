//! Filter lists in plain Rust: the same checks as the product's, in the same order, into the same rules.

use crate::span::{Boxed, Span};
use std::collections::HashMap;
use std::hash::BuildHasher;

#[derive(Clone, Copy)]
pub struct Ports {
    spans: [Span; 16],
    count: usize,
}

impl Ports {
    pub fn spans(&self) -> &[Span] {
        &self.spans[..self.count]
    }
}

pub struct Rule {
    pub source: Span,
    pub destination: Span,
    pub ports: [Ports; 2],
    pub protocol: Span,
    pub decision: u32,
}

#[derive(Debug)]
pub enum Reason {
    NoAt,
    Address,
    Length,
    PortForm,
    PortOrder,
    PortRange,
    ProtocolForm,
    ProtocolMask,
    FlagsForm,
    DecisionForm,
    Reserved,
    Extra,
    TooManyRules,
    NotAscii,
    TooManyRanges,
}

pub struct List<S> {
    pub rules: Vec<Rule>,
    pub names: HashMap<Box<str>, u32, S>,
    pub flagged: u64,
}

/// The tokens that are left of a line.
#[derive(Clone)]
struct Tokens<'a>(&'a [u8]);

fn blank(byte: u8) -> bool {
    byte == b' ' || byte == b'\t'
}

impl<'a> Iterator for Tokens<'a> {
    type Item = &'a [u8];

    fn next(&mut self) -> Option<&'a [u8]> {
        let start = self.0.iter().position(|&byte| !blank(byte))?;
        let text = &self.0[start..];
        let mark = |byte| byte == b':' || byte == b',';
        let end = if mark(text[0]) {
            1
        } else {
            text.iter().position(|&byte| blank(byte) || mark(byte)).unwrap_or(text.len())
        };
        self.0 = &text[end..];
        Some(&text[..end])
    }
}

fn decimal(text: &[u8]) -> Option<u32> {
    if text.is_empty() || !text.iter().all(u8::is_ascii_digit) {
        return None;
    }
    Some(text.iter().fold(0, |number, &byte| (number * 10 + u32::from(byte - b'0')).min(65_536)))
}

fn short(text: &[u8], most: usize, greatest: u32) -> Option<u32> {
    decimal(text).filter(|&number| text.len() <= most && number <= greatest)
}

fn prefix(text: &[u8]) -> Result<Span, Reason> {
    let (address, len) = match text.iter().position(|&byte| byte == b'/') {
        Some(slash) => (&text[..slash], Some(&text[slash + 1..])),
        None => (text, None),
    };
    let mut parts = address.split(|&byte| byte == b'.');
    let mut value = 0;
    for _ in 0..4 {
        let part = parts.next().and_then(|part| short(part, 3, 255)).ok_or(Reason::Address)?;
        value = value << 8 | part;
    }
    if parts.next().is_some() {
        return Err(Reason::Address);
    }
    let len = len.and_then(|len| short(len, 2, 32)).ok_or(Reason::Length)?;
    let free = u32::MAX.checked_shr(len).unwrap_or(0);
    Ok(Span { lo: value & !free, hi: value | free })
}

/// The ranges in order, joined where they overlap or touch.
fn united(ranges: &mut [Span]) -> Ports {
    ranges.sort_unstable_by_key(|range| range.lo);
    let mut ports = Ports { spans: [Span { lo: 0, hi: 0 }; 16], count: 0 };
    for &range in ranges.iter() {
        if ports.count > 0 && range.lo <= ports.spans[ports.count - 1].hi + 1 {
            let last = &mut ports.spans[ports.count - 1];
            last.hi = last.hi.max(range.hi);
        } else {
            ports.spans[ports.count] = range;
            ports.count += 1;
        }
    }
    ports
}

fn ports(tokens: &mut Tokens) -> Result<Ports, Reason> {
    let mut ranges = [Span { lo: 0, hi: 0 }; 16];
    let mut count = 0;
    loop {
        let lo = tokens.next().and_then(decimal).ok_or(Reason::PortForm)?;
        if tokens.next() != Some(b":") {
            return Err(Reason::PortForm);
        }
        let hi = tokens.next().and_then(decimal).ok_or(Reason::PortForm)?;
        if count < 16 {
            ranges[count] = Span { lo, hi };
        }
        count += 1;
        let mut behind = tokens.clone();
        if behind.next() != Some(b",") {
            break;
        }
        *tokens = behind;
    }
    if count > 16 {
        return Err(Reason::TooManyRanges);
    }
    let ranges = &mut ranges[..count];
    if ranges.iter().any(|range| range.lo > 65_535 || range.hi > 65_535) {
        return Err(Reason::PortRange);
    }
    if ranges.iter().any(|range| range.lo > range.hi) {
        return Err(Reason::PortOrder);
    }
    Ok(united(ranges))
}

fn hexadecimal(text: &[u8], most: usize) -> Option<u32> {
    let (b"0x" | b"0X", digits) = text.split_at_checked(2)? else {
        return None;
    };
    if digits.is_empty() || digits.len() > most {
        return None;
    }
    digits.iter().try_fold(0, |number, &byte| Some(number * 16 + char::from(byte).to_digit(16)?))
}

fn masked(text: &[u8], most: usize) -> Option<(u32, u32)> {
    let slash = text.iter().position(|&byte| byte == b'/')?;
    Some((hexadecimal(&text[..slash], most)?, hexadecimal(&text[slash + 1..], most)?))
}

fn protocol(token: Option<&[u8]>) -> Result<Span, Reason> {
    match token.and_then(|token| masked(token, 2)).ok_or(Reason::ProtocolForm)? {
        (value, 255) => Ok(Span { lo: value, hi: value }),
        (_, 0) => Ok(Span { lo: 0, hi: 255 }),
        _ => Err(Reason::ProtocolMask),
    }
}

fn word(token: &[u8]) -> Result<&str, Reason> {
    let good = |byte: &u8| byte.is_ascii_alphanumeric() || matches!(byte, b'_' | b'-' | b'.');
    if token.is_empty() || token.len() > 32 || !token.iter().all(good) {
        return Err(Reason::DecisionForm);
    }
    match std::str::from_utf8(token).expect("it is ASCII") {
        "miss" => Err(Reason::Reserved),
        name => Ok(name),
    }
}

impl Boxed for Rule {
    fn set(&self, field: usize) -> &[Span] {
        match field {
            0 => std::slice::from_ref(&self.source),
            1 => std::slice::from_ref(&self.destination),
            2 => self.ports[0].spans(),
            3 => self.ports[1].spans(),
            _ => std::slice::from_ref(&self.protocol),
        }
    }

    fn decision(&self) -> u32 {
        self.decision
    }
}

impl<S: BuildHasher + Default> List<S> {
    fn number(&mut self, name: &str) -> u32 {
        if let Some(&number) = self.names.get(name) {
            return number;
        }
        let number = self.names.len() as u32 + 1;
        self.names.insert(name.into(), number);
        number
    }

    fn take(&mut self, line: &[u8]) -> Result<(), Reason> {
        if self.rules.len() == 65_536 {
            return Err(Reason::TooManyRules);
        }
        if !line.is_ascii() {
            return Err(Reason::NotAscii);
        }
        let mut tokens = Tokens(line);
        let source = tokens.next().and_then(|token| token.strip_prefix(b"@")).ok_or(Reason::NoAt)?;
        let source = prefix(source)?;
        let destination = prefix(tokens.next().ok_or(Reason::Address)?)?;
        let ports = [ports(&mut tokens)?, ports(&mut tokens)?];
        let protocol = protocol(tokens.next())?;
        let mut token = tokens.next();
        let mut flagged = false;
        if let Some(flags) = token.filter(|token| token.contains(&b'/')) {
            let (_, mask) = masked(flags, 4).ok_or(Reason::FlagsForm)?;
            flagged = mask != 0;
            token = tokens.next();
        }
        let name = token.map(word).transpose()?;
        if tokens.next().is_some() {
            return Err(Reason::Extra);
        }
        let decision = match name {
            Some(name) => self.number(name),
            None => self.number(&format!("#{}", self.rules.len() + 1)),
        };
        self.rules.push(Rule { source, destination, ports, protocol, decision });
        self.flagged += u64::from(flagged);
        Ok(())
    }
}

pub fn read<S: BuildHasher + Default>(bytes: &[u8]) -> Result<List<S>, (usize, Reason)> {
    let mut list = List { rules: Vec::new(), names: HashMap::default(), flagged: 0 };
    for (place, line) in bytes.strip_suffix(b"\n").unwrap_or(bytes).split(|&byte| byte == b'\n').enumerate() {
        let line = line.strip_suffix(b"\r").unwrap_or(line);
        match line.iter().find(|&&byte| !blank(byte)) {
            None | Some(b'#') => {}
            Some(_) => list.take(line).map_err(|reason| (place + 1, reason))?,
        }
    }
    Ok(list)
}
