//! The text of a file.

use super::super::policy::Policy;
use super::super::refusal::Refusal;
use super::super::rule::{Condition, Rule, NO_UPPER_BOUND, VIOLATION};

/// Writes the text at the beginning of `text` and returns its length. Once to
/// count, once to write.
pub fn text_write(file: &[u8], text: &mut [u8]) -> Result<usize, Refusal> {
    let policy = Policy::check(file)?;
    let mut counted = Count(0);
    put_policy(&mut counted, &policy);
    let here = text.get_mut(..counted.0).ok_or(Refusal::SliceTooShort)?;
    put_policy(&mut Lay { text: here, at: 0 }, &policy);
    Ok(counted.0)
}

/// What a text is put to.
trait Out {
    fn put(&mut self, bytes: &[u8]);

    fn number(&mut self, number: u16) {
        let mut digits = [0; 5];
        let mut first = digits.len();
        let mut rest = number;
        loop {
            first -= 1;
            digits[first] = b'0' + (rest % 10) as u8;
            rest /= 10;
            if rest == 0 {
                break;
            }
        }
        self.put(&digits[first..]);
    }

    fn numbered(&mut self, letter: u8, number: usize) {
        self.put(&[letter]);
        self.number(number as u16);
    }
}

struct Count(usize);

impl Out for Count {
    fn put(&mut self, bytes: &[u8]) {
        self.0 += bytes.len();
    }
}

struct Lay<'a> {
    text: &'a mut [u8],
    at: usize,
}

impl Out for Lay<'_> {
    fn put(&mut self, bytes: &[u8]) {
        self.text[self.at..self.at + bytes.len()].copy_from_slice(bytes);
        self.at += bytes.len();
    }
}

fn put_policy(out: &mut impl Out, policy: &Policy) {
    for tag in policy.inputs {
        out.put(&[b'i', b'n', b'p', b'u', b't', b' ', *tag, b'\n']);
    }
    for tag in policy.outputs {
        out.put(&[b'o', b'u', b't', b'p', b'u', b't', b' ', *tag, b'\n']);
    }
    for clock in 0..policy.clocks {
        out.put(b"clock ");
        out.numbered(b't', clock);
        out.put(b" ");
        out.number(policy.ceilings[clock]);
        out.put(b"\n");
    }
    for (location, &must_leave) in policy.must_leave.iter().enumerate() {
        out.put(b"location ");
        out.numbered(b'q', location);
        let words: &[u8] = if must_leave == 1 {
            b" must be left\n"
        } else {
            b"\n"
        };
        out.put(words);
    }
    let mut last = None;
    for rule in policy.rules.iter() {
        if last != Some(rule.source()) {
            out.put(b"\nat ");
            out.numbered(b'q', rule.source().into());
            out.put(b"\n");
            last = Some(rule.source());
        }
        put_rule(out, policy, rule);
    }
}

fn put_rule(out: &mut impl Out, policy: &Policy, rule: Rule) {
    out.put(b" ");
    let open = (0, NO_UPPER_BOUND);
    let mut bounds = rule.bounds();
    if rule.input().care | rule.output().care == 0
        && bounds.all(|bound| (bound.low, bound.high) == open)
    {
        out.put(b" any");
    }
    put_half(out, policy.inputs, rule.input());
    put_half(out, policy.outputs, rule.output());
    for (clock, bound) in rule.bounds().enumerate() {
        if bound.low != 0 {
            put_bound(out, clock, b" >= ", bound.low);
        }
        if bound.high != NO_UPPER_BOUND {
            put_bound(out, clock, b" <= ", bound.high);
        }
    }
    out.put(b" -> ");
    match rule.target() {
        VIOLATION => out.put(b"violation"),
        target => out.numbered(b'q', target.into()),
    }
    if rule.reset() != 0 {
        out.put(b" reset");
    }
    for clock in (0..policy.clocks).filter(|clock| rule.reset() >> clock & 1 == 1) {
        out.put(b" ");
        out.numbered(b't', clock);
    }
    out.put(b"\n");
}

fn put_half(out: &mut impl Out, tags: &[u8], condition: Condition) {
    for (bit, &tag) in tags.iter().enumerate() {
        match (condition.care >> bit & 1, condition.value >> bit & 1) {
            (0, _) => {}
            (_, 1) => out.put(&[b' ', tag]),
            _ => out.put(&[b' ', b'!', tag]),
        }
    }
}

fn put_bound(out: &mut impl Out, clock: usize, sign: &[u8], number: u16) {
    out.put(b" ");
    out.numbered(b't', clock);
    out.put(sign);
    out.number(number);
}
