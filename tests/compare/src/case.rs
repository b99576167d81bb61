//! A case: numbers, byte strings and lists of them, from which everything that is compared follows. A case that shows a difference is made smaller.

use std::time::{Duration, Instant};

use crate::tally::Tally;

#[derive(Clone, Debug, PartialEq, Eq)]
pub enum Field {
    Number(u64),
    Bytes(Vec<u8>),
    List(Vec<Vec<u8>>),
}

#[derive(Clone, Debug, Default)]
pub struct Case {
    /// What the case was made to meet, where it was.
    pub aim: &'static str,
    pub fields: Vec<(&'static str, Field)>,
}

impl Case {
    pub fn aimed(aim: &'static str) -> Case {
        Case { aim, fields: Vec::new() }
    }

    pub fn number(mut self, name: &'static str, value: u64) -> Case {
        self.fields.push((name, Field::Number(value)));
        self
    }

    pub fn bytes(mut self, name: &'static str, value: impl Into<Vec<u8>>) -> Case {
        self.fields.push((name, Field::Bytes(value.into())));
        self
    }

    pub fn list(mut self, name: &'static str, value: Vec<Vec<u8>>) -> Case {
        self.fields.push((name, Field::List(value)));
        self
    }

    fn field(&self, name: &str) -> &Field {
        match self.fields.iter().find(|(own, _)| *own == name) {
            Some((_, field)) => field,
            None => panic!("a case without the field {name}"),
        }
    }

    pub fn number_at(&self, name: &str) -> u64 {
        match self.field(name) {
            Field::Number(value) => *value,
            _ => panic!("{name} is no number"),
        }
    }

    pub fn bytes_at(&self, name: &str) -> &[u8] {
        match self.field(name) {
            Field::Bytes(value) => value,
            _ => panic!("{name} is no byte string"),
        }
    }

    pub fn list_at(&self, name: &str) -> &[Vec<u8>] {
        match self.field(name) {
            Field::List(value) => value,
            _ => panic!("{name} is no list"),
        }
    }

    /// The fields as they are printed.
    pub fn text(&self) -> String {
        let mut out = String::new();
        for (name, field) in &self.fields {
            match field {
                Field::Number(value) => out += &format!("  {name} {value} (0x{value:X})\n"),
                Field::Bytes(value) => out += &format!("  {name} ({} bytes) {}\n", value.len(), hex(value)),
                Field::List(values) => {
                    out += &format!("  {name}: {}\n", values.len());
                    for (place, value) in values.iter().enumerate() {
                        out += &format!("    {place} ({} bytes) {}\n", value.len(), hex(value));
                    }
                }
            }
        }
        out
    }
}

pub fn hex(bytes: &[u8]) -> String {
    let mut out = String::new();
    for byte in bytes {
        out += &format!("{byte:02X}");
    }
    out
}

/// What differs, in words; or nothing does.
pub type Outcome = Result<(), String>;

/// A kind of case: how one is run.
pub type Run = fn(&Case, &mut Tally) -> Outcome;

/// The words of a difference between implementations, with what each answered.
pub fn difference(what: &str, answers: &[(&str, String)]) -> String {
    let mut out = what.to_string();
    for (name, answer) in answers {
        out += &format!("\n    {name}: {answer}");
    }
    out
}

// ------------------------------------------------------------- shrinking

/// How many smaller cases are tried, and for how long.
const TRIES: usize = 20_000;
const LONGEST: Duration = Duration::from_secs(20);

/// A smaller case that still shows a difference, and that difference.
pub fn shrink(case: &Case, run: Run, seen: String) -> (Case, String) {
    let mut best = case.clone();
    let mut words = seen;
    let mut tries = 0;
    let begun = Instant::now();
    // What is made smaller first makes the rest quicker.
    let mut places: Vec<usize> = (0..best.fields.len()).collect();
    places.sort_by_key(|place| match best.fields[*place].1 {
        Field::List(_) => 0,
        Field::Bytes(_) => 1,
        Field::Number(_) => 2,
    });
    loop {
        let before = best.fields.clone();
        for place in &places {
            // Each success offers candidates anew; those that were tried in vain are passed over.
            let mut passed = 0;
            while let Some(smaller) = smaller_fields(&best.fields[*place].1).into_iter().nth(passed) {
                if tries == TRIES || begun.elapsed() > LONGEST {
                    return (best, words);
                }
                tries += 1;
                let mut candidate = best.clone();
                candidate.fields[*place].1 = smaller;
                match run(&candidate, &mut Tally::default()) {
                    Err(now) => {
                        best = candidate;
                        words = now;
                    }
                    Ok(()) => passed += 1,
                }
            }
        }
        if best.fields == before {
            return (best, words);
        }
    }
}

fn smaller_fields(field: &Field) -> Vec<Field> {
    match field {
        Field::Number(0) => Vec::new(),
        Field::Number(value) => vec![Field::Number(0), Field::Number(value / 2), Field::Number(value - 1)],
        Field::Bytes(bytes) => smaller_bytes(bytes).into_iter().map(Field::Bytes).collect(),
        Field::List(list) => {
            let mut out: Vec<Vec<Vec<u8>>> = without_parts(list);
            for (place, bytes) in list.iter().enumerate() {
                for smaller in smaller_bytes(bytes).into_iter().take(24) {
                    let mut next = list.clone();
                    next[place] = smaller;
                    out.push(next);
                }
            }
            out.into_iter().map(Field::List).collect()
        }
    }
}

/// Without a half, a quarter and so on, down to one item.
fn without_parts<T: Clone>(items: &[T]) -> Vec<Vec<T>> {
    let mut out = Vec::new();
    let mut size = items.len();
    while size > 0 && out.len() < 400 {
        for start in (0..items.len()).step_by(size) {
            let end = (start + size).min(items.len());
            out.push([&items[..start], &items[end..]].concat());
        }
        size /= 2;
    }
    out
}

fn smaller_bytes(bytes: &[u8]) -> Vec<Vec<u8>> {
    let mut out = without_parts(bytes);
    let mut size = bytes.len();
    while size > 0 && out.len() < 800 {
        for start in (0..bytes.len()).step_by(size) {
            let end = (start + size).min(bytes.len());
            if bytes[start..end].iter().any(|byte| *byte != 0) {
                let mut next = bytes.to_vec();
                next[start..end].fill(0);
                out.push(next);
            }
        }
        size /= 2;
    }
    out
}
