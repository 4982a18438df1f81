//! What is wrong with a line of a policy's text, in words. That it is wrong, and by
//! what number, the library says; these words only help to find the place in the line,
//! and say nothing where they find nothing.

/// What the lines before one have declared, as a person would read them.
#[derive(Default)]
struct Declared<'a> {
    signals: Vec<(&'a str, Option<&'a str>)>,
    inputs: usize,
    outputs: usize,
    clocks: Vec<(&'a str, &'a str)>,
    locations: Vec<&'a str>,
    last_at: Option<&'a str>,
    rules: usize,
}

const WORDS_OF_THE_LANGUAGE: [&str; 11] = [
    "input",
    "output",
    "clock",
    "location",
    "at",
    "any",
    "violation",
    "reset",
    "must",
    "be",
    "left",
];
const FIRST_WORDS: [&str; 5] = ["input", "output", "clock", "location", "at"];
const SIGNS: &str = "-<=>";
const ORDER: &str = "the order is input, output, clock, location, at with its rules";

/// What is wrong with this line, counted from 1, if it can be said.
pub fn hint(text: &str, number: u8, line: usize) -> Option<String> {
    let mut declared = Declared::default();
    let mut lines = text.split('\n');
    for before in lines.by_ref().take(line - 1) {
        declared.add(&words_of(before));
    }
    let words = words_of(lines.next()?);
    let (&first, rest) = words.split_first()?;
    match number {
        4 => Some("a ceiling is 1 to 1,001".to_string()),
        7 => declared.bounds(&words),
        30 if FIRST_WORDS.contains(&first) => declared.form(first, rest),
        30 => declared.rule_form(&words),
        31 => declared.unknown(first, rest, &words),
        32 => Some("a ceiling is at most 1,001, and a bound lies below it".to_string()),
        33 => declared.full(first),
        34 => Some(format!(
            "the rules stand in the order of the locations: {}",
            declared.locations.join(", ")
        )),
        _ => None,
    }
}

/// The words of a line, as docs/POLICY-TEXT.md has them.
fn words_of(line: &str) -> Vec<&str> {
    let line = line.split('#').next().unwrap_or_default();
    let mut words = Vec::new();
    for part in line
        .split([' ', '\t', '\r'])
        .filter(|part| !part.is_empty())
    {
        let mut rest = part;
        while let Some(first) = rest.chars().next() {
            let sign = SIGNS.contains(first);
            let end = rest
                .find(|letter| SIGNS.contains(letter) != sign)
                .unwrap_or(rest.len());
            words.push(&rest[..end]);
            rest = &rest[end..];
        }
    }
    words
}

impl<'a> Declared<'a> {
    fn add(&mut self, words: &[&'a str]) {
        match *words {
            ["input", letter, ref name @ ..] => {
                self.inputs += 1;
                self.signals.push((letter, name.first().copied()));
            }
            ["output", letter, ref name @ ..] => {
                self.outputs += 1;
                self.signals.push((letter, name.first().copied()));
            }
            ["clock", name, ceiling] => self.clocks.push((name, ceiling)),
            ["location", name, ..] => self.locations.push(name),
            ["at", name] => self.last_at = Some(name),
            [] => {}
            _ => self.rules += 1,
        }
    }

    /// A line that begins with a word of the language and is not of its form.
    fn form(&self, first: &str, rest: &[&str]) -> Option<String> {
        let late = match first {
            "input" => self.outputs > 0 || !self.clocks.is_empty() || self.past_clocks(),
            "output" => !self.clocks.is_empty() || self.past_clocks(),
            "clock" => self.past_clocks(),
            "location" => self.last_at.is_some(),
            _ => false,
        };
        if late {
            return Some(ORDER.to_string());
        }
        match (first, rest) {
            ("input" | "output", [letter, name @ ..]) if name.len() < 2 => {
                if !is_letter(letter) {
                    return Some(format!("'{letter}' is no capital letter"));
                }
                no_name(name.first()?)
            }
            ("clock", [name, ceiling]) => {
                no_name(name).or_else(|| Some(format!("'{ceiling}' is no number")))
            }
            ("location", [name] | [name, "must", "be", "left"]) => no_name(name),
            ("input" | "output", _) => Some(format!("the form is {first} LETTER NAME")),
            ("clock", _) => Some("the form is clock NAME CEILING".to_string()),
            ("location", _) => {
                Some("the form is location NAME, or location NAME must be left".to_string())
            }
            _ => Some("the form is at LOCATION".to_string()),
        }
    }

    fn past_clocks(&self) -> bool {
        !self.locations.is_empty() || self.last_at.is_some()
    }

    /// A rule that is not of its form.
    fn rule_form(&self, words: &[&str]) -> Option<String> {
        if self.last_at.is_none() {
            return Some(
                "no at stands before this rule, or its first word is misspelt".to_string(),
            );
        }
        if !words.contains(&"->") {
            return Some("a rule has an arrow, ->, before its target".to_string());
        }
        for pair in words.windows(2) {
            if self.is_clock(pair[0])
                && pair[1] != "->"
                && !["<=", ">="].contains(&pair[1])
                && !words.contains(&"reset")
            {
                return Some(format!("behind the clock {} stands <= or >=", pair[0]));
            }
        }
        Some("a rule is CONDITIONS -> TARGET, or CONDITIONS -> TARGET reset CLOCK ..".to_string())
    }

    fn is_clock(&self, word: &str) -> bool {
        self.clocks.iter().any(|&(name, _)| name == word)
    }

    fn is_signal(&self, word: &str) -> bool {
        self.signals
            .iter()
            .any(|&(letter, name)| letter == word || name == Some(word))
    }

    /// A name that is taken, unknown or there twice.
    fn unknown(&self, first: &str, rest: &[&str], words: &[&str]) -> Option<String> {
        match (first, rest) {
            ("input" | "output", [letter, name @ ..]) => {
                if self.signals.iter().any(|(taken, _)| taken == letter) {
                    return Some(format!("the letter {letter} is taken"));
                }
                Some(format!("the name {} is taken", name.first()?))
            }
            ("clock" | "location", [name, ..]) => Some(format!("the name {name} is taken")),
            ("at", [name]) => Some(self.no_location(name)),
            _ => self.unknown_in_rule(words),
        }
    }

    fn unknown_in_rule(&self, words: &[&str]) -> Option<String> {
        let arrow = words
            .iter()
            .position(|&word| word == "->")
            .unwrap_or(words.len());
        let (conditions, after) = words.split_at(arrow);
        let mut seen: Vec<&str> = Vec::new();
        let mut conditions = conditions.iter();
        while let Some(&word) = conditions.next() {
            if self.is_clock(word) {
                conditions.nth(1);
                continue;
            }
            let plain = word.strip_prefix('!').unwrap_or(word);
            if word != "any" && !self.is_signal(plain) {
                return Some(self.no_signal(plain));
            }
            if seen.contains(&plain) {
                return Some(format!("{plain} is there twice"));
            }
            seen.push(plain);
        }
        let target = *after.get(1)?;
        if target != "violation" && !self.locations.contains(&target) {
            return Some(self.no_location(target));
        }
        let clocks = after.get(3..)?;
        for (place, clock) in clocks.iter().enumerate() {
            if !self.is_clock(clock) {
                let names: Vec<&str> = self.clocks.iter().map(|&(name, _)| name).collect();
                return Some(format!("'{clock}' is no clock; there are {}", told(&names)));
            }
            if clocks[..place].contains(clock) {
                return Some(format!("{clock} is there twice"));
            }
        }
        // One signal by its letter and by its name.
        Some("a signal is there twice, by its letter and by its name".to_string())
    }

    fn no_location(&self, word: &str) -> String {
        format!(
            "'{word}' is no location; there are {}",
            told(&self.locations)
        )
    }

    fn no_signal(&self, word: &str) -> String {
        let mut names: Vec<String> = self
            .signals
            .iter()
            .map(|&(letter, name)| match name {
                Some(name) => format!("{name} ({letter})"),
                None => letter.to_string(),
            })
            .collect();
        names.extend(self.clocks.iter().map(|&(name, _)| name.to_string()));
        format!("'{word}' is no signal or clock; there are {}", told(&names))
    }

    /// Bounds that do not fit their clock.
    fn bounds(&self, words: &[&str]) -> Option<String> {
        let named = words
            .iter()
            .find_map(|word| self.clocks.iter().find(|(name, _)| name == word))?;
        Some(format!(
            "the ceiling of {} is {}: a bound after <= lies below it, one after >= is at most that, and not above the other",
            named.0, named.1
        ))
    }

    /// More than a file has room for.
    fn full(&self, first: &str) -> Option<String> {
        let most = match first {
            "input" => "there are 4 inputs at most",
            "output" => "there are 4 outputs at most",
            "clock" => "there are 4 clocks at most",
            "location" => "there are 64 locations at most",
            _ => "there are 256 rules at most",
        };
        Some(most.to_string())
    }
}

fn is_letter(word: &str) -> bool {
    matches!(word.as_bytes(), [letter] if letter.is_ascii_uppercase())
}

/// Why a word can be no name, if it can't.
fn no_name(word: &str) -> Option<String> {
    if WORDS_OF_THE_LANGUAGE.contains(&word) {
        return Some(format!("{word} is a word of the language and no name"));
    }
    let form =
        |letter: char| letter.is_ascii_lowercase() || letter.is_ascii_digit() || letter == '_';
    if word.len() > 16
        || !word.starts_with(|letter: char| letter.is_ascii_lowercase())
        || !word.chars().all(form)
    {
        return Some(format!(
            "'{word}' is no name: small letters, digits and _, a letter first, at most 16"
        ));
    }
    None
}

fn told<T: AsRef<str>>(names: &[T]) -> String {
    if names.is_empty() {
        return "none".to_string();
    }
    let names: Vec<&str> = names.iter().map(AsRef::as_ref).collect();
    names.join(" ")
}
