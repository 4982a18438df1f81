//! The signals of a policy by their letters, and by the names that its text has for
//! them.

use crate::policies::Named;

/// A signal: its bit in an event, its tag, and what it is called.
pub struct Signal {
    pub bit: u8,
    pub tag: char,
    /// Its name in the text, or else its tag.
    pub name: String,
}

/// The signals of a policy: the inputs, then the outputs, in file order.
pub struct Signals {
    signals: Vec<Signal>,
}

/// What stands for an event with no signal on.
pub const NONE_ON: &str = "-";

impl Signals {
    pub fn of(named: &Named) -> Signals {
        let inputs = named.policy.inputs().iter().zip(0..);
        let outputs = named.policy.outputs().iter().zip(4..);
        let name = |number| named.text.as_ref()?.name_of_signal(number);
        let signals = inputs
            .chain(outputs)
            .enumerate()
            .map(|(number, (&tag, bit))| {
                let tag = char::from(tag);
                Signal {
                    bit: 1 << bit,
                    tag,
                    name: name(number).map_or_else(|| tag.to_string(), str::to_string),
                }
            })
            .collect();
        Signals { signals }
    }

    pub fn all(&self) -> &[Signal] {
        &self.signals
    }

    /// The bit of a word that names a signal, by its letter or its name.
    pub fn bit(&self, word: &str) -> Option<u8> {
        let mut letter = [0; 4];
        let named = self
            .signals
            .iter()
            .find(|signal| signal.name == word || signal.tag.encode_utf8(&mut letter) == word)?;
        Some(named.bit)
    }

    /// The signals that are on, put into a line.
    pub fn put(&self, event: u8, line: &mut String) {
        let from = line.len();
        for signal in &self.signals {
            if event & signal.bit != 0 {
                if line.len() > from {
                    line.push(' ');
                }
                line.push_str(&signal.name);
            }
        }
        if line.len() == from {
            line.push_str(NONE_ON);
        }
    }

    pub fn words(&self, event: u8) -> String {
        let mut line = String::new();
        self.put(event, &mut line);
        line
    }

    /// How long the longest line of signals is.
    pub fn width(&self) -> usize {
        self.words(u8::MAX).len()
    }

    /// All of them, each with its letter where it has a name, for a message.
    pub fn told(&self) -> String {
        let told: Vec<String> = self
            .signals
            .iter()
            .map(|signal| {
                if signal.name.chars().eq([signal.tag]) {
                    signal.name.clone()
                } else {
                    format!("{} ({})", signal.name, signal.tag)
                }
            })
            .collect();
        if told.is_empty() {
            return "none".to_string();
        }
        told.join(" ")
    }
}
