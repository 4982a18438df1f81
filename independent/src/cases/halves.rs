//! Calls of the two halves and of runs.

use crate::call::{call, Asked, Call};
use crate::moment::STATE_LENGTH;
use crate::policies;
use crate::random::Random;
use crate::reading::READINGS;
use crate::subject::{
    filler, lent_length, marks_and_state, some_events, some_reading, some_value, Subject,
};

/// About the subject's file, with these marks.
pub fn some_asked(random: &mut Random, subject: &Subject, marks: Vec<u8>) -> Asked {
    Asked {
        reading: some_reading(random, subject),
        file: subject.file.clone(),
        marks,
        x: some_value(random, subject.policy.input_mask()),
    }
}

/// A half in a state: that of the output if there is one.
pub struct Half {
    pub asked: Asked,
    pub state: Vec<u16>,
    pub y: Option<u8>,
}

impl Half {
    fn input(random: &mut Random, subject: &Subject) -> Half {
        let (marks, state) = marks_and_state(random, subject);
        Half {
            asked: some_asked(random, subject, marks),
            state,
            y: None,
        }
    }

    fn output(random: &mut Random, subject: &Subject) -> Half {
        let input = Half::input(random, subject);
        Half {
            y: Some(some_output(random, subject)),
            ..input
        }
    }

    /// In `inputs` of a hundred that of the input.
    pub fn some(random: &mut Random, subject: &Subject, inputs: u64) -> Half {
        match random.percent(inputs) {
            true => Half::input(random, subject),
            false => Half::output(random, subject),
        }
    }

    fn call(self) -> Call {
        let Half { asked, state, y } = self;
        match y {
            None => call!(Input, asked, state),
            Some(y) => call!(Output, asked, state, y),
        }
    }
}

pub fn some_output(random: &mut Random, subject: &Subject) -> u8 {
    some_value(random, subject.policy.output_mask())
}

pub fn input_call(random: &mut Random, subject: &Subject) -> Call {
    Half::input(random, subject).call()
}

pub fn output_call(random: &mut Random, subject: &Subject) -> Call {
    Half::output(random, subject).call()
}

/// Every input, and every output after some input, of a policy that permits
/// only few of them.
pub fn around_edits(random: &mut Random) -> Vec<Call> {
    let policy = policies::picky(random);
    // Without clocks one reading is as the other.
    let reading = random.pick(&READINGS).number();
    let some_rule = random.between(0, policy.rules.len() - 1);
    let permitted = policy.rules[some_rule].input.value;
    let half = |x, y| Half {
        asked: Asked {
            reading,
            file: policy.encode(),
            marks: vec![1],
            x,
        },
        state: vec![0; STATE_LENGTH],
        y,
    };
    let inputs = (0..=policy.input_mask()).map(|x| half(x, None));
    let outputs = (0..=policy.output_mask()).map(|y| half(permitted, Some(y)));
    inputs.chain(outputs).map(Half::call).collect()
}

pub fn run_call(random: &mut Random, subject: &Subject) -> Call {
    let (marks, state) = marks_and_state(random, subject);
    let events = some_events(random, &subject.policy);
    let length = lent_length(random, events.len());
    Call::Run {
        reading: some_reading(random, subject),
        file: subject.file.clone(),
        marks,
        state,
        events,
        released: filler(random, length),
    }
}
