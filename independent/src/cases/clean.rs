//! Calls that clean a policy.

use crate::call::Call;
use crate::clean::{self, LONGEST_LIST};
use crate::random::Random;
use crate::subject::{filler, lent_length, some_reading, Subject};

pub fn clean_call(random: &mut Random, subject: &Subject) -> Call {
    let (mut out, mut list) = (vec![0; 6_000], vec![0; LONGEST_LIST]);
    let reading = some_reading(random, subject);
    let needed = clean::clean(reading, &subject.file, &mut out, &mut list);
    let (length, listed) = needed.unwrap_or((30, 6));
    let (length, listed) = (lent_length(random, length), lent_length(random, listed));
    Call::Clean {
        reading,
        file: subject.file.clone(),
        cleaned: filler(random, length),
        struck: filler(random, listed),
    }
}
