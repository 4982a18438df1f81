//! The plain program, the maker's and the reference model give the same answers
//! and write the same bytes.

use std::process::Command;

/// Enough groups of random calls that every function gives every refusal it
/// has, and success on policies of all sizes.
const GROUPS: &str = "6000";
const SEED: &str = "9";

#[test]
fn both_programs_agree_with_the_model() {
    agree(&[GROUPS, SEED]);
}

/// The states of each policy that `clean` is counted on, those that live, those
/// that are reached, and what the model strikes out: locations, their rules,
/// others. The library does the same, if there is one.
#[test]
fn what_is_cleaned_has_something_to_clean_or_nothing() {
    let expected = "\
all entered, all used                     65536  65536  65536      0      0      0
every second location entered             65536  65536  32768     32    128      0
a rule in four decides nothing            65536  65536  62590      1      4     63
a default after a split deadline          65536  65536  57157      1      4     63
entered in falling order                  65536  65536  65536      0      0      0
a chain while a clock goes up             64000  64000   1063      0      0      0
a tenth not live                          65536  59392  61440      0      0      0
a late rule                               65536  65536  65536      0      0      0
16 rules, some late, some shadowed        65536  65536  61440      1     16     60
256 rules, an event each                  65536  65536  65536      0      0      0
256 rules, the last decides nothing       65536  65536  65536      0      0      1
256 rules, random bounds                  65536  65536  65536      0      0      0
239 rules covered only together           65536  65536  29440      0      0    239
no difference
";
    assert_eq!(agree(&["cleanings"]), expected);
}

/// What the program prints.
fn agree(words: &[&str]) -> String {
    let output = Command::new(env!("CARGO_BIN_EXE_agree"))
        .args(words)
        .output()
        .expect("the program can be run");
    let complaint = String::from_utf8_lossy(&output.stderr);
    assert!(output.status.success(), "{complaint}");
    String::from_utf8(output.stdout).expect("it prints letters")
}
