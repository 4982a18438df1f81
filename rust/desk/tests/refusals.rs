//! The words of each refusal that a file can meet, with its place.

mod common;

use common::samples::D;
use common::{desk, Folder};

/// D with some bytes changed.
fn changed(changes: &[(usize, u8)]) -> Vec<u8> {
    let mut file = D.to_vec();
    for &(place, byte) in changes {
        file[place] = byte;
    }
    file
}

fn refused(file: &[u8], words: &str) {
    let folder = Folder::new();
    desk(&["check", &folder.file("d", file)]).bad(1, words);
}

#[test]
fn a_file_that_is_cut() {
    refused(
        b"",
        "refused 1: a count or its section is cut short: byte 0: the count of inputs is missing",
    );
    refused(&D[..1], "byte 1: the file ends after 0 of 1 inputs");
    refused(&D[..2], "byte 2: the count of outputs is missing");
    refused(&D[..6], "byte 6: the file ends after 0 of 1 ceilings");
    refused(&D[..9], "byte 9: the file ends after 1 of 2 locations");
    refused(&D[..11], "byte 11: the count of rules is missing");
    refused(&D[..40], "byte 40: the file ends after 2 of 4 rules");
}

#[test]
fn counts_out_of_limits() {
    refused(
        &[5],
        "refused 2: a count is outside its limits: byte 0: 5 inputs; there may be 0 to 4",
    );
    refused(&[0, 7], "byte 1: 7 outputs");
    refused(&[0, 0, 9], "byte 2: 9 clocks");
    refused(&[0, 0, 0, 0], "byte 3: 0 locations; there may be 1 to 64");
    refused(
        &[0, 0, 0, 1, 0, 1, 1],
        "byte 5: 257 rules; there may be 0 to 256",
    );
}

#[test]
fn tags_ceilings_and_locations() {
    refused(
        &changed(&[(1, b'r')]),
        "refused 3: a tag is not A to Z or is repeated: byte 1: the tag of input 0 is 114",
    );
    refused(&changed(&[(3, b'R')]), "byte 3: R is there already");
    refused(
        &changed(&[(6, 0)]),
        "refused 4: a ceiling is 0 or above 1,001: clock 0, byte 5: its ceiling is 0",
    );
    refused(&changed(&[(5, 4)]), "its ceiling is 1027");
    refused(
        &changed(&[(9, 2)]),
        "refused 5: a location byte is above 1: location 1, byte 9: it is 2",
    );
}

#[test]
fn rules() {
    let first = 12;
    let six = "refused 6: a rule's first seven bytes break the rules of the file";
    refused(
        &changed(&[(first, 2)]),
        &format!("{six}: rule 0, byte 12: its source 2 is no location; there are 2"),
    );
    refused(
        &changed(&[(first, 1)]),
        "rule 1, byte 23: its source 0 comes after 1; sources never fall",
    );
    refused(
        &changed(&[(first + 1, 3)]),
        "rule 0, byte 13: its input care 0x03 has a bit beyond the inputs",
    );
    refused(
        &changed(&[(first + 1, 0)]),
        "rule 0, byte 14: its value 0x01 has a bit outside its input care",
    );
    refused(
        &changed(&[(first + 3, 2)]),
        "rule 0, byte 15: its output care 0x02 has a bit beyond the outputs",
    );
    refused(
        &changed(&[(first + 4, 1)]),
        "rule 0, byte 16: its value 0x01 has a bit outside its output care",
    );
    refused(
        &changed(&[(first + 5, 2)]),
        "rule 0, byte 17: its reset mask 0x02 has a bit beyond the clocks",
    );
    refused(
        &changed(&[(first + 6, 2)]),
        "rule 0, byte 18: its target 2 is no location and not 255",
    );
}

#[test]
fn bounds() {
    let third = 12 + 3 * 11 + 7;
    let seven = "refused 7: a rule's bounds break the rules of the file";
    refused(
        &changed(&[(third + 1, 3)]),
        &format!("{seven}: rule 3, clock 0, byte 52: the low 3 is above the high 2"),
    );
    refused(
        &changed(&[(20, 4)]),
        "rule 0, clock 0, byte 19: the low 4 is above the ceiling 3",
    );
    refused(
        &changed(&[(third + 3, 3)]),
        "rule 3, clock 0, byte 54: the high 3 is not below the ceiling 3",
    );
}

#[test]
fn what_is_too_much() {
    let long = [D, &[0][..]].concat();
    refused(
        &long,
        "refused 8: bytes are left over: byte 56: the last rule ends before it",
    );
    let states = [0, 0, 2, 3, 233, 0, 65, 1, 0, 0, 0];
    refused(&states, "refused 9: there are more than 65,536 states: 1 locations and the ceilings 1001, 65 make 66132");
}
