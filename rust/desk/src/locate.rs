//! Where a policy file is wrong, in words. The number of the refusal is the library's;
//! this looks for the place that it is about, in the order of the file.

mod rules;

/// The place of a refusal from 1 to 9.
pub fn place(file: &[u8], number: u8) -> Option<String> {
    match walk(file) {
        Err(found) if found.number == number => Some(found.place),
        _ => None,
    }
}

/// The first thing in a file that is wrong.
#[derive(Debug)]
struct Found {
    number: u8,
    place: String,
}

fn found<T>(number: u8, place: String) -> Result<T, Found> {
    Err(Found { number, place })
}

const CUT_SHORT: u8 = 1;
const COUNT: u8 = 2;
const TAG: u8 = 3;
const CEILING: u8 = 4;
const LOCATION: u8 = 5;
const LEFT_OVER: u8 = 8;
const TOO_MANY_STATES: u8 = 9;

const MOST_SIGNALS: usize = 4;
const MOST_CLOCKS: usize = 4;
const MOST_LOCATIONS: usize = 64;
const MOST_STATES: u64 = 65_536;
const HIGHEST_CEILING: u16 = 1_001;

/// How many there are of what a rule may name.
struct Head {
    inputs: usize,
    outputs: usize,
    ceilings: Vec<u16>,
    locations: usize,
}

fn walk(file: &[u8]) -> Result<(), Found> {
    let mut cursor = Cursor { file, at: 0 };
    let mut tags = Vec::new();
    let inputs = signals(&mut cursor, "input", &mut tags)?;
    let outputs = signals(&mut cursor, "output", &mut tags)?;
    let ceilings = clocks(&mut cursor)?;
    let locations = locations(&mut cursor)?;
    let head = Head {
        inputs,
        outputs,
        ceilings,
        locations,
    };
    rules::walk(&mut cursor, &head)?;
    if cursor.at < file.len() {
        return found(
            LEFT_OVER,
            format!("byte {}: the last rule ends before it", cursor.at),
        );
    }
    states(&head)
}

/// A place in the file, moved on section by section.
struct Cursor<'a> {
    file: &'a [u8],
    at: usize,
}

impl<'a> Cursor<'a> {
    /// A number of so many bytes, the high one first.
    fn count(&mut self, bytes: usize, what: &str) -> Result<usize, Found> {
        let Some(number) = self.file.get(self.at..self.at + bytes) else {
            let place = format!("byte {}: the count of {what} is missing", self.file.len());
            return found(CUT_SHORT, place);
        };
        self.at += bytes;
        Ok(number
            .iter()
            .fold(0, |number, &byte| number << 8 | usize::from(byte)))
    }

    /// So many items of a size.
    fn items(&mut self, count: usize, size: usize, what: &str) -> Result<&'a [u8], Found> {
        let rest = &self.file[self.at..];
        let Some(items) = rest.get(..count * size) else {
            let whole = rest.len() / size;
            let end = self.file.len();
            let place = format!("byte {end}: the file ends after {whole} of {count} {what}");
            return found(CUT_SHORT, place);
        };
        self.at += items.len();
        Ok(items)
    }
}

fn within(count: usize, least: usize, most: usize, at: usize, what: &str) -> Result<(), Found> {
    if (least..=most).contains(&count) {
        return Ok(());
    }
    found(
        COUNT,
        format!("byte {at}: {count} {what}; there may be {least} to {most}"),
    )
}

fn signals(cursor: &mut Cursor, what: &str, tags: &mut Vec<u8>) -> Result<usize, Found> {
    let many = format!("{what}s");
    let at = cursor.at;
    let count = cursor.count(1, &many)?;
    within(count, 0, MOST_SIGNALS, at, &many)?;
    let first = cursor.at;
    for (number, &tag) in cursor.items(count, 1, &many)?.iter().enumerate() {
        let byte = first + number;
        if !tag.is_ascii_uppercase() {
            let place =
                format!("byte {byte}: the tag of {what} {number} is {tag}, no letter A to Z");
            return found(TAG, place);
        }
        if tags.contains(&tag) {
            return found(
                TAG,
                format!("byte {byte}: {} is there already", char::from(tag)),
            );
        }
        tags.push(tag);
    }
    Ok(count)
}

fn clocks(cursor: &mut Cursor) -> Result<Vec<u16>, Found> {
    let at = cursor.at;
    let count = cursor.count(1, "clocks")?;
    within(count, 0, MOST_CLOCKS, at, "clocks")?;
    let first = cursor.at;
    let bytes = cursor.items(count, 2, "ceilings")?;
    let ceilings: Vec<u16> = bytes.chunks_exact(2).map(number).collect();
    for (clock, &ceiling) in ceilings.iter().enumerate() {
        if !(1..=HIGHEST_CEILING).contains(&ceiling) {
            let byte = first + 2 * clock;
            return found(
                CEILING,
                format!("clock {clock}, byte {byte}: its ceiling is {ceiling}"),
            );
        }
    }
    Ok(ceilings)
}

fn locations(cursor: &mut Cursor) -> Result<usize, Found> {
    let at = cursor.at;
    let count = cursor.count(1, "locations")?;
    within(count, 1, MOST_LOCATIONS, at, "locations")?;
    let first = cursor.at;
    for (location, &byte) in cursor.items(count, 1, "locations")?.iter().enumerate() {
        if byte > 1 {
            let at = first + location;
            let place =
                format!("location {location}, byte {at}: it is {byte}; 0 may rest, 1 must be left");
            return found(LOCATION, place);
        }
    }
    Ok(count)
}

fn states(head: &Head) -> Result<(), Found> {
    let values = head.ceilings.iter().map(|&ceiling| u64::from(ceiling) + 1);
    let states = values.product::<u64>() * head.locations as u64;
    if states <= MOST_STATES {
        return Ok(());
    }
    let ceilings: Vec<String> = head.ceilings.iter().map(u16::to_string).collect();
    let (locations, ceilings) = (head.locations, ceilings.join(", "));
    found(
        TOO_MANY_STATES,
        format!("{locations} locations and the ceilings {ceilings} make {states}"),
    )
}

fn number(bytes: &[u8]) -> u16 {
    u16::from_be_bytes([bytes[0], bytes[1]])
}

#[cfg(test)]
mod tests {
    use super::walk;
    use groovepawn::Policy;

    use crate::random::{policy, spoilt, Random};

    /// The walk finds the library's number, or nothing where the library does.
    #[test]
    fn the_place_is_that_of_the_librarys_number() {
        let mut random = Random::new(10);
        let mut seen = [0; 10];
        for _ in 0..200_000 {
            let file = policy(&mut random);
            let file = spoilt(&mut random, &file);
            let number = Policy::check(&file)
                .err()
                .map_or(0, |refusal| refusal.number());
            let found = walk(&file).err().map_or(0, |found| found.number);
            assert_eq!(found, number, "{file:?}");
            seen[usize::from(number)] += 1;
        }
        assert!(seen[..9].iter().all(|&count| count > 20), "{seen:?}");
    }
}
