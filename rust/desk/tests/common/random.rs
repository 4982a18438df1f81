//! Random policies and events, the same in each run.

/// A small generator (splitmix64): the tests want variety and nothing more.
pub struct Random(u64);

impl Random {
    pub fn new(seed: u64) -> Random {
        Random(seed)
    }

    pub fn next(&mut self) -> u64 {
        self.0 = self.0.wrapping_add(0x9e37_79b9_7f4a_7c15);
        let mut mixed = self.0;
        mixed = (mixed ^ mixed >> 30).wrapping_mul(0xbf58_476d_1ce4_e5b9);
        mixed = (mixed ^ mixed >> 27).wrapping_mul(0x94d0_49bb_1331_11eb);
        mixed ^ mixed >> 31
    }

    /// A number below a limit.
    pub fn below(&mut self, limit: usize) -> usize {
        (self.next() % limit as u64) as usize
    }

    pub fn one_in(&mut self, many: usize) -> bool {
        self.below(many) == 0
    }
}

/// A policy file that passes its check.
pub fn policy(random: &mut Random) -> Vec<u8> {
    let (inputs, outputs) = (random.below(4), random.below(4));
    let ceilings: Vec<u16> = (0..random.below(3))
        .map(|_| 1 + random.below(5) as u16)
        .collect();
    let locations = 1 + random.below(4);
    let mut file = vec![inputs as u8];
    file.extend((0..inputs).map(|place| b'A' + place as u8));
    file.push(outputs as u8);
    file.extend((0..outputs).map(|place| b'V' + place as u8));
    file.push(ceilings.len() as u8);
    file.extend(ceilings.iter().flat_map(|ceiling| ceiling.to_be_bytes()));
    file.push(locations as u8);
    file.extend((0..locations).map(|_| u8::from(random.one_in(6))));
    let sources: Vec<usize> = (0..locations)
        .flat_map(|source| vec![source; 1 + random.below(5)])
        .collect();
    let mut rules = Vec::new();
    for &source in &sources {
        rules.extend(rule(
            random,
            source,
            [inputs, outputs],
            &ceilings,
            locations,
        ));
    }
    file.extend((sources.len() as u16).to_be_bytes());
    file.extend(rules);
    file
}

fn rule(
    random: &mut Random,
    source: usize,
    signals: [usize; 2],
    ceilings: &[u16],
    locations: usize,
) -> Vec<u8> {
    let mut rule = vec![source as u8];
    for count in signals {
        let care = random.below(1 << count) & random.below(1 << count);
        rule.push(care as u8);
        rule.push((random.below(1 << count) & care) as u8);
    }
    rule.push(random.below(1 << ceilings.len()) as u8);
    rule.push(if random.one_in(4) {
        255
    } else {
        random.below(locations) as u8
    });
    for &ceiling in ceilings {
        let low = if random.one_in(2) {
            0
        } else {
            random.below(usize::from(ceiling) + 1) as u16
        };
        let high = if random.one_in(2) || low == ceiling {
            u16::MAX
        } else {
            low + random.below(usize::from(ceiling - low)) as u16
        };
        rule.extend(low.to_be_bytes());
        rule.extend(high.to_be_bytes());
    }
    rule
}

/// Events with no bit beyond the signals of a policy.
pub fn events(random: &mut Random, file: &[u8], count: usize) -> Vec<u8> {
    let inputs = file[0];
    let outputs = file[1 + usize::from(inputs)];
    let bits = |count: u8| (1u8 << count) - 1;
    let signals = bits(inputs) | (bits(outputs) << 4);
    (0..count).map(|_| random.next() as u8 & signals).collect()
}

/// Bytes changed, cut, put in or taken out, in a few places.
pub fn spoilt(random: &mut Random, bytes: &[u8]) -> Vec<u8> {
    let mut bytes = bytes.to_vec();
    for _ in 0..1 + random.below(3) {
        let place = random.below(bytes.len() + 1);
        match random.below(4) {
            0 => bytes.truncate(place),
            1 => bytes.insert(place, random.next() as u8),
            2 if place < bytes.len() => drop(bytes.remove(place)),
            _ if place < bytes.len() => bytes[place] = random.next() as u8,
            _ => bytes.push(random.next() as u8),
        }
    }
    bytes
}
