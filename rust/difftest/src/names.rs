//! Names: small ones, those at the ends of what fewer bits or bytes hold, and such as differ in their high bits alone.
use crate::random::Random;

/// So many names can pass.
const ALL: usize = 65_536;

/// At the ends of what some bits hold, and of what one and two bytes hold: in a grammar up to 127 and 16,383, in a history, four
/// numbers to a name, up to 31 and 4,095.
const ENDS: [u32; 18] = [
    0, 1, 31, 32, 63, 64, 127, 128, 255, 256, 4095, 4096, 16_383, 16_384, 32_767, 32_768, 65_534,
    65_535,
];

/// A name and its twin can share so many low bits: as many as names had before, as a byte has, as the library's keys of rules go
/// by, as two bytes of a file hold.
const SHARED: [u32; 6] = [6, 8, 8, 11, 14, 14];

fn any(random: &mut Random) -> u32 {
    random.below(ALL) as u32
}

/// Another name with the same low bits, or one in the same class of the library's index of rules.
pub fn twin(random: &mut Random, name: u32) -> u32 {
    let other = of_class(class(name), random.below(ALL / 64) as u32);
    if random.below(6) == 0 && other != name {
        return other;
    }
    let shared = random.one(&SHARED);
    let high = random.within(1, (ALL >> shared) - 1) as u32;
    name ^ high << shared
}

/// The class of a name in the library's index, of 64.
fn class(name: u32) -> u32 {
    (name + name / 64 + name / 4096) % 64
}

/// The name of a class whose bits above the low six are these.
fn of_class(class: u32, high: u32) -> u32 {
    let rest = (high + high / 64) % 64;
    64 * high + (64 + class - rest) % 64
}

/// So many names, each once: the smallest, a name and its twins, ends, or any.
pub fn some(random: &mut Random, count: usize) -> Vec<u32> {
    let kind = random.below(8);
    let mut names: Vec<u32> = Vec::new();
    while names.len() < count {
        let name = match (kind, names.first()) {
            (0..=2, _) => names.len() as u32,
            (3..=5, Some(&first)) => twin(random, first),
            (6, _) => random.one(&ENDS),
            _ => any(random),
        };
        // there may be no other of its kind
        let name = match names.contains(&name) {
            true => any(random),
            false => name,
        };
        if !names.contains(&name) {
            names.push(name);
        }
    }
    names
}

#[cfg(test)]
mod tests {
    use super::*;

    #[test]
    fn twins() {
        let mut apart = [0; 17];
        let mut of_class = 0;
        for seed in 0..2000 {
            let mut random = Random::new(seed);
            let name = any(&mut random);
            let other = twin(&mut random, name);
            assert!(other < 65_536 && other != name);
            apart[(other ^ name).trailing_zeros() as usize] += 1;
            of_class += u32::from(class(other) == class(name));
            assert!((other ^ name) % 64 == 0 || class(other) == class(name));
        }
        // some differ above each of these bits alone
        for shared in SHARED {
            assert!(apart[shared as usize..].iter().sum::<u32>() > 300);
        }
        assert!(of_class > 200);
    }

    #[test]
    fn names_of_each_kind() {
        let mut met = std::collections::HashSet::new();
        for seed in 0..2000 {
            let mut random = Random::new(seed);
            let count = random.one(&[1, 2, 3, 64]);
            let names = some(&mut random, count);
            let mut once = names.clone();
            once.sort_unstable();
            once.dedup();
            assert_eq!((once.len(), names.len()), (count, count));
            met.extend(names);
        }
        assert!(ENDS.iter().all(|name| met.contains(name)));
        assert!(met.iter().all(|&name| name <= 65_535));
    }
}
