//! Files made faulty.

use crate::random::Random;

/// The file cut before each of its bytes, the whole file last.
pub fn cut_at_every_byte(file: &[u8]) -> Vec<Vec<u8>> {
    (0..=file.len()).map(|end| file[..end].to_vec()).collect()
}

pub fn with_byte(file: &[u8], place: usize, value: u8) -> Vec<u8> {
    let mut changed = file.to_vec();
    changed[place] = value;
    changed
}

/// Values for a byte that are likely to be mistaken for the one that stands there.
pub fn near_values(value: u8) -> Vec<u8> {
    let mut values = vec![
        value.wrapping_add(1),
        value.wrapping_sub(1),
        0,
        value ^ 0x80,
        255,
        value.wrapping_add(8),
        16,
    ];
    values.retain(|other| *other != value);
    values
}

/// One random fault, which may happen to do no harm.
pub fn randomly_damaged(random: &mut Random, file: &[u8]) -> Vec<u8> {
    let mut damaged = file.to_vec();
    if damaged.is_empty() {
        let count = random.between(1, 12);
        return random.bytes(count);
    }
    let place = random.below(damaged.len());
    match random.below(7) {
        0 => damaged.truncate(place),
        1 => damaged[place] = random.byte(),
        2 => damaged[place] ^= 1 << random.below(8),
        3 => {
            damaged.remove(place);
        }
        4 => damaged.insert(place, random.byte()),
        5 => {
            let count = random.between(1, 9);
            damaged.extend(random.bytes(count));
        }
        _ => {
            // A stretch of the file once more at its end: often a record met a second time.
            let end = (place + random.between(4, 16)).min(file.len());
            damaged.extend(&file[place..end]);
        }
    }
    damaged
}
