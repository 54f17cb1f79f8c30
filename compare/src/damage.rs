//! Damage to made inputs, of cases and of descriptors.
use crate::random::Random;

/// Changes, inserts, removes or cuts off a few bytes.
pub fn damage(random: &mut Random, bytes: &mut Vec<u8>) {
    for _ in 0..random.between(1, 3) {
        let at = random.below(bytes.len() + 1);
        match random.below(8) {
            0 => bytes.insert(at, random.byte()),
            1 if at < bytes.len() => {
                bytes.remove(at);
            }
            2 if random.once_in(3) => bytes.truncate(at),
            3 if at < bytes.len() => bytes[at] ^= 128,
            4 if at < bytes.len() => bytes[at] = bytes[at].wrapping_add(1),
            5 if at < bytes.len() => bytes[at] = bytes[at].wrapping_sub(1),
            _ if at < bytes.len() => bytes[at] = random.byte(),
            _ => bytes.push(random.byte()),
        }
    }
}
