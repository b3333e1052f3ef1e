//! Tokens and bytes in no order at all.

use crate::random::Random;
use crate::words::token;

/// Tokens at random, most often behind the beginning of a program.
pub fn tokens(random: &mut Random) -> Vec<u8> {
    let mut bytes = Vec::new();
    if random.chance(150) {
        bytes.extend_from_slice(b"def f(x){return x;}");
    }
    if random.chance(800) {
        bytes.extend_from_slice(b"def main(w,h){");
    }
    for _ in 0..random.between(1, 40) {
        bytes.extend_from_slice(token(random).as_bytes());
        if random.chance(700) {
            bytes.push(*random.pick(b"  \n\t"));
        }
    }
    if random.chance(500) {
        bytes.push(b'}');
    }
    bytes
}

/// Bytes at random.
pub fn bytes(random: &mut Random) -> Vec<u8> {
    let mut bytes = Vec::new();
    if random.chance(300) {
        bytes.extend_from_slice(b"def main(w,h){");
    }
    let kind = random.below(4);
    for _ in 0..random.below(80) {
        bytes.push(match kind {
            0 => random.bits() as u8,
            1 => random.between(32, 126) as u8,
            2 => *random.pick(b"\"\"\"abz019 "),
            _ => *random.pick(b" \n\t\r\0\"a1(){}[];=+-!<>.,"),
        });
    }
    bytes
}
