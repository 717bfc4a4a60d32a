//! What cargo-fuzz runs (`fuzz`), over bytes that are drawn: the same at each run. COUNT draws more than usual.

mod drive;

use drive::{drive, Seen};

/// Numbers that look like any (xorshift).
struct Draw(u64);

impl Draw {
    fn next(&mut self) -> u64 {
        self.0 ^= self.0 << 13;
        self.0 ^= self.0 >> 7;
        self.0 ^= self.0 << 17;
        self.0
    }

    fn below(&mut self, bound: usize) -> usize {
        (self.next() >> 11) as usize % bound
    }
}

/// Bytes of tokens in an order that a stream may have, by a walk over what a parser expects; some are changed.
fn bytes_of(draw: &mut Draw) -> Vec<u8> {
    use pokhvizi::yaml::*;
    let (mut parser, mut bytes, length) = (PushParser::new(), Vec::new(), draw.below(60));
    let mut events = Vec::new();
    parser.push(drive::tokens_of(&[]).remove(0), &mut events).unwrap();
    while bytes.len() < length {
        let byte = draw.next() as u8;
        let token = drive::tokens_of(&[byte]).remove(1);
        let is_expected = parser.expected().contains(token.type_());
        if !is_expected && draw.below(100) > 0 {
            continue;
        }
        bytes.push(byte);
        if parser.push(token, &mut events).is_err() || parser.expected() == TokenTypes::none() {
            break;
        }
    }
    bytes
}

#[test]
fn drawn_tokens_are_the_same_to_each_call() {
    let count = std::env::var("COUNT").map_or(4000, |count| count.parse().unwrap());
    let (mut draw, mut all) = (Draw(0x9E37_79B9_7F4A_7C15), Seen::default());
    let (mut ended, mut halves, mut full) = (0, 0, 0);
    for number in 0..count {
        let bytes = match number % 4 {
            0 => (0..draw.below(20)).map(|_| draw.next() as u8).collect(),
            _ => bytes_of(&mut draw),
        };
        let seen = drive(&bytes);
        all.events += seen.events;
        all.documents += seen.documents;
        all.refused |= seen.refused;
        all.repeated |= seen.repeated;
        all.endless |= seen.endless;
        all.half |= seen.half;
        all.full |= seen.full;
        halves += usize::from(seen.half);
        full += usize::from(seen.full);
        ended += usize::from(seen.ended);
    }
    assert!(all.refused && all.repeated && all.endless, "{all:?}");
    assert!(
        ended > count / 50 && halves > count / 4 && all.documents > count / 4 && all.events > 5 * count,
        "{ended} ended, {halves} halves, {all:?}"
    );
    assert!(full > count / 8, "{full} halves where a list is full");
    println!(
        "{ended} of {count} lists ended, {halves} gave half a document, {full} where a list is full: {all:?}"
    );
}
