//! The fast coder's functions, with answers as the library has them. It has one decoder, which tries positions, and
//! stands beside both of the library's.

use crosscheck::{number_of, packed};
use fogzurt::EntryPoints;

pub const FAST: EntryPoints = EntryPoints {
    encode: |edition, profile, rule, first, second, out| {
        number_of(fast::encode(edition, profile, rule, first, second, out))
    },
    decode: |edition, profile, word, first, second| {
        packed(fast::decode(edition, profile, word, first, second))
    },
    syndrome_decode: |edition, profile, word, first, second| {
        packed(fast::decode(edition, profile, word, first, second)).with_tried(0)
    },
    convert: |edition, profile, word, out| number_of(fast::convert(edition, profile, word, out)),
    format: |sheet| number_of(fast::queue::format(sheet)),
    enqueue: |sheet, box_number, profile, word| {
        number_of(fast::queue::enqueue(sheet, box_number, profile, word))
    },
    peek: |sheet, record, out| number_of(fast::queue::peek(sheet, record, out)),
    dequeue: |sheet, out| number_of(fast::queue::dequeue(sheet, out)),
};

#[cfg(test)]
mod tests {
    use super::FAST;

    #[test]
    fn the_fast_coder_answers_as_the_separate_one_does() {
        for section in crosscheck::YARDSTICK {
            section(&FAST).unwrap();
        }
    }
}
