//! Encoding, decoding and converting by a coder's entry points and by the separate coder.

use coder::codeword::Messages;
use coder::decode::{Answer, Decoded, Kind, Sent};
use coder::line_rule::LineRule;
use coder::profile::Profile;
use coder::refusal::Refusal;
use fogzurt::{Decode, EntryPoints, PackedAnswer, PositionAndSymbol};

use crate::compare::{compare, Buffer, Checked, FILLER};

/// The separate coder's editions, profiles, line rules and boxes are bytes. No number that is wider names one,
/// and neither does 0.
pub fn narrow(number: u64) -> u8 {
    u8::try_from(number).unwrap_or(0)
}

/// 0, or the number of the refusal.
pub fn number_of(answer: Result<(), Refusal>) -> u64 {
    answer.map_or_else(|refusal| u64::from(refusal.number()), |()| 0)
}

/// What decoding has to answer, packed. Of the refusals only 4 has a count.
pub fn packed(answer: Result<Answer, Refusal>) -> PackedAnswer {
    let (answer, tried) = match answer {
        Ok(Answer { decoded, tried }) => (read(decoded), tried),
        Err(refusal) => {
            let tried = if let Refusal::Unreadable { tried } = refusal { tried } else { 0 };
            (PackedAnswer::refused(refusal.number()), tried)
        }
    };
    answer.with_tried(tried as u8)
}

/// The answer to a word that is read, without its count.
fn read(Decoded { kind, error }: Decoded) -> PackedAnswer {
    let read = match kind {
        Kind::Clean => PackedAnswer::clean(),
        Kind::Corrected(Sent { position, symbol }) => PackedAnswer::corrected(position, symbol),
        Kind::Filled(one, other) => PackedAnswer::filled(sent(one), other.map(sent)),
    };
    read.with_error(error as i8)
}

fn sent(Sent { position, symbol }: Sent) -> PositionAndSymbol {
    (position, symbol)
}

/// The edition and the profile that a call is told, right or not.
pub type Told = [u64; 2];

/// Those of a profile.
pub fn told(profile: &Profile) -> Told {
    [profile.edition.number(), profile.number].map(u64::from)
}

/// Encodes by a line rule, right or not, into an output of this length; what is right is found by the separate
/// coder's search of all choices.
pub fn encode(
    tried: &EntryPoints,
    told: Told,
    rule: u64,
    messages: [&[u8]; 2],
    length: usize,
) -> Checked {
    let mut out = vec![FILLER; length];
    let [edition, profile] = told.map(narrow);
    let [first, second] = messages;
    let expected = coder::encode::encode(edition, profile, narrow(rule), first, second, &mut out);
    encode_to(tried, told, rule, messages, number_of(expected), &out)
}

/// Encodes a pair of a profile by a line rule, where the word is known.
pub fn encode_word(
    tried: &EntryPoints,
    profile: &Profile,
    rule: LineRule,
    messages: &Messages,
    word: &[u8],
) -> Checked {
    let messages = messages.each_ref().map(Vec::as_slice);
    encode_to(tried, told(profile), rule.number().into(), messages, 0, word)
}

/// Encodes, where it is known what is right: the answer, and what the output then holds.
fn encode_to(
    tried: &EntryPoints,
    [edition, profile]: Told,
    rule: u64,
    messages: [&[u8]; 2],
    expected: u64,
    output: &[u8],
) -> Checked {
    let [first, second] = messages.map(Buffer::new);
    let mut out = Buffer::output(output.len());
    let (lent_first, lent_second) = (first.lent(), second.lent());
    let answer = (tried.encode)(edition, profile, rule, lent_first, lent_second, out.lent_mut());
    let ([a, b], length) = (messages, output.len());
    compare(
        || format!("encode {edition}, {profile}, {rule}, {a:?}, {b:?}, into {length} bytes"),
        [answer, expected],
        &[("first", &first, a), ("second", &second, b), ("out", &out, output)],
    )
}

/// Decodes by both decoders into outputs of these lengths; what is right is found by the separate coder's search.
pub fn decode(tried: &EntryPoints, told: Told, word: &[u8], lengths: [usize; 2]) -> Checked {
    let [mut first, mut second] = lengths.map(|length| vec![FILLER; length]);
    let [edition, profile] = told.map(narrow);
    let expected = coder::decode::decode(edition, profile, word, &mut first, &mut second);
    decode_to(tried, told, word, packed(expected), [&first, &second])
}

/// What the separate coder's search finds for a word of N symbols: its answer and the messages, or the
/// refusal.
pub type Found = Result<(Answer, Messages), Refusal>;

/// Decodes by both decoders a word for which the search found this.
pub fn decode_found(tried: &EntryPoints, profile: &Profile, word: &[u8], found: &Found) -> Checked {
    let untouched = vec![FILLER; profile.k()];
    let (answer, outputs) = match found {
        Ok((answer, messages)) => (Ok(*answer), messages.each_ref()),
        Err(refusal) => (Err(*refusal), [&untouched; 2]),
    };
    decode_to(tried, told(profile), word, packed(answer), outputs.map(Vec::as_slice))
}

/// A decoder, its name, and what it has to answer where decode has to answer this. The one by syndromes (02,
/// T-09) has another answer than decode only in the count: it is 0.
pub type Decoder = (Decode, &'static str, fn(PackedAnswer) -> PackedAnswer);

/// Both decoders.
pub fn decoders(tried: &EntryPoints) -> [Decoder; 2] {
    [
        (tried.decode, "decode", |answer| answer),
        (tried.syndrome_decode, "syndrome_decode", |answer| answer.with_tried(0)),
    ]
}

/// Decodes by both decoders, where it is known what is right: what decode answers, and what both outputs then
/// hold.
pub fn decode_to(
    tried: &EntryPoints,
    told: Told,
    word: &[u8],
    expected: PackedAnswer,
    outputs: [&[u8]; 2],
) -> Checked {
    decoders(tried)
        .into_iter()
        .try_for_each(|decoder| decode_by(decoder, told, word, expected, outputs))
}

/// Decodes by one decoder, into outputs of its own.
pub fn decode_by(
    (decode, name, answered): Decoder,
    [edition, profile]: Told,
    word: &[u8],
    expected: PackedAnswer,
    outputs: [&[u8]; 2],
) -> Checked {
    let expected = answered(expected);
    let received = Buffer::new(word);
    let [mut first, mut second] = outputs.map(|output| Buffer::output(output.len()));
    let (lent_first, lent_second) = (first.lent_mut(), second.lent_mut());
    let answer = decode(edition, profile, received.lent(), lent_first, lent_second);
    let [a, b] = outputs;
    let lengths = outputs.map(<[u8]>::len);
    compare(
        || format!("{name} {edition}, {profile}, {word:?}, into {lengths:?} bytes"),
        [answer, expected],
        &[("word", &received, word), ("first", &first, a), ("second", &second, b)],
    )
}

/// Converts into an output of this length; what is right is found by the separate coder's search.
pub fn convert(tried: &EntryPoints, told: Told, word: &[u8], length: usize) -> Checked {
    let mut out = vec![FILLER; length];
    let [edition, profile] = told.map(narrow);
    let expected = coder::convert::convert(edition, profile, word, &mut out);
    convert_to(tried, told, word, number_of(expected), &out)
}

/// Converts a word of a profile, where it is known what is right: the other edition's word, or the refusal.
pub fn convert_word(
    tried: &EntryPoints,
    profile: &Profile,
    word: &[u8],
    expected: Result<&[u8], Refusal>,
) -> Checked {
    let untouched = vec![FILLER; profile.word_length()];
    let number = number_of(expected.map(|_| ()));
    convert_to(tried, told(profile), word, number, expected.unwrap_or(&untouched))
}

/// Converts, where it is known what is right: the answer, and what the output then holds.
fn convert_to(
    tried: &EntryPoints,
    [edition, profile]: Told,
    word: &[u8],
    expected: u64,
    output: &[u8],
) -> Checked {
    let received = Buffer::new(word);
    let mut out = Buffer::output(output.len());
    let answer = (tried.convert)(edition, profile, received.lent(), out.lent_mut());
    compare(
        || format!("convert {edition}, {profile}, {word:?}, into {} bytes", output.len()),
        [answer, expected],
        &[("word", &received, word), ("out", &out, output)],
    )
}

#[cfg(test)]
mod tests {
    use coder::text::symbols;
    use fogzurt::LIBRARY;

    use super::*;

    /// The separate coder's decoder, with its count.
    fn searched(
        edition: u64,
        profile: u64,
        word: &[u8],
        first: &mut [u8],
        second: &mut [u8],
    ) -> PackedAnswer {
        let [edition, profile] = [edition, profile].map(narrow);
        packed(coder::decode::decode(edition, profile, word, first, second))
    }

    /// A decoder by syndromes whose answer has a count is told from the right one, by a word that is corrected and by
    /// one that is unreadable; so are the two decoders exchanged.
    #[test]
    fn a_count_by_syndromes_is_told() {
        let counting = EntryPoints { decode: searched, syndrome_decode: searched, ..LIBRARY };
        let right = EntryPoints {
            syndrome_decode: |edition, profile, word, first, second| {
                searched(edition, profile, word, first, second).with_tried(0)
            },
            ..counting
        };
        let exchanged =
            EntryPoints { decode: right.syndrome_decode, syndrome_decode: right.decode, ..right };
        for word in ["1200021111111112220", "2121111111111111102"].map(symbols) {
            let is_right = |tried| decode(tried, [13, 1], &word, [5, 5]).is_ok();
            assert_eq!([&right, &counting, &exchanged].map(is_right), [true, false, false]);
        }
    }
}
