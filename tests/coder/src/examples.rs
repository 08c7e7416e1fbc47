//! The cases of document 01, copied from it by hand, and others that were worked out by hand. Nothing here
//! is computed by the coder: its tests compare it with these, and the vectors begin with them.

pub mod line_rules;

/// The example input of "The line program"; "the last line is empty but ended".
pub const BOXLINES_INPUT: &str = "\
1 1111111111111111102
1 1200021111111112220
1 2211111111111111102
1 3111111111111111102
5 11
1 111

";

/// The example output of "The line program", "whole", with T-02's number ("+1 in 01's mended line").
pub const BOXLINES_OUTPUT: &str = "\
1 C 0 0 0 00000 00000
1 M 6 1 +1 00001 00000
R 4
R 3
R 1
R 2
R 9
";

/// "Checked by hand": the zero pairs, and the pair 0 0 0 0 1 and zeros. The profile, the pair and
/// the line word that 01 gives for it.
pub fn encoded() -> Vec<(u8, [String; 2], String)> {
    let zero_pair = |profile: u8, k: usize, symbol: &str, m: usize, checks: &str| {
        (profile, [(); 2].map(|()| "0".repeat(k)), symbol.repeat(m) + checks)
    };
    let another = ["00001", "00000"].map(str::to_string);
    vec![
        zero_pair(1, 5, "1", 17, "02"),
        zero_pair(3, 21, "2", 49, "13"),
        zero_pair(4, 45, "3", 97, "24"),
        (1, another, "1200011111111112220".to_string()),
    ]
}

/// A pair of the 2018 edition (02, T-03), as `encoded` has those of 01, and its choice.
pub struct Encoded2018 {
    pub profile: u8,
    pub messages: [String; 2],
    pub s: u8,
    pub v: usize,
    pub word: String,
}

/// 02 has no cases: these were worked out by hand. The zero pairs have v = 0, and their words are 01's.
/// - The pair 0 0 0 0 1 and zeros: x is 1 0 0 0 1, nine zeros, 1 0 0. With s = 0 the w is 0 2 2 2 2, ten
///   ones, 0 0, of weight 18; v = 1 makes it 19, and v = 2 makes it 17, the middle.
/// - Twenty zeros and a 1, and a 1 and twenty zeros: the halves are 0 3 0 0 1, 18 zeros, 1 and 1 3 1,
///   21 zeros; x is 0 1 3 3 0 1 0 0 1, 37 zeros, 1 0 0. With s = 0 the w is 0 0 4 1 3 3 2 2 2, 38 ones,
///   0 0, of weight 55. Each v raises it by 1, but v = 3 makes a 4 a 0: v = 48 makes it 98, the middle.
pub fn encoded_2018() -> Vec<Encoded2018> {
    let zero_pair = |profile: u8, k: usize, s: u8, m: usize, checks: &str| Encoded2018 {
        profile,
        messages: [(); 2].map(|()| "0".repeat(k)),
        s,
        v: 0,
        word: s.to_string().repeat(m) + checks,
    };
    vec![
        zero_pair(1, 5, 1, 17, "02"),
        zero_pair(3, 21, 2, 49, "13"),
        zero_pair(4, 45, 3, 97, "24"),
        Encoded2018 {
            profile: 1,
            messages: ["00001", "00000"].map(str::to_string),
            s: 0,
            v: 2,
            word: "1022211111111110011".to_string(),
        },
        Encoded2018 {
            profile: 3,
            messages: ["0".repeat(20) + "1", "1".to_string() + &"0".repeat(20)],
            s: 0,
            v: 48,
            word: "110244333".to_string() + &"2".repeat(38) + "1004",
        },
    ]
}

/// A received word of profile 1, and what reading it answers: kind, place, symbol sent, T-02's number
/// and both user words, or R and the number of the refusal; then T-08's count, which refusals but 4
/// do not have.
pub type Case = (&'static str, &'static str, Option<usize>);

/// Received words of profile 1, from "Checked by hand" and the line program's example.
pub const DECODED: [Case; 5] = [
    ("1111111111111111102", "C 0 0 0 00000 00000", Some(0)),
    ("1200021111111112220", "M 6 1 +1 00001 00000", Some(3)),
    ("1111111111111111101", "M 19 2 -1 00000 00000", Some(0)),
    ("1111111111111111111", "R 4", Some(0)),
    ("2211111111111111102", "R 4", Some(0)),
];

/// Received words of profile 1 with erasures, and what T-01 makes of them. 02 has no cases: these
/// are 01's words with symbols erased, which are then the only ones that agree; and words that no
/// filling balances, or whose unerased check symbols the only balanced filling contradicts.
pub const ERASED: [Case; 13] = [
    ("?111111111111111102", "F 1 1 0 00000 00000", Some(0)),
    ("11111111111111111?2", "F 18 0 0 00000 00000", Some(0)),
    ("111111111111111110?", "F 19 2 0 00000 00000", Some(0)),
    ("?1?1111111111111102", "F 1 1 3 1 0 00000 00000", Some(0)),
    ("?11111111111111110?", "F 1 1 19 2 0 00000 00000", Some(0)),
    ("11111111111111111??", "F 18 0 19 2 0 00000 00000", Some(0)),
    ("1200?1111111111222?", "F 5 0 19 0 0 00001 00000", Some(0)),
    ("1200?2111111111222?", "R 4", Some(0)),
    ("2?11111111111111102", "R 4", Some(0)),
    ("?111111111111111101", "R 4", Some(0)),
    ("11111111111111111?1", "R 4", Some(0)),
    ("???1111111111111102", "R 11", None),
    ("???3111111111111102", "R 3", None),
];

/// 01's word 1200011111111112220 with one symbol too high or too low, by one level and by two, in w
/// and at both check symbols; and T-02's number, worked out by hand.
pub const ERRORS: [Case; 9] = [
    ("2200011111111112220", "M 1 1 +1 00001 00000", Some(1)),
    ("0200011111111112220", "M 1 1 -1 00001 00000", Some(1)),
    ("1000011111111112220", "M 2 2 -2 00001 00000", Some(1)),
    ("1202011111111112220", "M 4 0 +2 00001 00000", Some(2)),
    ("1200011111111112120", "M 17 2 -1 00001 00000", Some(9)),
    ("1200011111111112210", "M 18 2 -1 00001 00000", Some(0)),
    ("1200011111111112200", "M 18 2 -2 00001 00000", Some(0)),
    ("1200011111111112221", "M 19 0 +1 00001 00000", Some(0)),
    ("1200011111111112222", "M 19 0 +2 00001 00000", Some(0)),
];

/// Received words of profile 1, and T-08's count, worked out by hand. First 01's word
/// 1200011111111112220 with an early symbol of w wrong, the last even one and the last odd one. Then
/// its zero word with
/// - an odd symbol too high, and α too, by another number; an even one, and β;
/// - an odd symbol too high, and α by as much, so that neither check sum disagrees;
/// - two odd symbols too high, which no third symbol mends; two even ones;
/// - four odd symbols too high, so that the weight is off by more than a symbol can be; four even ones;
/// - an odd symbol too high and an even one too low, so that the weight is not off.
pub const TRIED: [Case; 11] = [
    ("1210011111111112220", "M 3 0 +1 00001 00000", Some(2)),
    ("1200011111111110220", "M 16 2 -2 00001 00000", Some(8)),
    ("1200011111111112020", "M 17 2 -2 00001 00000", Some(9)),
    ("2111111111111111122", "R 4", Some(9)),
    ("1211111111111111101", "R 4", Some(8)),
    ("2111111111111111112", "R 4", Some(0)),
    ("2121111111111111102", "R 4", Some(9)),
    ("1212111111111111102", "R 4", Some(8)),
    ("2121212111111111102", "R 4", Some(9)),
    ("1212121211111111102", "R 4", Some(8)),
    ("2011111111111111102", "R 4", Some(0)),
];

/// Received words of profile 1 and the 2018 edition, by hand: the zero word, the word of 0 0 0 0 1 and
/// zeros, that word with a symbol too high or too low and with symbols erased; last 01's word of that
/// pair, which in 2013 has v = 3, and here is no codeword.
pub const DECODED_2018: [Case; 12] = [
    ("1111111111111111102", "C 0 0 0 00000 00000", Some(0)),
    ("1022211111111110011", "C 0 0 0 00001 00000", Some(0)),
    ("2022211111111110011", "M 1 1 +1 00001 00000", Some(1)),
    ("1022221111111110011", "M 6 1 +1 00001 00000", Some(3)),
    ("1022211111111111011", "M 16 0 +1 00001 00000", Some(8)),
    ("1022211111111110211", "M 17 0 +2 00001 00000", Some(9)),
    ("1022211111111110001", "M 18 1 -1 00001 00000", Some(0)),
    ("1022211111111110012", "M 19 1 +1 00001 00000", Some(0)),
    ("10222?1111111110011", "F 6 1 0 00001 00000", Some(0)),
    ("?022211111111110?11", "F 1 1 17 0 0 00001 00000", Some(0)),
    ("?0222111111111???11", "R 11", None),
    ("1200011111111112220", "R 4", Some(0)),
];

/// A received word of profile 1 that is corrected in w: its edition; what T-09's step is handed, as the vectors write
/// it, that is which check sum disagrees (0 for the odd positions), the symbols received and sent, and the rows of both
/// syndromes (of the low, the middle and the high digit, and of ones); and the position.
pub type LocatedCase = (u8, &'static str, &'static str, usize);

/// Words from `ERRORS`, `TRIED` and `DECODED_2018`, worked out by hand. In both editions the word of 0 0 0 0 1 and zeros
/// has 1 added at the first symbol of its second component. Without an error the syndromes are so 0000 and 1001, which
/// is column 1; columns 3 and 8 are 0101 and 2201. In edition 13 an error of e
/// - at position 2a adds e times column a to the first, and takes it from the second;
/// - at position 2a+1 adds e times column a to the second, and takes e times column a+1 from the first, where there
///   are such columns: position 1 leaves the second as it is, and position 17 the first.
///
/// In edition 18 it adds where it took, and takes where it added.
pub const LOCATED: [LocatedCase; 9] = [
    (13, "2200011111111112220", "0 21 2002 1001", 1),
    (13, "1000011111111112220", "1 02 1001 0000", 2),
    (13, "1200021111111112220", "1 21 0101 1200", 6),
    (13, "1200011111111110220", "1 02 2201 2100", 16),
    (13, "1200011111111112120", "0 12 0000 2100", 17),
    (18, "2022211111111110011", "0 21 1001 1001", 1),
    (18, "1022221111111110011", "1 21 0202 1102", 6),
    (18, "1022211111111111011", "1 10 1102 0202", 16),
    (18, "1022211111111110211", "0 20 0000 0202", 17),
];

/// T-04's converter: the edition and the profile that it is told, the word, and the word that it makes or the
/// refusal. 02 has no cases: these are the words above, and others that were worked out by hand.
/// - The zero pairs have the same word in both editions.
/// - The pair of profile 3 of `encoded_2018`: x of 2013 is 0 0 1 3 3 0 1 0 0 1, 37 zeros, 1 0. With s = 0 the
///   w is 0 0 1 4 2 2 3 3 3, 38 fours, 0 0, of weight 170, which no v makes 98; nor does one with s = 1. With
///   s = 2 it is 2 2 3 1 4 4 0 0 0, 38 ones, 2 2, of weight 58, and v = 10 makes it 98, the middle.
/// - The pair 0 0 0 0 1 and zeros: in 2013 also s = 1, v = 12 and s = 2, v = 11 balance, and in 2018 s = 0,
///   v = 11 and s = 2, v = 10.
pub fn converted() -> Vec<(u8, u8, String, String)> {
    let zeros = [(1, "1", 17, "02"), (2, "1", 53, "02"), (3, "2", 49, "13"), (4, "3", 97, "24")];
    let zeros = zeros.map(|(profile, symbol, m, checks)| {
        let word = symbol.repeat(m) + checks;
        (profile, [word.clone(), word])
    });
    let of_profile_3 = [["223144000", "3313"], ["110244333", "1004"]];
    let pairs = [
        (1, ["1200011111111112220", "1022211111111110011"].map(str::to_string)),
        (3, of_profile_3.map(|[start, end]| start.to_string() + &"2".repeat(38) + end)),
    ];
    let both_ways = zeros.into_iter().chain(pairs).flat_map(|(profile, [of_2013, of_2018])| {
        let there = (13, profile, of_2013.clone(), of_2018.clone());
        [there, (18, profile, of_2018, of_2013)]
    });
    let others =
        CONVERTED.map(|(edition, word, answer)| (edition, 1, word.to_string(), answer.to_string()));
    both_ways.chain(others).collect()
}

/// Words of profile 1: codewords by other choices than the encoder's; a word with one symbol wrong, with a
/// check symbol wrong, and erased; codewords of the other edition; and words that are unreadable or worse.
const CONVERTED: [(u8, &str, &str); 18] = [
    (13, "1222200000011112202", "1022211111111110011"),
    (13, "2000011111222220011", "1022211111111110011"),
    (18, "1000022222211110002", "1200011111111112220"),
    (18, "0222211111000002220", "1200011111111112220"),
    (13, "1200021111111112220", "R 13"),
    (18, "1022221111111110011", "R 13"),
    (13, "1111111111111111101", "R 13"),
    (18, "1111111111111111101", "R 13"),
    (13, "?111111111111111102", "R 13"),
    (18, "11111111111111111??", "R 13"),
    (13, "1022211111111110011", "R 4"),
    (18, "1200011111111112220", "R 4"),
    (13, "2211111111111111102", "R 4"),
    (18, "2?11111111111111102", "R 4"),
    (13, "???1111111111111102", "R 11"),
    (18, "???3111111111111102", "R 3"),
    (13, "111111111111111110", "R 2"),
    (17, "1111111111111111102", "R 12"),
];

/// "Checked by hand": user words of profile 1 and their halves.
pub const COMPONENTS: [(&str, &str); 2] = [("10000", "12210000"), ("00001", "10100001")];

/// The profile table: profile, q, r, n, k, m, N, middle, δ.
pub const PROFILE_TABLE: [[u32; 9]; 4] = [
    [1, 3, 3, 8, 5, 17, 19, 17, 0],
    [2, 3, 4, 26, 22, 53, 55, 53, 0],
    [3, 5, 3, 24, 21, 49, 51, 98, 1],
    [4, 7, 3, 48, 45, 97, 99, 291, 2],
];

/// A w of profile 1 in which a component has a syndrome of zeros with a last 1. It is no case of
/// 01, but follows from its definition of a lawful word; its word is refused with 4.
pub const POSITION_ZERO_W: &str = "00200111222111021";
