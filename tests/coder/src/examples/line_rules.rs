//! Pairs by line rule 2 (02, T-06: Calmer words on the pair). 02 has no cases: those of profile 1 were worked out by
//! hand, and the calm ones are from a trial of this request.

/// s, v, the line word of that choice, and its peak.
pub type Weighed = (u8, usize, &'static str, u32);

/// A pair of profile 1 with all its balancing choices, in the order of trying, and the index of the one that line
/// rule 2 takes. Line rule 1 takes the first.
pub struct Pair {
    pub edition: u8,
    pub messages: [&'static str; 2],
    pub choices: &'static [Weighed],
    pub taken: usize,
}

/// In both editions: the zero pair, whose one word has swing 0 up to α; 01's pair, of which both rules take the same
/// choice; then pairs of one other symbol, of which
/// - the first has a lower peak by another v, and both v have the same s;
/// - the second has the same peak by two s, and the lower s has the higher v;
/// - the third has the same peak by three v;
/// - the fourth has the least peak by the last choice, s = q−1.
///
/// The half of 2 0 0 0 0 is 2 1 1 2 0 0 0 0, that of 0 0 1 0 0 is 2 2 1 0 0 1 0 0, and that of 0 0 0 0 1 is 01's,
/// 1 0 1 0 0 0 0 1. So 1 0 0 1 1 2 2 1 .. has the swings 0 -2 -4 -4 -4 -2 0 0 .., and 0 2 2 0 0 1 2 1 .. has
/// -2 0 2 0 -2 -2 0 0 ..; both have α = 0 with swing -2, and swing 0 at β.
pub const PAIRS: [Pair; 12] = [
    Pair {
        edition: 13,
        messages: ["00000", "00000"],
        choices: &[(0, 1, "1111111111111111102", 2)],
        taken: 0,
    },
    Pair {
        edition: 13,
        messages: ["00001", "00000"],
        choices: &[
            (1, 3, "1200011111111112220", 4),
            (1, 12, "1222200000011112202", 8),
            (2, 11, "2000011111222220011", 6),
        ],
        taken: 0,
    },
    Pair {
        edition: 13,
        messages: ["20000", "00000"],
        choices: &[(0, 1, "1001122111111111102", 4), (0, 7, "0220012111111111102", 2)],
        taken: 1,
    },
    Pair {
        edition: 13,
        messages: ["00100", "00000"],
        choices: &[(1, 12, "1002200000022222202", 12), (2, 5, "2110122222200000011", 12)],
        taken: 0,
    },
    Pair {
        edition: 13,
        messages: ["00000", "20000"],
        choices: &[
            (0, 1, "1100112211111111102", 4),
            (0, 4, "0020112211111111111", 4),
            (0, 7, "0022002211111111102", 4),
        ],
        taken: 0,
    },
    Pair {
        edition: 13,
        messages: ["00000", "00001"],
        choices: &[
            (0, 13, "0011112222220000102", 8),
            (1, 12, "1122220000011111202", 8),
            (2, 14, "2200001111111222020", 4),
        ],
        taken: 2,
    },
    Pair {
        edition: 18,
        messages: ["00000", "00000"],
        choices: &[(1, 0, "1111111111111111102", 2)],
        taken: 0,
    },
    Pair {
        edition: 18,
        messages: ["00001", "00000"],
        choices: &[
            (0, 2, "1022211111111110011", 4),
            (0, 11, "1000022222211110002", 8),
            (2, 10, "0222211111000002220", 6),
        ],
        taken: 0,
    },
    Pair {
        edition: 18,
        messages: ["20000", "00000"],
        choices: &[(1, 0, "1221100111111111102", 4), (1, 6, "2002210111111111102", 2)],
        taken: 1,
    },
    Pair {
        edition: 18,
        messages: ["00100", "00000"],
        choices: &[(0, 11, "1220022222200000002", 12), (2, 4, "0112100000022222220", 12)],
        taken: 0,
    },
    Pair {
        edition: 18,
        messages: ["00000", "20000"],
        choices: &[
            (1, 0, "1122110011111111102", 4),
            (1, 3, "2202110011111111120", 4),
            (1, 6, "2200220011111111102", 4),
        ],
        taken: 0,
    },
    Pair {
        edition: 18,
        messages: ["00000", "00001"],
        choices: &[
            (0, 11, "1100002222211111002", 8),
            (1, 12, "2211110000002222102", 8),
            (2, 13, "0022221111111000211", 4),
        ],
        taken: 2,
    },
];

/// Words of profile 1 and their swings, by hand: the zero word, 01's word, and the calmest above.
pub const SWINGS: [(&str, [i32; 19]); 3] = [
    ("1111111111111111102", [0, 0, 0, 0, 0, 0, 0, 0, 0, 0, 0, 0, 0, 0, 0, 0, 0, -2, 0]),
    ("1200011111111112220", [0, 2, 0, -2, -4, -4, -4, -4, -4, -4, -4, -4, -4, -4, -4, -2, 0, 2, 0]),
    ("0220012111111111102", [-2, 0, 2, 0, -2, -2, 0, 0, 0, 0, 0, 0, 0, 0, 0, 0, 0, -2, 0]),
];

/// A peak, s and v.
pub type PeakAndChoice = (u32, u8, usize);

/// A calm pair of edition 13: its profile and messages, what line rule 2 takes, and what it would if the peak were
/// over w alone.
pub type CalmPair = (u8, [&'static str; 2], PeakAndChoice, PeakAndChoice);

#[rustfmt::skip]
pub const CALM_PAIRS: [CalmPair; 4] = [
    (3, ["343232231204103233243", "201322442301323204203"], (2, 2, 40), (2, 2, 35)),
    (3, ["210131322410400322001", "313213121141412321041"], (4, 2, 10), (2, 2, 15)),
    (4, ["552264211445621546613351660204044343054666523",
         "111553063512352053312133061555451223212204531"], (6, 3, 42), (4, 3, 49)),
    (4, ["450403322016400225506226021326156331524105132",
         "321140224524560150215140656462520360620020333"], (4, 3, 56), (4, 3, 49)),
];

/// A w of profile 3 that is lawful in edition 13, with its check symbols 4 and 0, and peak 4; its complement is
/// lawful in edition 18, with 3 and 1, and has peak 2.
pub const CALM_W: &str = "2213313040413202222330232131403213303212314131123";
