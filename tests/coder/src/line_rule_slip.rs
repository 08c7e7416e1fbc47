//! What an encoder by line rule 2 (02, T-06: Calmer words on the pair) can get wrong, and a call that names a rule.

/// One step got wrong: of the choice that is taken, of the peak, of the choices that are looked at, and of a
/// call.
#[derive(Debug, Clone, Copy, PartialEq, Eq)]
pub enum LineRuleSlip {
    /// The choice with the largest peak is taken.
    LargestPeak,
    /// Of choices with the least peak the one with the lowest v is taken, and then the lowest s.
    TiesByV,
    /// Of choices with the least peak the last is taken.
    TiesLast,
    /// Of choices with the least peak the one with the highest s is taken, and then the lowest v.
    TiesHighestS,
    /// Of choices with the least peak the one with the lowest s is taken, and then the highest v.
    TiesHighestV,
    /// Of choices with the least peak the first is taken in the other edition's order of s for the complement:
    /// q−2 downward, then q−1.
    TiesAsInOtherEdition,
    /// Only the choices of the lowest s that balances are looked at.
    FirstSOnly,
    /// The word is the one that the least peak makes in the other edition, every symbol of w taken from q−1 and
    /// the check symbols made anew.
    WordComplemented,
    /// Choices that do not balance are looked at, too.
    UnbalancedTaken,
    /// The peak is over the m places of w, without α and β.
    PeakOfW,
    /// The peak is over the first m−1 places. At place m a balanced w has swing 0.
    PeakUpToM1,
    /// The place of α is left out. That of β, which has swing 0, is not.
    PeakWithoutAlpha,
    /// The peak is from the second place on.
    PeakFromSecond,
    /// α is the sum at odd places, without δ.
    AlphaWithoutDelta,
    /// α is by 002's printed δ.
    AlphaByPrintedDelta,
    /// α is that of the complement, which has the same peak over w: that of the other edition's word.
    AlphaOfComplement,
    /// The peak is the largest swing, whose sign counts.
    PeakAbove,
    /// The peak is the lowest swing, without its sign.
    PeakBelow,
    /// The peak is the largest swing minus the lowest: how far they are apart.
    PeakBetween,
    /// The sizes of all swings are added up.
    PeakAddedUp,
    /// The peak is kept in a byte, and what passes 255 wraps: 256 is the least.
    PeakInByte,
    /// The swing is kept in a signed byte, and wraps at 128.
    SwingInSignedByte,
    /// The swing is the sum of the symbols minus i times (q−1): the sum is not doubled.
    SumNotDoubled,
    /// i counts from 0: the swing is twice the sum of the first i symbols minus i−1 times (q−1).
    PlacesFromZero,
    /// The peak is that of the word with s + 1 before the place and s after it or, in 2018, s and then s + 1.
    RaisedInOtherOrder,
    /// The 1 is taken to be added one place later than it is or, in 2018, to reach one place further.
    OneAddedLate,
    /// The lowest v is left out: 1 or, in 2018, 0.
    FirstVLeftOut,
    /// The highest v is left out: m or, in 2018, m−1.
    LastVLeftOut,
    /// v runs as in the other edition: from 0 to m−1 or, in 2018, from 1 to m.
    VAsInOtherEdition,
    /// s = q−1 is left out.
    LastSLeftOut,
    /// Harmless, here and below. The place of β is left out: α + β is q−1, so the swing is 0 there.
    PeakWithoutBeta,
    /// Place m is left out: a balanced w has swing 0 there.
    PeakWithoutM,
    /// β stands before α: its swing has the same size.
    BetaBeforeAlpha,
    /// The swing before the first place is counted, which is 0.
    PeakFromZero,
    /// The swing is the sum of the first i symbols minus i times (q−1)/2, which is half of it: q is odd.
    SwingHalved,
    /// The swing at a place is that of the symbols from there to the end, as integration runs in 2018: the whole
    /// word has swing 0, so this is minus the swing before the place.
    SwingFromEnd,
    /// v runs one further, up to m+1, with which nothing is added, or, in 2018, up to m: the word is that of v = 1
    /// and the s before or, in 2018, of v = 0 and the next s.
    OneVMore,
    /// Of a call, here and below. Number 14 comes before number 12.
    RuleBeforeEdition,
    /// Number 14 comes between 12 and 1.
    RuleBeforeProfile,
    /// Number 14 comes between 2 and 3.
    RuleAfterLengths,
    /// Number 14 comes after 3.
    RuleLast,
    /// A rule that is neither 1 nor 2 is taken for 1.
    OtherRuleIsOne,
    /// A rule that is neither 1 nor 2 is taken for 2.
    OtherRuleIsTwo,
    /// Rule 0 is taken for 1, as if it were named by default.
    ZeroIsOne,
    /// Rule 3 is taken for 2, as the newest.
    ThreeIsTwo,
    /// Only the lowest bit of the rule counts: odd is 1, even is 2.
    LowestBitOnly,
    /// Only the two lowest bits of the rule count.
    TwoLowestBitsOnly,
    /// The highest bit of a byte is not looked at: 129 is 1, and 130 is 2.
    HighestBitIgnored,
    /// Rule 2 is refused with 14.
    TwoRefused,
    /// Rule 1 is refused with 14: boxes already sold have it.
    OneRefused,
    /// A wrong rule is refused with 1.
    RefusedAsProfile,
    /// A wrong rule is refused with 2.
    RefusedAsLength,
    /// A wrong rule is refused with 13, the number before.
    RefusedWith13,
    /// The first balancing choice is taken under rule 2, too.
    FirstUnderTwo,
    /// The least peak is looked for under rule 1, too.
    LeastPeakUnderOne,
    /// 1 is the name of the least peak, and 2 that of the first choice.
    RulesExchanged,
    /// The rule is told before the profile.
    RuleToldFirst,
}
