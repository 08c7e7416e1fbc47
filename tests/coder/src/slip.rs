//! The steps of a decoder that can be got wrong, those of an encoder's check row sums, what differs
//! between the editions, and the steps of a converter from one to the other.

/// One step got wrong: 01's "Wrong turns seen in drafts", and others of their kind; then those that
/// the erasures of T-01, the error of T-02, the count of T-08, the eight-bit sums of T-05, the 2018 edition
/// of T-03 and the converter of T-04 invite, the last two of them where T-06 adds a line rule. Slips of an
/// encoder by that rule stand in `line_rule_slip`.
#[derive(Debug, Clone, Copy, PartialEq, Eq)]
pub enum Slip {
    /// δ is 002's printed 2(q−1)(2−m).
    PrintedDelta,
    /// The received check symbols are added, as 002 prints it, and not subtracted.
    CheckSymbolsAdded,
    /// A balanced word is clean, whatever its check symbols say.
    BalanceIsClean,
    /// An excess of weight of q or more is reduced mod q.
    ExcessReduced,
    /// A check sum may be off by any amount, and not only by the excess of weight mod q.
    CheckSumOffByAny,
    /// The error is removed mod q, and not by plain subtraction.
    RemovedModQ,
    /// The first position whose symbol stays in range is taken, whatever the components say.
    FirstInRange,
    /// A syndrome of zeros with a last 1 names no position, and is taken as nothing to undo.
    PositionZero,
    /// The last row is not looked at, so any amount at one position passes for a 1.
    LastRowIgnored,
    /// Both components may have a 1 to be taken away.
    BothTaken,
    /// Only the first component is tested.
    FirstComponentOnly,
    /// Only the second component is tested.
    SecondComponentOnly,
    /// Only the word that the encoder makes is accepted, and no other codeword of the pair.
    EncodedWordOnly,
    /// T-01, here and below. An erasure still spoils the word: number 3.
    ErasureSpoils,
    /// An erasure is taken for level 0, and the word is then decoded as one without erasures.
    ErasureIsZero,
    /// A filling that is one symbol away from a codeword will do, whichever symbol that is.
    UnerasedCorrected,
    /// What the weight lacks is reduced mod q, so that a filled word may weigh q too much or too
    /// little.
    LackReduced,
    /// The components of a filled word are not tested: its weight and check symbols are enough.
    ComponentsUntested,
    /// Of the fillings with the right weight and check symbols only the first is tested.
    OneFillingTried,
    /// Where one check symbol is erased, the other is not compared either.
    OtherCheckUntested,
    /// Where no check symbol is erased, a filled word's check symbols are not compared.
    CheckSymbolsUntested,
    /// Where both check symbols are erased, the word need not be balanced.
    BalanceUntested,
    /// Only the first of two filled positions is reported.
    FirstReported,
    /// Two filled positions are reported in falling order.
    FallingOrder,
    /// Number 11 comes before number 3.
    ErasuresBeforeSymbols,
    /// Number 4 comes before number 11.
    UnreadableBeforeErasures,
    /// More than two erasures that can be filled are, and number 11 is for the others.
    ManyFilled,
    /// Three erasures are allowed.
    ThreeAllowed,
    /// T-02, here and below. The error is sent minus received.
    ErrorSignTurned,
    /// The error is answered without its sign.
    ErrorSizeAlone,
    /// The error is reduced mod q, and so never negative.
    ErrorReduced,
    /// The byte of the error is read as one without a sign: 255 for -1.
    ErrorByteUnsigned,
    /// The symbol sent is answered in place of the error.
    ErrorIsSymbolSent,
    /// The position, which counts from 1, is taken for an index: the next symbol minus the one sent.
    ErrorOfNextPosition,
    /// The error is what the weight is off by, also at a check symbol: 0.
    CheckErrorZero,
    /// At a check symbol the error is what the check sum is off by: sent minus received, mod q.
    CheckErrorIsSumOff,
    /// A filled word carries what its weight is off by with 0 at the erasures.
    FilledCarriesError,
    /// T-08, here and below. The position found is not counted, only those before it.
    TriedBeforeFound,
    /// All positions of the half are counted, also where one is found.
    TriedWholeHalf,
    /// All positions of w are counted up to the one found, and not only those of the half; all m
    /// where none fits.
    TriedInBothHalves,
    /// Only positions whose symbol stays in range without the error are counted.
    TriedInRange,
    /// The positions are counted in falling order.
    TriedFalling,
    /// Where none fits, the count is 0.
    TriedZeroUnreadable,
    /// Where no odd position fits, the count is n, as for the even ones.
    TriedOneLessOdd,
    /// Where no even position fits, the count is n + 1, as for the odd ones.
    TriedOneMoreEven,
    /// Where the check sum is off by something else than the weight, no position is tried, and the
    /// count is 0.
    TriedZeroOffByOther,
    /// Where the weight is off by q or more, no position is tried, and the count is 0.
    TriedZeroFromQ,
    /// The odd positions are counted where both check sums disagree.
    TriedBothOff,
    /// The odd positions are counted where neither check sum disagrees, but the weight is off.
    TriedNeitherOff,
    /// The weight is not looked at: with one wrong check symbol all positions of its half are
    /// counted, though w is balanced.
    TriedBalanced,
    /// In a word with erasures positions are counted as if the erasures were 0.
    TriedErasedAsZero,
    /// In a word with erasures these are counted.
    TriedErasures,
    /// T-05, here and below: of an encoder. What is carried is not reduced after a symbol: the sum wraps
    /// in its byte at 256, and is reduced at the end.
    SumReducedAtEnd,
    /// The same, but that the sum stops at 255 where it would wrap.
    SumSaturates,
    /// The same, but that the byte has a sign, so that the sum wraps at 128.
    SumInSignedByte,
    /// What is carried is reduced mod q-1.
    SumReducedByOneLess,
    /// The product is not reduced, and q is taken off once after the sum. What is left is taken for a
    /// level.
    SumLessOnce,
    /// The same, but that what is left is reduced at the end: only a sum that wraps does harm.
    SumLessOnceReducedAtEnd,
    /// q is taken once off the product and once off the sum, which is enough for q = 3.
    SumLessOnceEach,
    /// 2q and then q are taken once off the product, and q off the sum, which is enough up to q = 5.
    SumLessInTwoSteps,
    /// The sum of ones, which has no product, is not reduced, and is taken for a level.
    SumOfOnesLeft,
    /// The same, but that it is reduced at the end: only a sum that wraps does harm.
    SumOfOnesReducedAtEnd,
    /// The products are reduced and the sum is not, as s + d * x % q is read, and it is taken for a
    /// level.
    SumOfResiduesLeft,
    /// The sum is reduced before each product is added and not after, so that the last one stays on it.
    SumLastProductLeft,
    /// What is carried for the first component is not cleared before the second.
    SumCarriedOver,
    /// T-03, here and below, in words of the 2018 edition; first those of an encoder and a decoder alike.
    /// The edition is not looked at: every word is one of 2013.
    EditionIgnored,
    /// The added zero stands first in x, and differencing drops the first symbol.
    ZeroFirst,
    /// Integration runs from the front, as does differencing: from the symbol before.
    IntegratedFromFront,
    /// b′1 is at place 1 of x, and b1 at place 2.
    ComponentsExchanged,
    /// The whole w is one of 2013 from its end to its start, and so are its components.
    WordReversed,
    /// Of an encoder, here and below. v runs from 1 to m−1.
    VFromOne,
    /// v runs from 0 to m. This does no harm: with v = m the word is that of the next s with v = 0, which
    /// would be tried next.
    VUpToM,
    /// v runs from 1 to m, as it does in 2013, or is taken for an index from 0 on. Of the words tried only
    /// that of s = 0 and v = 0 is then missing, which no profile balances: this does no harm either.
    VAsIn2013,
    /// v counts from the end of x, as integration does.
    VFromEnd,
    /// v is tried before s.
    VBeforeS,
    /// s is added at x1.
    SAddedFirst,
    /// s is tried in the order in which 2013 tries its own for the complement: q−2 downward, then q−1.
    SFalling,
    /// Of a decoder, here and below. What a corrected symbol moves the syndromes by has 2013's sign.
    CorrectedAsIn2013,
    /// What a filled symbol moves the syndromes by has 2013's sign.
    FilledAsIn2013,
    /// The negatives of the components are restored, as if they were the components: 1 is added where it
    /// should be taken.
    OneAdded,
    /// The messages are those of the negatives of the components.
    MessagesNegated,
    /// The word is complemented, and the error is the complement's: of the other sign in w, and of another
    /// size where a check symbol wraps.
    ErrorOfComplement,
    /// Of a call, here and below. Number 1 comes before number 12.
    EditionAfterProfile,
    /// Every other number comes before number 12.
    EditionLast,
    /// An edition that is neither 13 nor 18 is taken for 13.
    OtherEditionIs2013,
    /// An edition that is not 13 is taken for 18, the other one.
    OtherEditionIs2018,
    /// T-04, here and below: of a converter. A corrected word is passed on.
    CorrectedPassedOn,
    /// A filled word is passed on: no symbol of it is known to be wrong.
    FilledPassedOn,
    /// A word of which only check symbols are corrected or filled is passed on: its w is as it was sent.
    ChecksPassedOn,
    /// A word in which no position was tried is passed on: T-08's count is 0 for clean words, but also for
    /// filled ones and those with a check symbol corrected.
    NoneTriedPassedOn,
    /// A corrected or filled word is refused with 4.
    NotCleanIsUnreadable,
    /// An unreadable word is refused with 13.
    UnreadableIsNotClean,
    /// A word with one or two erasures is refused with 13 at once, and not with 4 where no codeword agrees.
    ErasuresUnfilled,
    /// A word with any erasures is refused with 13 at once: 13 comes before number 11.
    NotCleanBeforeErasures,
    /// The same before the symbols are looked at: 13 comes before number 3.
    NotCleanBeforeSymbols,
    /// A codeword by another choice than the encoder's is refused with 13.
    AnotherChoiceNotClean,
    /// 13 is answered, but the word is written.
    NotCleanWritten,
    /// The received word is written to the output, to be corrected there, before it is read.
    ReceivedWrittenFirst,
    /// The length of the output is not tested: as many symbols are written as there is room for.
    OutputUntested,
    /// An output longer than N will do, and its end is left as it was.
    LongerOutputTaken,
    /// Number 2 for the output comes after number 3.
    OutputAfterSymbols,
    /// Number 2 for the output comes last, as the encoder tests it.
    OutputLast,
    /// Number 2 comes before number 1 for an output as long as no profile's word.
    OutputBeforeProfile,
    /// Number 2 comes before numbers 12 and 1 for an output that is not as long as the word.
    LengthsComparedFirst,
    /// The word is the one that the encoder of its own edition makes.
    OwnEditionWritten,
    /// The word is copied.
    WordCopied,
    /// The word is copied if it is a codeword of the other edition too, whatever its pair there.
    WordOfBothCopied,
    /// Every symbol of w is taken from q−1, and the check symbols are made anew: a codeword of the pair in
    /// the other edition, but by the choice that goes with the one received.
    Complemented,
    /// The same of the word that the encoder of its own edition makes: the first choice of one edition is
    /// not that which goes with the first of the other.
    EncodedWordComplemented,
    /// Every symbol of the word that is written is right, but the check symbols are those received.
    CheckSymbolsKept,
    /// s and v are those of the word received.
    ChoiceKept,
    /// The edition that is named is taken for that of the output.
    EditionOfOutput,
    /// The second message is taken for the first, and the first for the second.
    MessagesExchanged,
    /// T-06, here and below. The word is the one that line rule 2 chooses.
    ConvertedByRuleTwo,
    /// A word that line rule 2 chooses in its own edition is converted by that rule.
    RuleOfWordKept,
}
