//! What a decoder that finds the position of an error from the syndromes (02, T-09: A reader that doesn't try
//! places) can get wrong.

/// One step got wrong: of the candidates, of their test, of what is tested besides, and slips that do no harm.
#[derive(Debug, Clone, Copy, PartialEq, Eq)]
pub enum LocatedSlip {
    /// Only the position that the first syndrome names is a candidate.
    FirstOnly,
    /// Only the position that the second syndrome names is a candidate.
    SecondOnly,
    /// The sign of what a component gains is not turned in edition 18.
    SignNotTurned,
    /// The error is taken for sent minus received.
    ErrorTurned,
    /// The error is taken without its sign.
    ErrorSizeTaken,
    /// A first syndrome of zeros does not name the last odd position, m, which meets no column of the first
    /// component.
    LastForgotten,
    /// A second syndrome of zeros does not name position 1, which meets no column of the second component.
    FirstForgotten,
    /// The syndromes are divided by the negative of what moved them.
    DividedByNegative,
    /// The syndromes are multiplied by what moved them, and not by its inverse. For q = 3 that is the same.
    NotInverted,
    /// The odd positions are looked at where the check sum of the even ones disagrees, and these where that of
    /// the odd ones does.
    ParitiesExchanged,
    /// Columns are counted from 0 where a syndrome names one: the next position is a candidate.
    NamedFromZero,
    /// Columns are counted from 0 throughout, so that the next position passes the test as well.
    ColumnsFromZero,
    /// A candidate is taken without a test.
    CandidateUntested,
    /// In the test only the syndrome that named the candidate is moved.
    OtherNotMoved,
    /// In the test the last row of the moved syndromes is not looked at.
    LastRowUntested,
    /// The symbol's range is not tested: the error is removed mod q.
    RangeUntested,
    /// The check sum may be off by something else than the error mod q.
    CheckSumUntested,
    /// A weight that is off by q or more is let through: the error is what it is off by, reduced mod q.
    ExcessReduced,
    /// Both check sums may disagree, if one does so by the error mod q.
    BothOffTaken,
    /// The candidate of the second syndrome is tested before that of the first. This does no harm: at most one
    /// passes.
    SecondFirst,
    /// In the test both moved syndromes may be columns. This does no harm: the one that named the candidate has
    /// nothing left above its last row.
    BothColumnsTaken,
    /// A weight that is off by q or more is let through as it is. This does no harm: no symbol stays in range.
    ExcessUntested,
}

impl LocatedSlip {
    /// Whether it is one of the step that is handed no symbol of the word. The others are of what is tested
    /// besides.
    pub fn is_of_step(self) -> bool {
        !matches!(
            self,
            LocatedSlip::RangeUntested
                | LocatedSlip::CheckSumUntested
                | LocatedSlip::ExcessReduced
                | LocatedSlip::BothOffTaken
                | LocatedSlip::ExcessUntested
        )
    }
}
