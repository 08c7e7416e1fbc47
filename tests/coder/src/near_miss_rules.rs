//! Calls that name a line rule (02, T-06), with a slip in what its number means or in its place in the order.

use crate::edition::Edition;
use crate::line_rule::LineRule;
use crate::line_rule_slip::LineRuleSlip;
use crate::refusal::Refusal;

/// The edition, the profile and the line rule that a call is told, right or not.
pub type Told = [u8; 3];

/// Slips that show where the edition or the profile is wrong, too.
pub const EARLY_SLIPS: [LineRuleSlip; 2] =
    [LineRuleSlip::RuleBeforeEdition, LineRuleSlip::RuleBeforeProfile];

/// Slips that show in calls of every profile of both editions.
pub const RULE_SLIPS: [LineRuleSlip; 18] = [
    LineRuleSlip::RuleAfterLengths,
    LineRuleSlip::RuleLast,
    LineRuleSlip::OtherRuleIsOne,
    LineRuleSlip::OtherRuleIsTwo,
    LineRuleSlip::ZeroIsOne,
    LineRuleSlip::ThreeIsTwo,
    LineRuleSlip::LowestBitOnly,
    LineRuleSlip::TwoLowestBitsOnly,
    LineRuleSlip::HighestBitIgnored,
    LineRuleSlip::TwoRefused,
    LineRuleSlip::OneRefused,
    LineRuleSlip::RefusedAsProfile,
    LineRuleSlip::RefusedAsLength,
    LineRuleSlip::RefusedWith13,
    LineRuleSlip::FirstUnderTwo,
    LineRuleSlip::LeastPeakUnderOne,
    LineRuleSlip::RulesExchanged,
    LineRuleSlip::RuleToldFirst,
];

/// What a call answers with a slip; `right` answers as it should.
pub fn call<Answer>(
    slip: LineRuleSlip,
    told: Told,
    right: impl Fn(Told) -> Result<Answer, Refusal>,
) -> Result<Answer, Refusal> {
    let [edition, profile, rule] = told;
    let with = |rule: u8| right([edition, profile, rule]);
    let named = LineRule::lookup(rule);
    match (slip, rule) {
        (LineRuleSlip::RuleBeforeEdition, _) => named.and_then(|_| right(told)),
        (LineRuleSlip::RuleBeforeProfile, _) => {
            Edition::lookup(edition).and(named).and_then(|_| right(told))
        }
        (LineRuleSlip::RuleToldFirst, _) => right([edition, rule, profile]),
        (LineRuleSlip::LowestBitOnly, _) => with(if rule % 2 == 1 { 1 } else { 2 }),
        (LineRuleSlip::TwoLowestBitsOnly, _) => with(rule % 4),
        (LineRuleSlip::HighestBitIgnored, _) => with(rule % 128),
        (LineRuleSlip::OneRefused, 1) | (LineRuleSlip::TwoRefused, 2) => with(0),
        (LineRuleSlip::FirstUnderTwo | LineRuleSlip::RulesExchanged, 2) => with(1),
        (LineRuleSlip::LeastPeakUnderOne | LineRuleSlip::RulesExchanged, 1) => with(2),
        (LineRuleSlip::ZeroIsOne, 0) => with(1),
        (LineRuleSlip::ThreeIsTwo, 3) => with(2),
        _ if named.is_err() => of_no_rule(slip, || right(told), with),
        _ => right(told),
    }
}

/// What a call that names neither rule answers: `right` as it should, `with` one of the rules.
fn of_no_rule<Answer>(
    slip: LineRuleSlip,
    right: impl Fn() -> Result<Answer, Refusal>,
    with: impl Fn(u8) -> Result<Answer, Refusal>,
) -> Result<Answer, Refusal> {
    let refused_as = |refusal: Refusal| {
        right().map_err(|right| if right == Refusal::LineRule { refusal } else { right })
    };
    match slip {
        LineRuleSlip::RuleAfterLengths => match with(1) {
            Ok(_) | Err(Refusal::Symbol) => Err(Refusal::LineRule),
            refused => refused,
        },
        LineRuleSlip::RuleLast => with(1).and(Err(Refusal::LineRule)),
        LineRuleSlip::OtherRuleIsOne => with(1),
        LineRuleSlip::OtherRuleIsTwo => with(2),
        LineRuleSlip::RefusedAsProfile => refused_as(Refusal::Profile),
        LineRuleSlip::RefusedAsLength => refused_as(Refusal::Length),
        LineRuleSlip::RefusedWith13 => refused_as(Refusal::NotClean),
        _ => right(),
    }
}
