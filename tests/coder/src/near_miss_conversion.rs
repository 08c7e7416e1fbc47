//! A second converter (02, T-04: From one edition to the other), made of the second decoder, in which one
//! step can be got wrong on purpose: one of its own, or one of the decoder's. Without a slip it must answer
//! as `convert` does.

use crate::codeword::{codewords, interleave, messages_of, with_check_symbols, Messages};
use crate::component::encode_component;
use crate::decode::{Answer, Kind};
use crate::edition::Edition;
use crate::encode::encoded_word;
use crate::erasure::{erased_positions, MOST_ERASURES};
use crate::line_rule::LineRule;
use crate::near_miss;
use crate::profile::{Profile, PROFILES};
use crate::refusal::{require, Refusal};
use crate::slip::Slip;

/// The slips that came with a second line rule (02, T-06). The conversions that were stored before tell them.
pub const LINE_RULE_SLIPS: [Slip; 2] = [Slip::ConvertedByRuleTwo, Slip::RuleOfWordKept];

/// What the converter answers with this slip, or with none.
pub fn convert(
    edition: u8,
    profile: u8,
    word: &[u8],
    output: &mut [u8],
    slip: Option<Slip>,
) -> Result<(), Refusal> {
    let compares = slip == Some(Slip::LengthsComparedFirst);
    require(!compares || output.len() == word.len(), Refusal::Length)?;
    let named = Edition::lookup(edition)?;
    let takes_any = slip == Some(Slip::OutputBeforeProfile);
    let is_any = PROFILES.iter().any(|profile| profile.word_length() == output.len());
    require(!takes_any || is_any, Refusal::Length)?;
    let of_output = slip == Some(Slip::EditionOfOutput);
    let profile = Profile::of(if of_output { named.other() } else { named }, profile)?;
    Converter { profile, slip }.convert(word, output)
}

/// After which test the length of the output is tested.
#[derive(PartialEq, Eq)]
enum After {
    WordLength,
    Symbols,
    Reading,
}

/// A converter of the words of a profile.
struct Converter<'a> {
    profile: &'a Profile,
    slip: Option<Slip>,
}

impl Converter<'_> {
    fn slips(&self, slip: Slip) -> bool {
        self.slip == Some(slip)
    }

    /// The numbers from 2 on; then the word is written.
    fn convert(&self, word: &[u8], output: &mut [u8]) -> Result<(), Refusal> {
        require(word.len() == self.profile.word_length(), Refusal::Length)?;
        self.require_output(output, After::WordLength)?;
        if self.slips(Slip::ReceivedWrittenFirst) {
            write(word, output);
        }
        self.require_unerased(word, output)?;
        let (answer, messages) = self.read(word)?;
        let is_another = word != by_rule_1(self.profile, &messages);
        self.refuse_if(Slip::AnotherChoiceNotClean, is_another)?;
        if !self.is_passed_on(&answer) {
            if self.slips(Slip::NotCleanWritten) {
                write(&self.converted(word, &messages), output);
            }
            return Err(self.not_clean(&answer));
        }
        self.require_output(output, After::Reading)?;
        write(&self.converted(word, &messages), output);
        Ok(())
    }

    /// Number 2 for the output, where it is tested at this point.
    fn require_output(&self, output: &[u8], point: After) -> Result<(), Refusal> {
        let tested = match self.slip {
            Some(Slip::OutputUntested) => return Ok(()),
            Some(Slip::OutputAfterSymbols) => After::Symbols,
            Some(Slip::OutputLast) => After::Reading,
            _ => After::WordLength,
        };
        let (length, takes_longer) = (self.profile.word_length(), Slip::LongerOutputTaken);
        let is_right = output.len() == length || self.slips(takes_longer) && output.len() > length;
        require(tested != point || is_right, Refusal::Length)
    }

    /// 13 where the slip is made, and there is what it takes for a reason.
    fn refuse_if(&self, slip: Slip, is_reason: bool) -> Result<(), Refusal> {
        require(!(self.slips(slip) && is_reason), Refusal::NotClean)
    }

    /// What slips refuse before the word is read: before number 3, and between 3 and 11.
    fn require_unerased(&self, word: &[u8], output: &[u8]) -> Result<(), Refusal> {
        let erasures = erased_positions(word).len();
        self.refuse_if(Slip::NotCleanBeforeSymbols, erasures > 0)?;
        if self.profile.require_received(word).is_err() {
            return Ok(());
        }
        self.require_output(output, After::Symbols)?;
        self.refuse_if(Slip::NotCleanBeforeErasures, erasures > 0)?;
        self.refuse_if(Slip::ErasuresUnfilled, (1..=MOST_ERASURES).contains(&erasures))
    }

    /// Numbers 3, 11 and 4, or what the decoder answers.
    fn read(&self, word: &[u8]) -> Result<(Answer, Messages), Refusal> {
        let read = near_miss::decode(self.profile, word, self.slip);
        read.map_err(|refusal| match refusal {
            Refusal::Unreadable { .. } if self.slips(Slip::UnreadableIsNotClean) => {
                Refusal::NotClean
            }
            _ => refusal,
        })
    }

    /// "It must not pass a doubtful word on."
    fn is_passed_on(&self, Answer { decoded, tried }: &Answer) -> bool {
        match (self.slip, decoded.kind) {
            (_, Kind::Clean) => true,
            (Some(Slip::CorrectedPassedOn), Kind::Corrected(_)) => true,
            (Some(Slip::FilledPassedOn), Kind::Filled(..)) => true,
            (Some(Slip::ChecksPassedOn), _) => {
                decoded.sent().all(|sent| sent.position > self.profile.m())
            }
            (Some(Slip::NoneTriedPassedOn), _) => *tried == 0,
            _ => false,
        }
    }

    /// "13, the word reads but as mended or filled".
    fn not_clean(&self, answer: &Answer) -> Refusal {
        if self.slips(Slip::NotCleanIsUnreadable) {
            Refusal::Unreadable { tried: answer.tried }
        } else {
            Refusal::NotClean
        }
    }

    /// "the word the other edition's writer makes for the same pair". T-06: "T-04 keeps to version 1."
    fn converted(&self, word: &[u8], messages: &Messages) -> Vec<u8> {
        let other = &self.profile.in_other_edition();
        let m = self.profile.m();
        match self.slip {
            Some(Slip::OwnEditionWritten) => by_rule_1(self.profile, messages),
            Some(Slip::WordCopied) => word.to_vec(),
            Some(Slip::WordOfBothCopied) if messages_of(other, word).is_some() => word.to_vec(),
            Some(Slip::Complemented) => complemented(self.profile, word),
            Some(Slip::EncodedWordComplemented) => {
                complemented(self.profile, &by_rule_1(self.profile, messages))
            }
            Some(Slip::CheckSymbolsKept) => [&by_rule_1(other, messages)[..m], &word[m..]].concat(),
            Some(Slip::ChoiceKept) => self.by_own_choice(word, messages),
            Some(Slip::MessagesExchanged) => {
                let [first, second] = messages.clone();
                by_rule_1(other, &[second, first])
            }
            Some(Slip::ConvertedByRuleTwo) => encoded_word(other, LineRule::Two, messages),
            Some(Slip::RuleOfWordKept) => {
                let is_of_two = word == encoded_word(self.profile, LineRule::Two, messages);
                let rule = if is_of_two { LineRule::Two } else { LineRule::One };
                encoded_word(other, rule, messages)
            }
            _ => by_rule_1(other, messages),
        }
    }

    /// The word of the other edition by the choice that made this codeword.
    fn by_own_choice(&self, word: &[u8], messages: &Messages) -> Vec<u8> {
        let edition = self.profile.edition.other();
        let mut words = codewords(self.profile, messages).into_iter();
        let made = words.find(|(_, made)| made == word);
        let (choice, _) = made.expect("every codeword is made by a choice");
        let components = messages.each_ref().map(|message| encode_component(self.profile, message));
        let w = choice.apply(edition, self.profile.q, &interleave(edition, &components));
        with_check_symbols(self.profile, &w)
    }
}

/// The word of two messages by line rule 1.
fn by_rule_1(profile: &Profile, messages: &Messages) -> Vec<u8> {
    encoded_word(profile, LineRule::One, messages)
}

/// The word with every symbol of w taken from q−1, and its check symbols.
pub fn complemented(profile: &Profile, word: &[u8]) -> Vec<u8> {
    let w: Vec<u8> = word[..profile.m()].iter().map(|&symbol| profile.q - 1 - symbol).collect();
    with_check_symbols(profile, &w)
}

/// Writes as many symbols of the word as there is room for.
fn write(word: &[u8], output: &mut [u8]) {
    for (written, &symbol) in output.iter_mut().zip(word) {
        *written = symbol;
    }
}
