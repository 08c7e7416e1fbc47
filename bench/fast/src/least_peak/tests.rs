use coder::rng::Rng;

use super::*;
use crate::code::{Profile1, Profile2, Profile3, Profile4};

/// For each way of drawing w, before it is balanced.
const DRAWN: usize = 3000;

impl<const Q: usize, const R: usize, const N: usize, const EDITION: u64> Code<Q, R, N, EDITION> {
    /// A w of runs of up to so many symbols of a level, up to q−1 of which may be away from the level in the middle.
    fn draw(longest_run: usize, away: usize, rng: &mut Rng) -> Symbols {
        let mut w = [0; MAX_M];
        let mut index = 0;
        while index < Self::M {
            let level = (Self::HALF as usize + Q - away + rng.below(2 * away + 1)) % Q;
            for symbol in w[index..Self::M].iter_mut().take(rng.from_one_to(longest_run)) {
                *symbol = level as i16;
                index += 1;
            }
        }
        w
    }

    /// Both searches find the same, whatever the w is.
    fn check() {
        let rng = &mut Rng::new(EDITION);
        for (longest_run, away) in [(1, Q / 2), (1, 1), (5, Q / 2), (Self::M, Q / 2)] {
            for _ in 0..DRAWN {
                let w = Self::draw(longest_run, away, rng);
                assert_eq!(Self::least_peak(&w), Self::least_peak_by_shift(&w), "{w:?}");
            }
        }
    }
}

#[test]
fn side_by_side_is_found_what_one_shift_after_the_other_finds() {
    Profile1::<13>::check();
    Profile2::<13>::check();
    Profile3::<13>::check();
    Profile4::<13>::check();
    Profile1::<18>::check();
    Profile2::<18>::check();
    Profile3::<18>::check();
    Profile4::<18>::check();
}
