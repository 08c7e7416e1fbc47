//! A second coder, written for speed: what a careful Rust programmer would write without proofs, to
//! measure the proved one against. It shares nothing with the crates. With `tests/coder`, which
//! the benchmark's tests hold it to, it shares the names of answers and the sizes of things, and no step. Every
//! function is linear in its input and allocates nothing.

mod cell;
mod code;
mod convert;
mod decode;
mod encode;
mod fill;
mod least_peak;
pub mod lines;
pub mod queue;

pub use code::{shape, Shape};
pub use convert::convert;
pub use decode::decode;
pub use encode::encode;

/// Calls a function of `Code` for the edition and the profile with these numbers, which the compiler
/// thus knows.
macro_rules! for_profile {
    ($edition:expr, $number:expr, $function:ident($($argument:expr),*)) => {
        match ($edition, $number) {
            (13, 1) => $crate::code::Profile1::<13>::$function($($argument),*),
            (13, 2) => $crate::code::Profile2::<13>::$function($($argument),*),
            (13, 3) => $crate::code::Profile3::<13>::$function($($argument),*),
            (13, 4) => $crate::code::Profile4::<13>::$function($($argument),*),
            (18, 1) => $crate::code::Profile1::<18>::$function($($argument),*),
            (18, 2) => $crate::code::Profile2::<18>::$function($($argument),*),
            (18, 3) => $crate::code::Profile3::<18>::$function($($argument),*),
            (18, 4) => $crate::code::Profile4::<18>::$function($($argument),*),
            (13 | 18, _) => Err(coder::refusal::Refusal::Profile),
            _ => Err(coder::refusal::Refusal::Edition),
        }
    };
}
pub(crate) use for_profile;
