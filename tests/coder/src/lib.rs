//! A coder written from documents 01, 02 and 002 alone. It shares nothing with the crates that it is
//! used to test: what 01 says exists is looked for by trying everything, and what 01 calls right
//! is tested condition by condition. Clarity comes before speed throughout.
//!
//! Quoted sentences are document 01's or, of requests (T-01 to T-06, T-08, T-09), document 02's.
//! Positions count from 1, as there.

pub mod balance;
pub mod calm_words;
pub mod codeword;
pub mod component;
pub mod convert;
pub mod decode;
pub mod edition;
pub mod encode;
pub mod erased_words;
pub mod erasure;
pub mod examples;
pub mod fillings;
pub mod line_rule;
pub mod line_rule_slip;
pub mod lines;
pub mod list;
pub mod located_near_misses;
pub mod located_slip;
pub mod located_words;
pub mod location;
pub mod near_miss;
pub mod near_miss_calls;
pub mod near_miss_conversion;
pub mod near_miss_editions;
mod near_miss_erasures;
mod near_miss_errors;
pub mod near_miss_located;
pub mod near_miss_pairs;
pub mod near_miss_peaks;
pub mod near_miss_rules;
pub mod near_miss_sums;
mod near_miss_tried;
mod near_miss_words;
pub mod near_misses;
pub mod peak;
pub mod profile;
pub mod queue;
pub mod random_words;
pub mod refusal;
pub mod rng;
mod slip;
pub mod syndrome_decode;
pub mod text;
pub mod tried;
pub mod tried_words;
