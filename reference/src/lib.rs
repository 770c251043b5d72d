//! A second implementation of the grammar engine, written from the requirements alone, to compare with. It is plain, and
//! slow where that keeps it plain.

pub mod call;
pub mod candidate;
pub mod card;
pub mod cases;
pub mod comparison;
pub mod corpus;
pub mod coverage;
pub mod cull;
#[cfg(feature = "engine")]
pub mod engine;
pub mod generators;
pub mod join;
pub mod lent;
pub mod lines;
pub mod live;
pub mod optimizer;
pub mod random;
pub mod ranking;
pub mod samples;
pub mod sets;
pub mod shrinking;
pub mod tableau;
pub mod weights;
pub mod written;

/// The number of a refusal in the refusal table. An accepted call is an `Ok`.
pub type Refusal = u8;

/// One count for each machine in card order, the unused places 0.
pub type Profile = [u16; 6];
