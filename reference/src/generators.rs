//! Calls by chance: cards of every size, words, rankings, candidates and slices, right ones and damaged ones.

mod calls;
mod candidates;
mod cards;
mod columns;
mod damage;
mod joining;
mod live;
mod tableaux;

pub use calls::Generator;
pub use candidates::walk;
pub use joining::two_machines;
