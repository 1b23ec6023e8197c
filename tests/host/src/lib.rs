//! What the host tests share: the definition's evaluator, the two engines, a model on whole histories and one on any state,
//! the block of registers over them, the plan as text, the counts of missing events, random plans.

pub mod buffer;
pub mod engine;
pub mod evaluator;
pub mod found;
pub mod history;
pub mod layout;
pub mod missing;
pub mod model;
pub mod plan;
pub mod random;
pub mod registers;
pub mod replay;
pub mod saved;
pub mod texts;
pub mod worked;
