//! What the comparisons share, over the number of axes: lent memory, what its bytes mean, and when they are sound.

pub mod layout;
pub mod memory;
pub mod renumber;
pub mod sound;
pub mod watch;
pub mod words;
