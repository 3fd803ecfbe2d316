//! What the planner is held against: the whole of document 01, with papers 1, 2, 3, 5 and 10 of document 02, a second time
//! (`literal`), all but paper 5 as fast as plain Rust makes it (`fast`), all side by side (`calls`), question 6 alone by its four
//! loops (`four_loops`), and sheets of every kind (`samples`), from seeded numbers (`random`).
pub mod calls;
pub mod fast;
pub mod four_loops;
pub mod literal;
pub mod random;
pub mod samples;
