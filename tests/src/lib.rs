//! The planner's static library beside an implementation of its own of document 01 and of the changes of document 02, written from the documents and not from the code.
//! `examples/library` makes the library; `cargo test --release --offline` in this folder runs the tests, nearly all on a stack of 512 KiB (`stack`). With
//! PLANNER_TEST_SEED=N a random run is repeated; every run prints its seed, and a call that fails prints whole. With
//! PLANNER_TEST_TRACE set every call is printed before it is made, for one that ends the program.
//! A `Call` is one call of a C entry with all that it is given; `library` makes it, `oracle` says what its answer has to be, `compare` puts the two side by side.

pub mod by_hand;
pub mod calls;
pub mod compare;
pub mod damage;
pub mod draw;
pub mod library;
pub mod oracle;
pub mod random;
pub mod script;
pub mod seen;
pub mod stack;
