//! A second engine for page scripts over Linked Data triples.
//!
//! It is written from the specification (document 01, and the requests of document 02 that are met) and the settled readings
//! alone, with a structure of its own: bytes are decoded into Rust data, the work is done there, and the result is encoded
//! back. Nothing but `std` is used.
//!
//! Whatever has a plain definition has it here twice: once as the definition reads, once fast.
//!
//! | what | as defined | fast |
//! |---|---|---|
//! | types of a script | [`assignments`]: every assignment, judged by [`rules`] | [`arcs`]: arc consistency on sets of types |
//! | first answer of a block | [`search::Naive`]: every tuple, all parts evaluated | [`seek::Seek`]: driven by the patterns |
//! | ranks, and the order of strings | [`rank::PLAIN`]: each rank counted, texts taken apart | [`rank::FAST`]: a set of bits, the first difference |
//! | order of the quads | [`order::PLAIN`]: each before all after it | [`order::FAST`]: a quad as one number |
//! | the number of a text | [`number::plain`]: by the form, in whole numbers of any size | [`number::fast`]: one pass, each digit at its place |
//! | the written type that would do | [`suggest::plain`]: each written into the bytes, the card checked anew | [`suggest::fast`]: each written into the tree that was read |
//! | a schema out of a page | [`gather::plain`]: each subject's records looked for, each datatype tried | [`gather::fast`]: a map, one demand each |
//! | a graph as a page | [`publish::plain`]: of the records that are left the least is next | [`publish::fast`]: sorted by kind and slots |
//! | outcome and count of a tuple | [`count`]: all parts evaluated, then counted by their outcomes | [`early`]: one walk that leaves parts out |
//!
//! An [`Engine`] holds a typer, an order, an alphabet, a reading of numbers, a way to suggest, one to gather a schema, one to publish and a
//! search; [`Engine::fast`] and [`Engine::plain`] are the two that the comparison uses. The calls take and give the bytes of the C interface;
//! each returns nothing, or its refusal.
//!
//! It shares no code with the rest of the workspace: limits, offsets and records stand here in its own words, so that a slip
//! in one place is not repeated in the other.
#![forbid(unsafe_code)]
#![warn(missing_docs)]

pub mod arcs;
pub mod assignments;
pub mod calendar;
pub mod calls;
pub mod check;
pub mod count;
pub mod early;
pub mod edge;
pub mod eval;
pub mod evaluator;
pub mod gather;
pub mod hash;
pub mod lang;
pub mod limits;
pub mod machine;
pub mod note;
pub mod number;
pub mod order;
pub mod page;
pub mod pattern;
pub mod printer;
pub mod publish;
pub mod rank;
pub mod reader;
pub mod refusal;
pub mod rules;
pub mod saved;
pub mod schema;
pub mod scope;
pub mod script;
pub mod search;
pub mod seek;
pub mod sound;
pub mod suggest;
pub mod term;
pub mod terms;
pub mod truth;
pub mod types;
pub mod value;
pub mod whole;
pub mod write;

pub use calls::Engine;
pub use evaluator::evaluate;
pub use printer::print_types;
pub use refusal::Refusal;
