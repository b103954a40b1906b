//! Scripts as text: [`parse`] reads one, [`print()`] writes it, [`encode`] makes its card, [`decode`] reads a card back, and
//! [`check`] asks the proved engine for the types of its variables.
//!
//! One tree ([`tree`]) stands between text and card. What is wrong is a [`Diagnostic`] with places in the text and the number of the
//! refusal that a load of such a card would give. Types are the engine's alone: what does not go together is found by loads of the script
//! with parts left out.
//!
//! ```
//! use text::{check, decode, encode, parse, print};
//! let source = parse("schema <p:speed> xsd:decimal  select $g, $s, $v where graph $g { $s <p:speed> $v } 60 < $v")?;
//! let types: Vec<String> = check(&source)?.iter().map(|(name, found)| format!("${name} {found}")).collect();
//! assert_eq!(types, ["$g xsd:anyURI", "$s xsd:anyURI", "$v xsd:decimal"]);
//! let card = encode(&source)?.card;
//! let again = parse(&print(&decode(&card, &Default::default())?))?;
//! assert_eq!(encode(&again)?.card, card);
//! # Ok::<(), Box<dyn std::error::Error>>(())
//! ```
#![forbid(unsafe_code)]
#![warn(missing_docs)]

mod check;
mod clash;
mod decode;
mod diagnostic;
mod encode;
mod legend;
mod lexer;
mod limits;
mod names;
mod parser;
mod print;
mod scope;
mod suggest;
pub mod tree;
mod walk;

pub use check::check;
pub use decode::{decode, split, BadCard};
pub use diagnostic::{Diagnostic, Label};
pub use encode::{encode, Encoded};
pub use legend::Legend;
pub use parser::parse;
pub use print::{print, print_schema};
