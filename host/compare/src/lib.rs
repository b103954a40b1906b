//! The comparison of two engines: random cases from a seed, each given to both, every byte of the results compared.
//!
//! A case is one station: terms, schema and script, a load, and a list of run and page calls with damaged bytes in
//! between, and with graphs published. What comes next may depend on what the calls answered, so a case is fixed by its seed and index as long as
//! the engines agree, which is what is tested.
//!
//! The texts of numbers, and the pages that a schema is gathered from, are no part of a case, as the calls that read them are lent nothing of a
//! station: they are drawn and read one after the other.
//!
//! | module | what it does |
//! |---|---|
//! | [`draw`] | draws words, scripts, pages, calls, graphs to be published, damage, tuples, texts of numbers and pages for schemas |
//! | [`records`], [`before`] | a card's records, told apart by their widths; records and tables of the widths of before |
//! | [`call`] | stations, calls, texts of numbers, pages for schemas and engines: the proved one, the second, and the second by the definitions; type printer and evaluator as programs |
//! | [`judge`] | what two engines owe each other on one call, text or page, and what either owes by itself, also over the calls of a case |
//! | [`count`] | what was met, and whether it was met often enough |
//! | [`case`] | one case, from drawing to judging |
//! | [`input`] | one text or page, from drawing to judging: what a call without a station is lent |
//! | [`replay`], [`shrink`] | a case as a list of moves without chance, and made smaller while it still shows its difference |
//! | [`run`] | case after case, input after input |
#![forbid(unsafe_code)]
#![warn(missing_docs)]

pub mod before;
pub mod call;
pub mod case;
pub mod count;
pub mod draw;
pub mod input;
pub mod judge;
pub mod records;
pub mod replay;
pub mod run;
pub mod shrink;
