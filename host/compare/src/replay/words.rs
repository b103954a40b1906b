//! A call in words.

use super::Asked;
use crate::call::{Call, Engine, Made, Station};
use crate::count::sort_of;
use crate::judge::ranks::each_once;
use crate::shrink::tree::Node;
use std::fmt::Write;

/// A call in words: what it was lent, what each engine gave, and the saved run after it.
pub fn describe(made: &Made, tamper: &str, engines: [&dyn Engine; 2]) -> String {
    let mut text = match made.call {
        Call::Load => "load\n".to_string(),
        Call::Run { budget, now, report } => format!("run budget {budget} now {now} report of {report}\n"),
        Call::Page { graph, page, report } => format!("page graph {graph} report of {report} page {}\n", hex(page)),
        Call::Publish { graph, room, report } => {
            format!("publish graph {graph} into {room} bytes report of {report}\n")
        }
        Call::Total { report } => format!("total report of {report}\n"),
        Call::Suggest { report } => format!("suggest report of {report}\n"),
    };
    if matches!(made.call, Call::Load) || !tamper.is_empty() {
        let card = &made.before.card;
        let _ = writeln!(
            text,
            "  terms {}\n  schema {}\n  script {}",
            hex(&card.terms),
            hex(&card.schema),
            hex(&card.script)
        );
        if let Some(root) = Node::read(&card.script) {
            outline(&root, 2, &mut text);
        }
    }
    if !tamper.is_empty() {
        let _ = writeln!(text, "  before it, tampered with: {tamper}");
    }
    if made.call.is_ranked() {
        text += &ranks(&made.before.ranks);
    }
    for ((engine, answer), time) in engines.iter().zip(&made.answers).zip(made.times) {
        let (name, why) = (engine.name(), engine.why());
        let _ = writeln!(text, "  {name}: {} report {} {why} in {time:?}", answer.code, hex(&answer.report));
        if let Some((page, _)) = answer.published() {
            let _ = writeln!(text, "    page {}", hex(page));
        }
    }
    let _ = writeln!(text, "  saved run {}", hex(&made.after[0].saved));
    text
}

/// What an evaluator is asked on a station, in words, with what the definitions give.
pub fn describe_asked(asked: &Asked, station: &Station) -> String {
    let mut text = format!("evaluate now {}\n", asked.now);
    if let Some(tampering) = &asked.tampering {
        let _ = writeln!(text, "  before it, tampered with: {}", tampering.label);
    }
    text += &ranks(&asked.ranks);
    if let Some(left) = asked.left {
        let _ = writeln!(text, "  made {left} bytes long");
    }
    let lines = second::evaluate(&asked.input(station));
    if lines.lines().count() == asked.tuples.len() {
        for (tuple, line) in asked.tuples.iter().zip(lines.lines()) {
            let _ = writeln!(text, "  tuple {tuple:?}: {line}");
        }
    } else {
        let _ = writeln!(text, "  {} tuples: {}", asked.tuples.len(), lines.trim_end());
    }
    text
}

/// Ranks, where they are not the built-in ones: of what sort, and the bytes from 20 to 7E as they rise, or else the ranks themselves.
fn ranks(ranks: &[u8]) -> String {
    let mut bytes: Vec<(u8, char)> = ranks.iter().copied().zip(' '..='~').collect();
    bytes.sort_unstable();
    match sort_of(ranks) {
        "built in" => String::new(),
        sort if each_once(ranks) => {
            format!("  ranks {sort}: {}\n", bytes.iter().map(|(_, byte)| byte).collect::<String>())
        }
        sort => format!("  ranks {sort}: {ranks:?}\n"),
    }
}

/// A line for each record, deeper ones further in.
fn outline(node: &Node, depth: usize, text: &mut String) {
    let _ = writeln!(text, "{}{:02x} {}", "  ".repeat(depth), node.kind, hex(&node.body));
    node.children.iter().for_each(|child| outline(child, depth + 1, text));
}

/// Hexadecimal, each long run of zeros as a count.
fn hex(bytes: &[u8]) -> String {
    let mut text = String::new();
    for part in bytes.chunk_by(|a, b| (*a == 0) == (*b == 0)) {
        if part[0] == 0 && part.len() > 5 {
            text += &format!(" 00*{} ", part.len());
        } else {
            text.extend(part.iter().map(|b| format!("{b:02x}")));
        }
    }
    text
}
