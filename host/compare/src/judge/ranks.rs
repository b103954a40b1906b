//! What an engine owes by itself about the ranks that it is lent: 1 and 21 exactly where they are due, and nothing but less on strings that
//! goes by them.

use super::{Breach, Difference};
use crate::call::{Call, Engine, Made, Station};
use crate::draw::ranks::turn;
use second::check::{check, Loaded};
use second::script::{Cond, Expr, Kind, Name, Query};
use second::term::Term;
use second::types::{Datatype, Type};
use willetcoffer::limits::{
    PAGE_REPORT_WIDTH, PUBLISH_REPORT_WIDTH, QUAD_TABLE_WIDTH, RANKS_WIDTH, RUN_REPORT_WIDTH, SAVED_WIDTH,
    SUGGEST_REPORT_WIDTH, TERM_TABLE_WIDTH, TOTAL_REPORT_WIDTH,
};

/// Whether each rank from 0 to 94 stands once, and no other.
pub fn each_once(ranks: &[u8]) -> bool {
    let mut sorted = ranks.to_vec();
    sorted.sort_unstable();
    sorted.into_iter().eq(0..RANKS_WIDTH as u8)
}

/// 1 for another length of what the call is lent, else 21 for ranks that are none; a total and a suggestion are lent neither tables nor ranks,
/// and a graph is published without ranks.
pub fn due(station: &Station, call: &Call) -> Option<u32> {
    let report = match call {
        Call::Load => 0,
        Call::Run { .. } => RUN_REPORT_WIDTH,
        Call::Page { .. } => PAGE_REPORT_WIDTH,
        Call::Publish { .. } => PUBLISH_REPORT_WIDTH,
        Call::Total { .. } => TOTAL_REPORT_WIDTH,
        Call::Suggest { .. } => SUGGEST_REPORT_WIDTH,
    };
    let Station { ranks, term_table, quad_table, saved, .. } = station;
    let fit = [term_table, quad_table, saved].map(Vec::len) == [TERM_TABLE_WIDTH, QUAD_TABLE_WIDTH, SAVED_WIDTH];
    if call.report() != report || call.is_lent() && !fit || call.is_ranked() && ranks.len() != RANKS_WIDTH {
        return Some(1);
    }
    (call.is_ranked() && !each_once(ranks)).then_some(21)
}

/// 1 and 21 where they are due, and nowhere else.
pub(super) fn refused_first(made: &Made) -> Result<(), Difference> {
    let due = due(made.before, made.call);
    let code = made.answers[0].code;
    if due == Some(code).filter(|code| [1, 21].contains(code)) {
        return Ok(());
    }
    Err(Difference::new(Breach::Lent, format!("{code}, where {due:?} of 1 and 21 is due")))
}

/// By ranks turned round each engine leaves the same, unless strings are asked which is less: loads and pages always, runs where the
/// script has no less on strings, and refusals. The call was judged, so that both have left the same.
pub fn turned(made: &Made, engines: [&dyn Engine; 2]) -> Result<(), Difference> {
    let answer = &made.answers[0];
    let is_run = matches!(made.call, Call::Run { .. });
    if !made.call.is_ranked() || is_run && answer.code == 0 && compares_strings(made.before) {
        return Ok(());
    }
    for engine in engines {
        let mut station = made.before.clone();
        turn(&mut station.ranks);
        let other = station.call(engine, made.call);
        let differs =
            |what| Err(Difference::new(Breach::Turned, format!("{} by ranks turned round: {what}", engine.name())));
        if other != *answer {
            return differs(format!("answers {other:x?} and {answer:x?}"));
        }
        if let Some(place) = station.first_difference(&made.after[0]) {
            return differs(place);
        }
    }
    Ok(())
}

/// Whether the card has a less on strings.
fn compares_strings(station: &Station) -> bool {
    let card = &station.card;
    let loaded = check(second::arcs::solve, &card.terms, &card.schema, &card.script);
    loaded.is_ok_and(|loaded| {
        let mut nodes = loaded.script.nodes.iter();
        nodes.any(|node| matches!(&node.kind, Kind::Block(block) if in_query(&block.query, &loaded)))
    })
}

fn in_query(query: &Query, loaded: &Loaded) -> bool {
    match query {
        Query::Both(a, b) | Query::Union(a, b) => in_query(a, loaded) || in_query(b, loaded),
        Query::Filter(cond, _) => in_cond(cond, loaded),
        Query::Pattern(_) | Query::Empty => false,
    }
}

fn in_cond(cond: &Cond, loaded: &Loaded) -> bool {
    match cond {
        Cond::Or(a, b) | Cond::And(a, b) => in_cond(a, loaded) || in_cond(b, loaded),
        Cond::Not(a) => in_cond(a, loaded),
        // Both sides have one datatype.
        Cond::Less(a, _) => is_string(a, loaded),
        _ => false,
    }
}

fn is_string(expr: &Expr, loaded: &Loaded) -> bool {
    match expr {
        Expr::Str(_) => true,
        Expr::Name(Name::Const(number)) => matches!(loaded.terms.get(usize::from(*number)), Some(Term::Str(..))),
        Expr::Name(Name::Var(v)) => loaded.types[usize::from(*v)] == Some(Type::Data(Datatype::String)),
        _ => false,
    }
}
