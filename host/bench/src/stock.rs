//! The stock of the searches: locomotives with name, speed and address, and the queries over them.

use crate::texts::Texts;
use compare::call::{Call, Engine, Station};
use willetcoffer::page::triple;
use willetcoffer::script::*;
use willetcoffer::{BadTerm, Card, Datatype, PageReport, Term};

/// Listed terms: the four graphs, then 60, 1000, and a name that nobody has.
const GRAPHS: usize = 4;
const SIXTY: u16 = 4;
const THOUSAND: u16 = 5;
const NOBODY: u16 = 6;
const SPEED: u16 = 7;
const ADDR: u16 = 8;
const NAME: u16 = 9;

/// Variables.
const G: u8 = 0;
const S: u8 = 1;
const N: u8 = 2;
const V: u8 = 3;
const P: u8 = 4;
const A: u8 = 5;

/// The page of the locomotives whose number falls to this graph.
fn page(workload: &Workload, locomotives: usize, graph: usize) -> Result<Vec<u8>, BadTerm> {
    let Workload { graphs, texts, .. } = workload;
    let [name, speed, addr] = properties(*texts)?;
    let mut bytes = Vec::new();
    for i in (0..locomotives).filter(|i| i % graphs == graph) {
        let subject = Term::uri(&texts.of(&format!("http://club.example/loco/{i}")))?;
        let step = (i * 7 % 80) as i64;
        let quick = match i % 2 {
            0 => Term::decimal((30 + step) * 1_000_000 + 500_000)?,
            _ => Term::integer(30 + step)?,
        };
        let called = Term::tagged("en", &texts.of(&format!("Locomotive {i}")))?;
        let lives = Term::integer(3 + (i * 13 % 80) as i64)?;
        let triples = [(name, called), (speed, quick), (addr, lives)];
        bytes.extend(triples.iter().filter_map(|(property, object)| triple(&subject, property, object)).flatten());
    }
    Ok(bytes)
}

/// The properties of a name, a speed and an address.
fn properties(texts: Texts) -> Result<[Term; 3], BadTerm> {
    let property = |text| Term::uri(&texts.of(text));
    Ok([property("p:name")?, property("p:speed")?, property("p:addr")?])
}

/// A station with a workload's each block, its pages of so many locomotives taken in over its graphs.
pub fn station(engine: &dyn Engine, workload: &Workload, locomotives: usize) -> Result<Station, BadTerm> {
    let Workload { script, graphs, texts, .. } = workload;
    let yard = |g| Term::uri(&texts.of(&format!("http://club.example/yard/{g}")));
    let mut listed = (0..GRAPHS).map(yard).collect::<Result<Vec<Term>, BadTerm>>()?;
    listed.extend([Term::integer(60)?, Term::integer(1000)?, Term::string(&texts.of("nobody"))?]);
    let [name, speed, addr] = properties(*texts)?;
    let schema = [(speed, Datatype::Decimal), (addr, Datatype::Integer), (name, Datatype::String)];
    let mut station = Station::new(Card::new(&listed, &schema, script.clone()), 0);
    assert_eq!(station.call(engine, &Call::Load).code, 0);
    for graph in 0..*graphs {
        let answer = station.call(engine, &Call::page(graph, page(workload, locomotives, graph)?));
        assert_eq!(answer.paged(), Some(PageReport { skipped: 0 }));
    }
    Ok(station)
}

fn has(graph: Name, property: u16, object: u8) -> Query {
    pattern([graph, var(S), con(property), var(object)])
}

/// Ten conditions on a speed, all of them true but the one at this place, if there is one.
fn ten(but: Option<usize>) -> Boolean {
    let test = |place| match but {
        Some(but) if but == place => less(con(THOUSAND), var(V)),
        _ => less(var(V), con(THOUSAND)),
    };
    (0..9).rev().fold(test(9), |rest, place| and(test(place), rest))
}

/// One number more than a thousand below another: of no two numbers here, and no pattern binds either.
fn far(below: impl Into<Expression>, above: Name) -> Boolean {
    less(plus(below, con(THOUSAND)), above)
}

/// A search: its name, its script, and over how many graphs the stock is spread.
pub struct Workload {
    /// What is looked for.
    pub name: &'static str,
    /// An each block over success.
    pub script: Script,
    /// Graphs.
    pub graphs: usize,
    /// Locomotives at most; a query in the worst order is given fewer, and so is one over a single graph, whose page holds no more.
    pub most: usize,
    /// How long the texts are.
    pub texts: Texts,
}

/// An each block that binds these variables in this order, over all graphs.
fn search(name: &'static str, variables: &[u8], query: Query) -> Workload {
    let open: Vec<_> = variables.iter().map(|v| (*v, None)).collect();
    Workload { name, script: each(&open, query, success()), graphs: GRAPHS, most: 168, texts: Texts::Short }
}

/// The searches that the benchmark is about.
pub fn workloads() -> Vec<Workload> {
    let g = || var(G);
    let stock = || both(has(g(), NAME, N), has(g(), SPEED, V));
    let join = |least: u16| both(stock(), filter(less(con(least), var(V))));
    let star = |query: Query| {
        let name_speed = both(has(con(0), NAME, N), has(con(0), SPEED, V));
        both(both(name_speed, has(con(0), ADDR, A)), query)
    };
    let one_graph = |workload: Workload| Workload { graphs: 1, most: 84, ..workload };
    let long = |workload: Workload| Workload { texts: Texts::Long, ..workload };
    vec![
        search("join g s n v, speed > 60", &[G, S, N, V], join(SIXTY)),
        search(
            "property variable g s p a",
            &[G, S, P, A],
            both(pattern([g(), var(S), var(P), var(A)]), has(g(), ADDR, A)),
        ),
        search("union of two joins g s n v", &[G, S, N, V], union(stock(), both(has(g(), NAME, N), has(g(), ADDR, V)))),
        search("no answer, by filter", &[G, S, N, V], join(THOUSAND)),
        search("ten conditions, the first decides", &[G, S, N, V], both(stock(), filter(ten(Some(0))))),
        search("ten conditions, the last decides", &[G, S, N, V], both(stock(), filter(ten(Some(9))))),
        search("union, its first part decides", &[G, S, N, V], union(stock(), both(stock(), filter(ten(None))))),
        search("numbers, the first of ten decides", &[V], filter(ten(Some(0)))),
        search("numbers, the last of ten decides", &[V], filter(ten(Some(9)))),
        search(
            "numbers, the union's first decides",
            &[V],
            both(union(filter(less(var(V), con(THOUSAND))), filter(ten(None))), filter(less(con(THOUSAND), var(V)))),
        ),
        search("every pair of numbers tried", &[V, A], filter(far(var(V), var(A)))),
        Workload {
            most: 42,
            ..search("every triple of numbers tried", &[V, A, P], filter(far(plus(var(V), var(A)), var(P))))
        },
        search(
            "no answer, by a constant pattern",
            &[G, S, N, V],
            both(join(SIXTY), pattern([con(0), con(0), con(NAME), con(NOBODY)])),
        ),
        // Where a graph is looked for its subject is known; where a subject is looked for, its graph is not.
        search("subject known, graph free s g n v", &[S, G, N, V], join(SIXTY)),
        search("subject and graph free v s g", &[V, S, G], has(g(), SPEED, V)),
        search("join in the worst order n v s g", &[N, V, S, G], join(SIXTY)),
        one_graph(search("star n v a, then s", &[N, V, A, S], star(empty()))),
        one_graph(search("star n v a, then s, no answer", &[N, V, A, S], star(filter(less(con(THOUSAND), var(V)))))),
        long(search("join g s n v, long texts", &[G, S, N, V], join(SIXTY))),
        long(search("no answer, by filter, long texts", &[G, S, N, V], join(THOUSAND))),
    ]
}
