//! The roster cases of document 01, all of them, and the type printer's example.

mod common;
use common::{stock, types};
use second::limits::TEXT;
use second::term::Term;
use second::types::{Datatype, Type};
use second::value::Value;
use second::write::*;

/// $g 0, $s 1, the others from 2 on; all open.
const G: u8 = 0;
const S: u8 = 1;
/// Constants: 0 is 3, 1 is 3.5; then p:speed, p:addr, p:name.
const THREE: usize = 0;
const SPEED: usize = 2;
const ADDR: usize = 3;
const NAME: usize = 4;

fn listed() -> Vec<Term> {
    vec![Term::Int(3), Term::Dec(3_500_000)]
}

/// The types of the variables from 2 on, for patterns over open $g and $s.
fn roster(variables: u8, query: Bytes) -> Result<Vec<Type>, u32> {
    let pairs: Vec<(u8, u8)> = (0..2 + variables).map(|v| (v, 0)).collect();
    let types = types(&listed(), &stock(), once(&pairs, query, success()))?;
    assert_eq!(types[0], (G, Type::Data(Datatype::AnyUri)));
    assert_eq!(types[1], (S, Type::Data(Datatype::AnyUri)));
    Ok(types[2..].iter().map(|(_, t)| *t).collect())
}

fn over(property: Bytes, object: Bytes) -> Bytes {
    pattern(var(G), var(S), property, object)
}

fn data(d: Datatype) -> Type {
    Type::Data(d)
}

fn range(d: Datatype) -> Type {
    Type::Range(d)
}

#[test]
fn constant_properties() {
    let speed = over(con(SPEED), var(2));
    assert_eq!(roster(1, speed.clone()), Ok(vec![data(Datatype::Decimal)]));
    assert_eq!(roster(1, both(speed.clone(), over(con(ADDR), var(2)))), Ok(vec![data(Datatype::Integer)]));
    assert_eq!(roster(1, both(speed, over(con(NAME), var(2)))), Err(8));
}

#[test]
fn property_variables() {
    assert_eq!(roster(1, over(var(2), con(THREE))), Ok(vec![range(Datatype::Integer)]));
    assert_eq!(roster(1, over(var(2), con(THREE + 1))), Ok(vec![range(Datatype::Decimal)]));
    let po = over(var(2), var(3));
    assert_eq!(roster(2, po.clone()), Err(9));
    let with = |property| roster(2, both(po.clone(), over(con(property), var(3))));
    assert_eq!(with(NAME), Ok(vec![range(Datatype::String), data(Datatype::String)]));
    assert_eq!(with(SPEED), Err(9));
    assert_eq!(with(ADDR), Ok(vec![range(Datatype::Integer), data(Datatype::Integer)]));
    assert_eq!(roster(1, over(var(2), var(2))), Ok(vec![range(Datatype::AnyUri)]));
}

#[test]
fn filters() {
    let xy = filter(equal(var(0), var(1)));
    let alone = |query| types(&listed(), &stock(), once(&[(0, 0), (1, 0)], query, success()));
    assert_eq!(alone(xy.clone()), Err(9));
    let decimal = data(Datatype::Decimal);
    let with = both(xy, filter(equal(var(1), con(THREE))));
    assert_eq!(alone(with), Ok(vec![(0, decimal), (1, decimal)]));
}

#[test]
fn str_of_seconds() {
    let text = |s| Value::Time(s).str();
    assert_eq!(text(-1), Value::from(&string("1969-12-31T23:59:59Z")));
    assert_eq!(text(951_782_400), Value::from(&string("2000-02-29T00:00:00Z")));
}

#[test]
fn printer_example() {
    let mut input = vec![0x13, 3, 0, 0, 0, 0, 0, 0, 0];
    input.extend([0x73, 0, 3, 0, 0, 1, 0, 2, 0, 0, 0]);
    input.extend([0x61, 0x31, 0, 0x31, 1, 0x31, 2, 0x32, 0, 0, 0x71]);
    let expected = "accepted 3\n0 xsd:anyURI\n1 xsd:anyURI\n2 range(xsd:integer)\n";
    assert_eq!(second::print_types(&input), expected);
    assert_eq!(second::printer::print_with(second::assignments::solve, &input), expected);
}

#[test]
fn printer_refusals() {
    let refused = |input: &[u8]| second::print_types(input);
    assert_eq!(refused(&[]), "refused 6\n");
    assert_eq!(refused(&[0x71]), "accepted 0\n");
    // Cut-off records belong to the part that their kind names.
    assert_eq!(refused(&[0x13, 3]), "refused 2\n");
    assert_eq!(refused(&[0x21, b'p']), "refused 4\n");
    // A kind outside 11 to 15 ends the terms and one other than 21 the schema: both are script here.
    assert_eq!(refused(&[0x16]), "refused 6\n");
    assert_eq!(refused(&[&schema(&[("p", Datatype::String)])[..], &[0x13]].concat()), "refused 6\n");
    // Over 68,352 bytes is 6 before anything else, also before a bad first term.
    let mut bad_term = vec![0; 68_352];
    bad_term[..=TEXT].fill(0x11);
    assert_eq!(refused(&bad_term), "refused 2\n");
    assert_eq!(refused(&[bad_term, vec![0]].concat()), "refused 6\n");
}

/// The examples of section 4.3 of the source paper, with all types left open.
#[test]
fn examples_of_the_paper() {
    use Datatype::*;
    let any = data(AnyUri);
    let schema = schema(&[
        ("rdfs:label", String),
        ("rdfs:comment", String),
        ("geo:lat", Decimal),
        ("dbp:location", AnyUri),
        ("dbp:birthPlace", AnyUri),
    ]);
    let listed = [uri("dbp:"), uri("dbpedia:Kazakhstan"), uri("dbpedia:Almaty"), Term::Int(100)];
    let [dbp, kazakhstan, almaty, hundred] = [0, 1, 2, 3].map(con);
    let [label, comment, lat, location, born] = [4, 5, 6, 7, 8].map(con);
    let typed = |script| types(&listed, &schema, script);
    // Resources with a label in Russian, dereferenced; by its label it could not be.
    let russian = |fetched| {
        let query = pattern(var(0), var(1), label.clone(), var(2));
        let query = both(query, filter(lang_matches("ru-*", var(2))));
        each(&[(0, 0), (1, 0), (2, 0)], query, from_named(var(fetched), success()))
    };
    assert_eq!(typed(russian(1)), Ok(vec![(0, any), (1, any), (2, data(String))]));
    assert_eq!(typed(russian(2)), Err(8));
    // A property that is described by a label or a comment, and fetched.
    let described = |property| pattern(dbp.clone(), var(0), property, var(1));
    let query = both(
        union(described(label.clone()), described(comment)),
        pattern(kazakhstan.clone(), var(2), var(0), kazakhstan.clone()),
    );
    let cond = node(0x53, &[regex("location", var(1)), lang_matches("en-*", var(1))]);
    let script = |code| {
        let query = both(query.clone(), filter(cond.clone()));
        once(&[(0, code), (1, 0), (2, 0)], query, from_named(var(0), success()))
    };
    assert_eq!(typed(script(0)), Ok(vec![(0, range(AnyUri)), (1, data(String)), (2, any)]));
    assert_eq!(typed(script(1)), Err(8), "no more general type will do");
    // Places near Almaty and people born there, blocks in blocks; a difference stands for the distance.
    let lat_of = |graph: Bytes, value| pattern(graph.clone(), graph, lat.clone(), var(value));
    let near = less(abs(minus(var(2), var(0))), hundred);
    let people = each(&[(3, 0)], pattern(var(1), var(3), born, var(1)), from_named(var(3), success()));
    let place = once(&[(2, 0)], both(lat_of(var(1), 2), filter(near)), people);
    let located = pattern(kazakhstan.clone(), var(1), location, kazakhstan.clone());
    let places = each(&[(1, 0)], located, from_named(var(1), place));
    let script = once(&[(0, 0)], lat_of(almaty.clone(), 0), from_named(kazakhstan, places));
    let decimal = data(Decimal);
    assert_eq!(typed(from_named(almaty, script)), Ok(vec![(0, decimal), (1, any), (2, decimal), (3, any)]));
}
