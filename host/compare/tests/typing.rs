//! The three ways to work out types, on scripts with four open variables: all ten thousand assignments are listed.

use compare::draw::pool::Pool;
use compare::draw::rng::Rng;
use compare::draw::scripts::Writer;
use second::assignments::{by_atoms, by_listing, open};
use second::reader::read_script;
use second::schema::Schema;
use second::terms::Terms;
use second::{arcs, scope};
use std::collections::BTreeMap;

#[test]
fn three_ways_agree() {
    let mut verdicts: BTreeMap<u32, u32> = BTreeMap::new();
    let mut index = 0;
    while verdicts.values().sum::<u32>() < 200 {
        index += 1;
        let mut rng = Rng::new(77, index);
        let pool = Pool::new(&mut rng);
        let schema = Schema::read(&pool.schema_bytes()).unwrap();
        let terms = Terms::number(&pool.listed, &schema);
        let bytes = Writer::new(&mut rng, &pool, 400).tangle();
        let Ok(script) = read_script(&bytes, terms.len()) else { continue };
        if scope::check(&script).is_err() || open(&script).len() != 4 {
            continue;
        }
        let listed = by_listing(&script, &terms);
        assert_eq!(arcs::solve(&script, &terms), listed, "case {index}");
        if let Some(types) = by_atoms(&script, &terms) {
            assert_eq!(types, listed, "case {index}");
        }
        *verdicts.entry(listed.map_or_else(|r| r.number, |_| 0)).or_default() += 1;
    }
    assert!([0, 8, 9].iter().all(|v| verdicts.get(v).is_some_and(|n| *n >= 10)), "{verdicts:?}");
}
