//! Nodes and stores, and values that are owned.

use super::Sort;
use crate::record::call;
use crate::scenario::{quiet, swept, Scenario};

pub fn all(sort: &Sort) -> Vec<Scenario> {
    let (name, keys) = (
        sort.name,
        if sort.takes_memory() {
            "pairs"
        } else {
            "numbers"
        },
    );
    let scenario = |name: String, steps| Scenario::new(&name, sort.store, steps);
    let numbered = (0..24).map(|turn| swept(call(0, turn % 4, &[])));
    let mut room = vec![quiet(call(0, 4, &[8]))];
    room.extend((0..8).map(|_| swept(call(0, 5, &[]))));
    let mut all = vec![
        scenario(format!("{name}, store"), numbered.collect()),
        scenario(format!("{name}, room for eight, without memory"), room),
        scenario(
            format!("{name}, store with room"),
            vec![swept(call(0, 4, &[8]))],
        ),
        scenario(format!("leaves of {keys}"), vec![swept(call(1, 0, &[]))]),
        scenario(
            format!("inner nodes of {keys}"),
            vec![swept(call(1, 1, &[]))],
        ),
    ];
    let end = if sort.takes_memory() {
        ", of pairs"
    } else {
        ""
    };
    let given = vec![swept(call(1, 2, &[]))];
    all.push(scenario(
        format!("inner node of vectors in turn{end}"),
        given,
    ));
    all
}

/// Of 300 pairs, of which equal keys come three times. Keys and values take memory.
pub fn owned() -> Vec<Scenario> {
    let scenario = |name: &str, member: u64, hints: u64| {
        let step = swept(call(3, member, &[300])).with_hints(hints);
        Scenario::new(name, 15, vec![step])
    };
    vec![
        scenario("counted pairs, loaded", 2, 0),
        scenario("counted pairs, map of items, with a hint", 5, 1),
        scenario("counted keys, set of items", 6, 0),
    ]
}
