//! What is measured: a name and a number of calls, round and round what is given.

use std::fmt::Debug;
use std::hint::black_box;

/// What is asked for: the parts of a moment, its instant, or its text; the parts in both character modes.
pub type Kind = &'static str;
pub const PARTS: Kind = "parts";
pub const INSTANT: Kind = "instant";
pub const TEXT: Kind = "text";
pub const MODES: Kind = "modes";

pub struct Peer<'a> {
    pub kind: Kind,
    pub name: &'static str,
    pub calls: Box<dyn Fn(usize) + 'a>,
}

/// A peer by its call. Beforehand each answer is held to the one that is wanted.
pub fn peer<'a, G: 'a, T, U: PartialEq + Debug>(
    kind: Kind, name: &'static str, given: Vec<G>, call: impl Fn(&G) -> T + 'a, answer: impl Fn(T) -> U,
    wanted: impl IntoIterator<Item = U>,
) -> Peer<'a> {
    for (given, wanted) in given.iter().zip(wanted) {
        assert_eq!(answer(call(given)), wanted, "{name}, {kind}");
    }
    let calls = move |count: usize| {
        for given in given.iter().cycle().take(count) {
            black_box(&call(black_box(given)));
        }
    };
    Peer { kind, name, calls: Box::new(calls) }
}
