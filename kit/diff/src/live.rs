//! How calls meet live counts: above their counts, at 0, or otherwise not the number of live records, and which answers come all the same.

use crate::plain::{resource_at, Call, Expected, Lent, LIVE, PLACES, RESOURCE_WORDS};
use crate::tally::label;

const AS: [&str; PLACES] = ["as subject", "as predicate", "as object"];

/// The ways that are to be met. "Above" is a live count above its count: where it alone is the reason for a refusal, by its place and by
/// what is given else; in listings and questions, which do not look, at a bound place, by the answer. "Wrong" is one that is not the number
/// of live records, by the answer. "Twice" is a resource at two places of the triple.
pub const WAYS: [(&str, &[&str]); 8] = [
    ("lt_check", &["not sound as subject alone", "not sound as predicate alone", "not sound as object alone"]),
    ("lt_enter", &["new over other words"]),
    ("lt_store_live", &["above: a number", "wrong: a number", "wrong: 0"]),
    (
        "lt_assert",
        &[
            "above as subject alone",
            "above as predicate alone",
            "above as object alone",
            "above twice",
            "above, else new",
            "above, else already",
            "above, else revived",
            "above, else refused 3",
            "revived at its count",
            "already with a 0",
            "twice: new",
            "twice: revived",
            "wrong: new",
            "wrong: already",
            "wrong: revived",
        ],
    ),
    (
        "lt_retract",
        &[
            "above as subject alone",
            "above as predicate alone",
            "above as object alone",
            "above twice",
            "above, else a number",
            "above, else 0",
            "0 as subject alone",
            "0 as predicate alone",
            "0 as object alone",
            "0 twice",
            "absent with a 0",
            "retracted with a 0",
            "twice: a number",
            "wrong: a number",
            "wrong: 0",
        ],
    ),
    ("lt_scan_open", &["above: answered"]),
    ("lt_scan_next", &["above: found", "above: ended", "above: spent"]),
    ("lt_query_next", &["above: found", "above: ended", "above: spent"]),
];

/// The places with a known resource for whose live count and count a test holds.
fn places(lent: &Lent, bound: [u32; 3], test: fn(live: u32, count: u32) -> bool) -> Vec<usize> {
    let holds = |&place: &usize| {
        let number = bound[place];
        lent.is_resource(number) && test(lent.live(number, place), lent.count(number, place))
    };
    (0..PLACES).filter(holds).collect()
}

fn above(lent: &Lent, bound: [u32; 3]) -> Vec<usize> {
    places(lent, bound, |live, count| live > count)
}

/// The live records with a resource at a place.
fn living(lent: &Lent, number: u32, place: usize) -> usize {
    (1..=lent.t()).filter(|&n| lent.flag(n) == 0 && lent.member(n, place) == number).count()
}

/// What the call would be given if the live counts of these places were their counts.
fn else_given(call: &Call, lent: &Lent, triple: [u32; 3], places: &[usize]) -> String {
    let mut other = lent.clone();
    for &place in places {
        other.resources[resource_at(triple[place]) + LIVE + place] = lent.count(triple[place], place);
    }
    match call.make(&mut other) {
        Expected::Exactly(result) => label(call, result, &other),
        Expected::Bounded => unreachable!("assert and retract are exact"),
    }
}

/// How a call meets live counts, if it is refused neither 1 nor 100. `own` is its result in words.
pub fn met(call: &Call, result: u32, own: &str, before: &Lent, after: &Lent, bounded: bool) -> Vec<String> {
    let looked_past = |bound: [u32; 3]| {
        let met = result == 0 && !above(before, bound).is_empty();
        met.then(|| format!("above: {own}")).into_iter().collect()
    };
    match call {
        Call::Check if after.reply[0] == 0 && after.sound_but_for_live_counts() => {
            let wrong: Vec<usize> = (0..PLACES).filter(|&place| !after.live_counts_sound(place)).collect();
            alone("not sound ", &wrong).into_iter().collect()
        }
        Call::Enter { .. } if result == 0 && !bounded && after.reply[0] > before.r() => {
            let record = &before.resources[resource_at(after.reply[0])..][..RESOURCE_WORDS];
            let over = record[LIVE..].iter().any(|&word| word != 0);
            over.then(|| "new over other words".to_string()).into_iter().collect()
        }
        Call::Assert { triple } | Call::Retract { triple } if result == 9 => met_refused(call, *triple, before),
        Call::Assert { triple } | Call::Retract { triple } if result == 0 => met_answered(call, *triple, own, before),
        Call::Live { number, position } if result == 0 => met_told(*number, *position as usize, own, before),
        Call::ScanOpen { pattern } => looked_past(*pattern),
        Call::ScanNext { .. } => looked_past([0, 1, 2].map(|place| before.cursor[place])),
        Call::QueryNext { words, .. } => {
            let patterns = words.chunks_exact(PLACES).map(|pattern| [pattern[0], pattern[1], pattern[2]]);
            patterns.map(looked_past).find(|met: &Vec<String>| !met.is_empty()).unwrap_or_default()
        }
        _ => vec![],
    }
}

/// A live count was told.
fn met_told(number: u32, place: usize, own: &str, before: &Lent) -> Vec<String> {
    let live = before.live(number, place);
    let all = [("above", live > before.count(number, place)), ("wrong", live as usize != living(before, number, place))];
    all.into_iter().filter(|(_, met)| *met).map(|(way, _)| format!("{way}: {own}")).collect()
}

/// The way of one place, if there is one place only.
fn alone(way: &str, places: &[usize]) -> Option<String> {
    match places {
        [place] => Some(format!("{way}{} alone", AS[*place])),
        _ => None,
    }
}

/// Whether one of the places has a resource that the triple has at another place too.
fn twice(triple: [u32; 3], places: &[usize]) -> bool {
    places.iter().any(|&place| (0..PLACES).any(|other| other != place && triple[other] == triple[place]))
}

/// Assert or retract was refused 9.
fn met_refused(call: &Call, triple: [u32; 3], before: &Lent) -> Vec<String> {
    let above = above(before, triple);
    let zeros = places(before, triple, |live, _| live == 0);
    let mut met = vec![];
    if !above.is_empty() {
        let given = else_given(call, before, triple, &above);
        if given != "refused 9" {
            met.extend(alone("above ", &above));
            met.extend(twice(triple, &above).then(|| "above twice".to_string()));
            met.push(format!("above, else {given}"));
        }
    } else if !zeros.is_empty() && else_given(call, before, triple, &zeros) == "a number" {
        met.extend(alone("0 ", &zeros));
        met.extend(twice(triple, &zeros).then(|| "0 twice".to_string()));
    }
    met
}

/// Assert or retract was answered.
fn met_answered(call: &Call, triple: [u32; 3], own: &str, before: &Lent) -> Vec<String> {
    let zero = !places(before, triple, |live, _| live == 0).is_empty();
    let at_its_count = !places(before, triple, |live, count| live == count).is_empty();
    let wrong = (0..PLACES).any(|place| before.live(triple[place], place) as usize != living(before, triple[place], place));
    let not_live = matches!(call, Call::Retract { .. }) && own == "0";
    let absent = not_live && before.walk_to(triple) == Ok(0);
    let all = [
        ("revived at its count".to_string(), own == "revived" && at_its_count),
        ("already with a 0".to_string(), own == "already" && zero),
        ("absent with a 0".to_string(), not_live && zero && absent),
        ("retracted with a 0".to_string(), not_live && zero && !absent),
        (format!("twice: {own}"), twice(triple, &[0, 1, 2])),
        (format!("wrong: {own}"), wrong),
    ];
    all.into_iter().filter(|(_, met)| *met).map(|(label, _)| label).collect()
}
