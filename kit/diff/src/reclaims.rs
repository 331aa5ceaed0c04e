//! How calls meet reclaims: places of another number of reclaims, numbers about the limit, what a reclaim drops, and what is asserted after
//! one.

use crate::plain::{
    Call, Expected, Lent, END, LEVELS, MAX_PATTERNS, MAX_RECLAIMS, PLACES, QUERY_RECLAIMS, RECLAIMS, SCAN_CHAIN, SCAN_NEXT,
    SCAN_RECLAIMS, START, STATEMENT_WORDS, WITHIN,
};
use crate::tally::label;
use crate::{Difference, Run, UNWRITTEN};

/// The number of reclaims is above its limit, and nothing else is the reason for refusal 1.
const NUMBER_ALONE: &str = "1 for the number alone";

/// Refused 3 before a reclaim, and now new; refused 3 again, since nothing was dropped; retracted before a reclaim, and now new.
const ROOM_AGAIN: &str = "new, 3 before";
const STILL_NO_ROOM: &str = "3 as before";
const FORGOTTEN: &str = "new, retracted before";

/// The ways that are to be met. "13" is a place of another number of reclaims: by what the call would be given else, by the place, by what
/// else is wrong with it, and by that number.
pub const WAYS: [(&str, &[&str]); 14] = [
    ("lt_check", &["not sound for the number alone", "sound at the limit"]),
    ("lt_find", &[NUMBER_ALONE]),
    ("lt_names_with_prefix", &[NUMBER_ALONE]),
    ("lt_enter", &[NUMBER_ALONE]),
    ("lt_name", &[NUMBER_ALONE]),
    ("lt_statement", &[NUMBER_ALONE]),
    ("lt_assert", &[NUMBER_ALONE, ROOM_AGAIN, STILL_NO_ROOM, FORGOTTEN]),
    ("lt_retract", &[NUMBER_ALONE]),
    (
        "lt_reclaim",
        &[
            NUMBER_ALONE,
            "no statements",
            "none dropped",
            "some dropped",
            "some moved",
            "all dropped",
            "a resource twice",
            "words past T",
            "to the limit",
            "14 on sound tables",
            "14 on unsound tables",
            "9 for live counts alone",
            "9 for the string ending alone",
            "9 with all live",
        ],
    ),
    ("lt_scan_open", &[NUMBER_ALONE, "answered after a reclaim"]),
    (
        "lt_scan_next",
        &[
            NUMBER_ALONE,
            "1 and another number",
            "13, else found",
            "13, else ended",
            "13, else spent",
            "13, else refused 6",
            "13, else refused 7",
            "13, else refused 9",
            "13 with budget 0",
            "13 with a chain above 3",
            "13 with a chain above 3 and budget 0",
            "13 after the last record",
            "13, a number below",
            "13, a number above",
            "13, a number above the limit",
            "found after a reclaim",
        ],
    ),
    ("lt_query_open", &[NUMBER_ALONE, "answered after a reclaim"]),
    (
        "lt_query_next",
        &[
            NUMBER_ALONE,
            "1 and another number",
            "8 and another number",
            "13, else found",
            "13, else ended",
            "13, else spent",
            "13, else refused 6",
            "13, else refused 7",
            "13, else refused 9",
            "13 at the start",
            "13 within",
            "13 at the end",
            "13 with zeros",
            "13 with no patterns",
            "13 with budget 0",
            "13 with a first word above 2",
            "13 with a chain above 3",
            "13 with more levels than patterns",
            "13, a number below",
            "13, a number above",
            "13, a number above the limit",
            "found after a reclaim",
        ],
    ),
    ("lt_export", &[NUMBER_ALONE]),
];

/// How a call that takes tables meets reclaims, if it is not refused 100. `own` is its result in words.
pub fn met(call: &Call, result: u32, own: &str, before: &Lent, after: &Lent) -> Vec<String> {
    let mut met = match call {
        Call::Check => met_checking(before, after),
        Call::Reclaim => met_reclaiming(result, before, after),
        Call::ScanNext { .. } | Call::QueryNext { .. } => met_going_on(call, result, before),
        _ => vec![],
    };
    if result == 1 && before.tables_hold_counters() {
        met.push(NUMBER_ALONE.to_string());
    }
    if result == 0 && before.reclaims() > 0 && call.cursor_words() > 0 {
        met.push(format!("{own} after a reclaim"));
    }
    met
}

/// Those labels whose condition holds.
pub fn holding(all: &[(&str, bool)]) -> Vec<String> {
    all.iter().filter(|(_, met)| *met).map(|(label, _)| label.to_string()).collect()
}

fn met_checking(before: &Lent, after: &Lent) -> Vec<String> {
    let number_alone = || {
        let mut never_reclaimed = before.clone();
        never_reclaimed.counters[RECLAIMS] = 0;
        never_reclaimed.sound()
    };
    holding(&[
        ("not sound for the number alone", before.reclaims() > MAX_RECLAIMS && number_alone()),
        ("sound at the limit", before.reclaims() == MAX_RECLAIMS && after.reply[0] == 1),
    ])
}

fn met_reclaiming(result: u32, before: &Lent, after: &Lent) -> Vec<String> {
    match result {
        0 => met_reclaimed(before, after),
        14 => {
            let sound = before.sound();
            holding(&[("14 on sound tables", sound), ("14 on unsound tables", !sound)])
        }
        9 => holding(&[
            ("9 for live counts alone", before.sound_but_for_live_counts()),
            ("9 for the string ending alone", before.sound_but_for_endings()),
            ("9 with all live", before.t() > 0 && before.flagged(0).len() == before.t() as usize),
        ]),
        _ => vec![],
    }
}

fn met_reclaimed(before: &Lent, after: &Lent) -> Vec<String> {
    let (then, now) = (before.t(), after.t());
    let past = &before.statements[STATEMENT_WORDS * then as usize..];
    let twice = |triple: &[u32; 3]| triple[0] == triple[1] || triple[1] == triple[2] || triple[0] == triple[2];
    holding(&[
        ("no statements", then == 0),
        ("none dropped", then > 0 && now == then),
        ("some dropped", 0 < now && now < then),
        // A live record stands behind one that is retracted.
        ("some moved", now > 0 && (1..=now).any(|n| before.flag(n) == 1)),
        ("all dropped", then > 0 && now == 0),
        ("a resource twice", now < then && after.flagged(0).iter().any(twice)),
        ("words past T", now < then && past.iter().any(|&word| word != 0)),
        ("to the limit", after.reclaims() == MAX_RECLAIMS),
    ])
}

/// Next of a listing or a question, with a place of another number of reclaims.
fn met_going_on(call: &Call, result: u32, before: &Lent) -> Vec<String> {
    let number = before.cursor[if matches!(call, Call::ScanNext { .. }) { SCAN_RECLAIMS } else { QUERY_RECLAIMS }];
    if number == before.reclaims() {
        return vec![];
    }
    if result != 13 {
        return vec![format!("{result} and another number")];
    }
    let mut met = vec![format!("13, else {}", else_given(call, before))];
    met.extend(holding(&[
        ("13, a number below", number < before.reclaims()),
        ("13, a number above", number > before.reclaims()),
        ("13, a number above the limit", number > MAX_RECLAIMS),
    ]));
    met.extend(match call {
        Call::ScanNext { budget } => met_stale_listing(*budget, &before.cursor),
        Call::QueryNext { words, budget } => met_stale_question(words.len() / PLACES, *budget, &before.cursor),
        _ => vec![],
    });
    met
}

fn met_stale_listing(budget: u32, cursor: &[u32]) -> Vec<String> {
    let no_chain = cursor[SCAN_CHAIN] > 3;
    holding(&[
        ("13 with budget 0", budget == 0),
        ("13 with a chain above 3", no_chain),
        ("13 with a chain above 3 and budget 0", no_chain && budget == 0),
        ("13 after the last record", cursor[SCAN_NEXT] == 0),
    ])
}

fn met_stale_question(patterns: usize, budget: u32, cursor: &[u32]) -> Vec<String> {
    let (place, levels) = (cursor[0], cursor[1] as usize);
    let entered = cursor[LEVELS..].chunks_exact(2).take(levels.min(MAX_PATTERNS));
    holding(&[
        ("13 at the start", place == START),
        ("13 within", place == WITHIN && levels > 0),
        ("13 at the end", place == END),
        ("13 with zeros", cursor.iter().all(|&word| word == 0)),
        ("13 with no patterns", patterns == 0),
        ("13 with budget 0", budget == 0),
        ("13 with a first word above 2", place > END),
        ("13 with a chain above 3", place == WITHIN && entered.clone().any(|level| level[0] > 3)),
        ("13 with more levels than patterns", place == WITHIN && levels > patterns),
    ])
}

/// What the call would be given if the place had the store's number of reclaims.
fn else_given(call: &Call, lent: &Lent) -> String {
    let mut other = lent.clone();
    other.cursor[if matches!(call, Call::ScanNext { .. }) { SCAN_RECLAIMS } else { QUERY_RECLAIMS }] = lent.reclaims();
    match call.make(&mut other) {
        Expected::Exactly(result) => label(call, result, &other),
        Expected::Bounded => unreachable!("a next call is exact"),
    }
}

impl Run {
    /// Right after a reclaim that was answered: a triple that had no room before it is new exactly if a record was dropped, and one that was
    /// retracted is new.
    pub fn assert_again(&mut self, before: &Lent, lent: &mut Lent, no_room: Option<[u32; 3]>) -> Result<(), Difference> {
        let dropped = lent.t() < before.t();
        let (triple, met) = match no_room {
            Some(triple) => (triple, if dropped { ROOM_AGAIN } else { STILL_NO_ROOM }),
            None if dropped && self.random.one_in(2) => (self.random.of(&before.flagged(1)), FORGOTTEN),
            None => return Ok(()),
        };
        let call = Call::Assert { triple };
        lent.reply = vec![UNWRITTEN; call.reply_words()];
        let result = self.compare(&call, lent)?;
        let (own, expected) = (label(&call, result, lent), if dropped { "new" } else { "refused 3" });
        if own != expected {
            return Err(format!("call {}: {call:?} {met}: {own}\nbefore the reclaim: {before:?}", self.made));
        }
        self.tally.count_after_reclaim(&call, met);
        Ok(())
    }
}
