//! How calls meet the limit of six patterns: questions of no words and of as many as there may be, questions refused for their length
//! alone, and places of a question of six patterns that tell as many levels and one more.

use crate::plain::{Call, Lent, WITHIN};

/// Lengths of a question, in words, and levels of a place that are to be met.
const WORDS: [usize; 5] = [0, 18, 19, 21, 24];
const LEVELS: [u32; 2] = [6, 7];

/// The ways that are to be met: so many words, each a resource's number or a variable's, or so many levels, by the answer.
pub const WAYS: [(&str, &[&str]); 2] = [
    (
        "lt_query_open",
        &["0 words: answered", "18 words: answered", "19 words: refused 8", "21 words: refused 8", "24 words: refused 8"],
    ),
    (
        "lt_query_next",
        &[
            "0 words: found",
            "18 words: found",
            "18 words: ended",
            "18 words: spent",
            "19 words: refused 8",
            "21 words: refused 8",
            "24 words: refused 8",
            "6 levels: answered",
            "7 levels: refused 6",
        ],
    ),
];

/// How a call meets the limit, if it is refused neither 1 nor 100. `own` is its result in words.
pub fn met(call: &Call, result: u32, own: &str, before: &Lent) -> Vec<String> {
    let (words, levels) = match call {
        Call::QueryOpen { words } => (words, 0),
        Call::QueryNext { words, .. } => (words, if before.cursor[0] == WITHIN { before.cursor[1] } else { 0 }),
        _ => return vec![],
    };
    let mut met = vec![];
    if WORDS.contains(&words.len()) && words.iter().all(|&word| before.word_fits(word)) {
        met.push(format!("{} words: {own}", words.len()));
        if words.len() == 18 && LEVELS.contains(&levels) {
            met.push(format!("{levels} levels: {}", if result == 0 { "answered" } else { own }));
        }
    }
    met
}
