//! How calls by the structs meet slices without a pointer: which of those that a function takes were empty, and came as null.

use crate::plain::{Call, Lent};

/// The ways that are to be met: the slice that came as null.
pub const WAYS: [(&str, &[&str]); 18] = [
    ("lt_name_kind", &["name"]),
    ("lt_read_line", &["lines"]),
    ("lt_check", &TABLES),
    ("lt_find", &["resources", "statements", "index", "text", "name"]),
    ("lt_store_number", &["resources", "statements", "index", "text", "name"]),
    ("lt_names_with_prefix", &["resources", "statements", "index", "text", "beginning", "list"]),
    ("lt_enter", &["resources", "statements", "index", "text", "name"]),
    ("lt_name", &TABLES),
    ("lt_store_live", &TABLES),
    ("lt_statement", &TABLES),
    ("lt_assert", &TABLES),
    ("lt_retract", &TABLES),
    ("lt_reclaim", &TABLES),
    ("lt_scan_open", &TABLES),
    ("lt_scan_next", &TABLES),
    ("lt_query_open", &["resources", "statements", "index", "text", "question"]),
    ("lt_query_next", &["resources", "statements", "index", "text", "question"]),
    ("lt_export", &["resources", "statements", "index", "text", "output", "working words"]),
];

const TABLES: [&str; 4] = ["resources", "statements", "index", "text"];

/// The slices of a call that are empty.
pub fn met(call: &Call, lent: &Lent) -> Vec<String> {
    let mut slices = vec![];
    if call.takes_tables() {
        let tables = [lent.resources.is_empty(), lent.statements.is_empty(), lent.index.is_empty(), lent.text.is_empty()];
        slices.extend(TABLES.into_iter().zip(tables));
    }
    match call {
        Call::NameKind { name } | Call::Find { name } | Call::Number { name } | Call::Enter { name } => {
            slices.push(("name", name.is_empty()));
        }
        Call::ReadLine { line_text, .. } => slices.push(("lines", line_text.is_empty())),
        Call::NamesWithPrefix { prefix } => {
            slices.extend([("beginning", prefix.is_empty()), ("list", lent.numbers.is_empty())]);
        }
        Call::QueryOpen { words } | Call::QueryNext { words, .. } => slices.push(("question", words.is_empty())),
        Call::Export => slices.extend([("output", lent.out.is_empty()), ("working words", lent.work.is_empty())]),
        _ => {}
    }
    slices.into_iter().filter(|(_, empty)| *empty).map(|(slice, _)| slice.to_string()).collect()
}
