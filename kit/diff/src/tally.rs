//! How many calls of each kind had each result, and of them by the structs, and how many met null, the string ending, the index of names,
//! files, live counts, reclaims and the limit of patterns in which way.

use crate::beginnings;
use crate::files;
use crate::library::Way;
use crate::live;
use crate::names::{quoted_and_suffix, MAX_NAME, STRING_ENDING};
use crate::nulls;
use crate::patterns;
use crate::plain::{Call, Lent};
use crate::reclaims;
use std::collections::BTreeMap;
use std::fmt;

type Counts = BTreeMap<(&'static str, String), u64>;

/// Calls by function and result, where the paper only bounds the answer apart from the others; those of them by the structs. Then those
/// that meet null, the string ending, the index of names, files, live counts, reclaims and the limit of patterns, by function and how.
#[derive(Default)]
pub struct Tally {
    calls: Counts,
    by_structs: Counts,
    nulls: Counts,
    endings: Counts,
    beginnings: Counts,
    files: Counts,
    live_counts: Counts,
    reclaims: Counts,
    patterns: Counts,
}

/// Every function with the results that the paper gives it. Find, a name's number, a listing by a beginning and enter may answer 9, and
/// need not. Two functions are the header's alone.
const RESULTS: [(&str, &[&str]); 18] = [
    ("lt_name_kind", &["kind 1", "kind 2", "kind 3", "refused 2", "refused 100"]),
    ("lt_read_line", &["end", "nothing", "triple", "refused 10", "refused 100"]),
    ("lt_check", &["sound", "not sound", "refused 100"]),
    ("lt_find", &["a number", "0", "bounded", "refused 1", "refused 2", "refused 100"]),
    ("lt_store_number", &["a number", "bounded", "refused 1", "refused 2", "refused 4"]),
    ("lt_names_with_prefix", &["some", "none", "bounded", "refused 1", "refused 2", "refused 100"]),
    ("lt_enter", &["a number", "bounded", "refused 1", "refused 2", "refused 3", "refused 100"]),
    ("lt_name", &["answered", "refused 1", "refused 4", "refused 9", "refused 100"]),
    ("lt_store_live", &["a number", "0", "refused 1", "refused 4"]),
    ("lt_statement", &["answered", "refused 1", "refused 4", "refused 9", "refused 100"]),
    ("lt_assert", &["new", "already", "revived", "refused 1", "refused 3", "refused 4", "refused 5", "refused 9", "refused 100"]),
    ("lt_retract", &["a number", "0", "refused 1", "refused 4", "refused 9", "refused 100"]),
    ("lt_reclaim", &["answered", "refused 1", "refused 9", "refused 14", "refused 100"]),
    ("lt_scan_open", &["answered", "refused 1", "refused 4", "refused 9", "refused 100"]),
    ("lt_scan_next", &["found", "ended", "spent", "refused 1", "refused 6", "refused 7", "refused 9", "refused 13", "refused 100"]),
    ("lt_query_open", &["answered", "refused 1", "refused 8", "refused 100"]),
    (
        "lt_query_next",
        &["found", "ended", "spent", "refused 1", "refused 6", "refused 7", "refused 8", "refused 9", "refused 13", "refused 100"],
    ),
    ("lt_export", &["a file", "no bytes", "refused 1", "refused 9", "refused 11", "refused 100"]),
];

/// Calls by the structs have every result but one.
const BY_STRUCTS: &str = "by the structs ";
const TOO_SHORT: &str = "refused 100";

/// Well formed with the string ending, but for its length.
const TOO_LONG: &str = "over 255 bytes as spelled";

/// How the string ending is to be met: a name or an object that has it, by the answer, and what is close to one. "Full" is no room for
/// what is left of the name; "no room as spelled" is room for that alone.
const ENDINGS: [(&str, &[&str]); 7] = [
    ("lt_name_kind", &["kind 3", TOO_LONG, "close: kind 1", "close: kind 3", "close: refused 2"]),
    ("lt_read_line", &["triple", "dot at once", "255 bytes", TOO_LONG, "close: triple", "close: refused 10"]),
    ("lt_check", &["not sound for it alone", "close: sound"]),
    ("lt_find", &["a number", "0", "bounded", TOO_LONG, "close: a number", "close: 0", "close: refused 2"]),
    ("lt_store_number", &["a number", "refused 4", "bounded", "close: refused 4", "close: refused 2"]),
    (
        "lt_enter",
        &[
            "known",
            "known and full",
            "new",
            "new, no room as spelled",
            "new, 255 bytes",
            "refused 3",
            "bounded",
            "bounded new",
            TOO_LONG,
            "close: a number",
            "close: refused 2",
        ],
    ),
    ("lt_name", &["answered"]),
];

fn function(call: &Call) -> &'static str {
    match call {
        Call::NameKind { .. } => "lt_name_kind",
        Call::ReadLine { .. } => "lt_read_line",
        Call::Check => "lt_check",
        Call::Find { .. } => "lt_find",
        Call::Number { .. } => "lt_store_number",
        Call::NamesWithPrefix { .. } => "lt_names_with_prefix",
        Call::Enter { .. } => "lt_enter",
        Call::Name { .. } => "lt_name",
        Call::Live { .. } => "lt_store_live",
        Call::Statement { .. } => "lt_statement",
        Call::Assert { .. } => "lt_assert",
        Call::Retract { .. } => "lt_retract",
        Call::Reclaim => "lt_reclaim",
        Call::ScanOpen { .. } => "lt_scan_open",
        Call::ScanNext { .. } => "lt_scan_next",
        Call::QueryOpen { .. } => "lt_query_open",
        Call::QueryNext { .. } => "lt_query_next",
        Call::Export => "lt_export",
    }
}

/// A call's result in words.
pub fn label(call: &Call, result: u32, lent: &Lent) -> String {
    let number = |n: u32| if n == 0 { "0" } else { "a number" };
    if result != 0 {
        return format!("refused {result}");
    }
    match call {
        Call::NameKind { .. } => return format!("kind {}", lent.reply[0]),
        Call::ReadLine { .. } => ["end", "nothing", "triple"][lent.line_reply[0] as usize],
        Call::Check => ["not sound", "sound"][lent.reply[0] as usize],
        Call::Find { .. } | Call::Number { .. } | Call::Enter { .. } => number(lent.reply[0]),
        Call::Retract { .. } | Call::Live { .. } => number(lent.reply[0]),
        Call::NamesWithPrefix { .. } => ["none", "some"][lent.reply[0].min(1) as usize],
        Call::Assert { .. } => ["", "new", "already", "revived"][lent.reply[0] as usize],
        Call::ScanNext { .. } | Call::QueryNext { .. } => ["", "found", "ended", "spent"][lent.reply[0] as usize],
        Call::Export => ["no bytes", "a file"][lent.reply[0].min(1) as usize],
        Call::Name { .. } | Call::Statement { .. } | Call::Reclaim | Call::ScanOpen { .. } | Call::QueryOpen { .. } => "answered",
    }
    .to_string()
}

/// Whether bytes hold a part of the string ending that no other name here has.
fn close(bytes: &[u8]) -> bool {
    const PART: &[u8] = b"XMLSchema";
    bytes.windows(PART.len()).any(|window| window == PART)
}

/// How a call meets the string ending, if it is refused neither 1 nor 100.
fn met(call: &Call, result: u32, before: &Lent, after: &Lent, bounded: bool) -> Vec<String> {
    let own = label(call, result, after);
    let entered = matches!(call, Call::Enter { .. }) && result == 0;
    let met = match call {
        Call::NameKind { name } | Call::Find { name } | Call::Number { name } | Call::Enter { name } => {
            match quoted_and_suffix(name) {
                Some((_, STRING_ENDING)) if name.len() > MAX_NAME => vec![TOO_LONG],
                Some((quoted, STRING_ENDING)) if entered => met_entering(quoted, name, before, after, bounded),
                Some((_, STRING_ENDING)) => vec![if bounded { "bounded" } else { own.as_str() }],
                _ if close(name) && !bounded => return vec![format!("close: {own}")],
                _ => vec![],
            }
        }
        Call::ReadLine { line_text, .. } if result == 0 => met_in_triple(line_text, &after.line_reply),
        Call::ReadLine { line_text, at } => met_in_broken_line(line_text, *at, &after.line_reply),
        Call::Check if close(after.used_text()) => match after.reply[0] {
            0 if after.sound_but_for_endings() => vec!["not sound for it alone"],
            0 => vec![],
            _ => vec!["close: sound"],
        },
        Call::Name { .. } if result == 0 => {
            let [start, length] = [0, 1].map(|word| after.reply[word] as usize);
            let held = after.text[start..start + length].ends_with(STRING_ENDING);
            if held {
                vec!["answered"]
            } else {
                vec![]
            }
        }
        _ => vec![],
    };
    met.into_iter().map(String::from).collect()
}

/// A name with the string ending was given a number.
fn met_entering(quoted: &[u8], name: &[u8], before: &Lent, after: &Lent, bounded: bool) -> Vec<&'static str> {
    let new = after.reply[0] > before.r();
    let all = [
        ("bounded", bounded),
        ("bounded new", bounded && new),
        ("new", !bounded && new),
        ("new, no room as spelled", !bounded && new && !before.room_for_name(name.len())),
        ("new, 255 bytes", !bounded && new && name.len() == MAX_NAME),
        ("known", !bounded && !new),
        ("known and full", !bounded && !new && !before.room_for_name(quoted.len())),
    ];
    all.into_iter().filter(|(_, met)| *met).map(|(label, _)| label).collect()
}

/// A line was read, and perhaps a triple. The string ending follows the object's part.
fn met_in_triple(text: &[u8], reply: &[u64]) -> Vec<&'static str> {
    if reply[0] != 2 {
        return vec![];
    }
    let [start, length] = [6, 7].map(|word| reply[word] as usize);
    let (object, rest) = text[start..].split_at(length);
    match rest.strip_prefix(STRING_ENDING) {
        Some(rest) => {
            let at_once = rest.first() == Some(&b'.');
            let longest = length + STRING_ENDING.len() == MAX_NAME;
            let all = [("triple", true), ("dot at once", at_once), ("255 bytes", longest)];
            all.into_iter().filter(|(_, met)| *met).map(|(label, _)| label).collect()
        }
        None if close(object) => vec!["close: triple"],
        None => vec![],
    }
}

/// A line was refused. Where it was for the length of a term, that began 255 bytes before.
fn met_in_broken_line(text: &[u8], at: usize, reply: &[u64]) -> Vec<&'static str> {
    let [after, offset] = [1, 2].map(|word| reply[word] as usize);
    let term = offset.checked_sub(MAX_NAME).and_then(|start| quoted_and_suffix(&text[at + start..after]));
    match term {
        Some((quoted, suffix)) if suffix.starts_with(STRING_ENDING) && quoted.len() + STRING_ENDING.len() > MAX_NAME => {
            vec![TOO_LONG]
        }
        _ if close(&text[at..after]) => vec!["close: refused 10"],
        _ => vec![],
    }
}

impl Tally {
    /// Counts a call by its result, what it was lent and what it left.
    pub fn count(&mut self, call: &Call, way: Way, result: u32, before: &Lent, after: &Lent, bounded: bool) {
        let one_more = |counts: &mut Counts, label| *counts.entry((function(call), label)).or_default() += 1;
        let own = label(call, result, after);
        for label in [own.clone(), "bounded".to_string()].into_iter().take(if bounded { 2 } else { 1 }) {
            one_more(&mut self.calls, label.clone());
            if way != Way::Slices {
                one_more(&mut self.by_structs, label);
            }
        }
        if way == Way::StructsOrNull {
            nulls::met(call, before).into_iter().for_each(|label| one_more(&mut self.nulls, label));
        }
        if result != 1 && result != 100 {
            met(call, result, before, after, bounded).into_iter().for_each(|label| one_more(&mut self.endings, label));
            let ways = live::met(call, result, &own, before, after, bounded);
            ways.into_iter().for_each(|label| one_more(&mut self.live_counts, label));
            patterns::met(call, result, &own, before).into_iter().for_each(|label| one_more(&mut self.patterns, label));
        }
        if call.takes_tables() && result != 100 {
            let ways = beginnings::met(call, result, before, after, bounded);
            ways.into_iter().for_each(|label| one_more(&mut self.beginnings, label));
            files::met(call, result, before).into_iter().for_each(|label| one_more(&mut self.files, label));
            reclaims::met(call, result, &own, before, after).into_iter().for_each(|label| one_more(&mut self.reclaims, label));
        }
    }

    /// Counts a call by what came before it: how it meets a reclaim.
    pub fn count_after_reclaim(&mut self, call: &Call, label: &str) {
        *self.reclaims.entry((function(call), label.to_string())).or_default() += 1;
    }

    /// What did not occur.
    pub fn missing(&self) -> Vec<String> {
        let results = RESULTS.iter().map(|row| (row, &self.calls, ""));
        let by_structs = RESULTS.iter().map(|row| (row, &self.by_structs, BY_STRUCTS));
        let nulls = nulls::WAYS.iter().map(|row| (row, &self.nulls, "without a pointer to the "));
        let endings = ENDINGS.iter().map(|row| (row, &self.endings, "with the string ending "));
        let beginnings = beginnings::WAYS.iter().map(|row| (row, &self.beginnings, "in the index "));
        let files = files::WAYS.iter().map(|row| (row, &self.files, "in a file "));
        let live_counts = live::WAYS.iter().map(|row| (row, &self.live_counts, "with a live count "));
        let reclaims = reclaims::WAYS.iter().map(|row| (row, &self.reclaims, "with reclaims "));
        let patterns = patterns::WAYS.iter().map(|row| (row, &self.patterns, "at the limit of patterns "));
        let ways = nulls.chain(endings).chain(beginnings).chain(files).chain(live_counts).chain(reclaims).chain(patterns);
        let mut missing = vec![];
        for (&(function, labels), counts, with) in results.chain(by_structs).chain(ways) {
            let due = labels.iter().filter(|&&label| with != BY_STRUCTS || label != TOO_SHORT);
            let absent = due.filter(|label| !counts.contains_key(&(function, label.to_string())));
            missing.extend(absent.map(|label| format!("{function} {with}{label}")));
        }
        missing
    }
}

/// A line for each function, with its counts.
fn table(f: &mut fmt::Formatter<'_>, rows: &[(&'static str, &[&str])], counts: &Counts) -> fmt::Result {
    for (function, _) in rows {
        let of_it = counts.iter().filter(|((name, _), _)| name == function);
        let of_it: Vec<String> = of_it.map(|((_, label), count)| format!("{label}: {count}")).collect();
        writeln!(f, "{function:20} {}", of_it.join(", "))?;
    }
    Ok(())
}

impl fmt::Display for Tally {
    fn fmt(&self, f: &mut fmt::Formatter<'_>) -> fmt::Result {
        table(f, &RESULTS, &self.calls)?;
        writeln!(f, "of these by the structs:")?;
        table(f, &RESULTS, &self.by_structs)?;
        writeln!(f, "with null for what is empty:")?;
        table(f, &nulls::WAYS, &self.nulls)?;
        writeln!(f, "with the string ending, or close to it:")?;
        table(f, &ENDINGS, &self.endings)?;
        writeln!(f, "in the index of names:")?;
        table(f, &beginnings::WAYS, &self.beginnings)?;
        writeln!(f, "of files:")?;
        table(f, &files::WAYS, &self.files)?;
        writeln!(f, "with live counts:")?;
        table(f, &live::WAYS, &self.live_counts)?;
        writeln!(f, "with reclaims:")?;
        table(f, &reclaims::WAYS, &self.reclaims)?;
        writeln!(f, "at the limit of patterns:")?;
        table(f, &patterns::WAYS, &self.patterns)
    }
}
