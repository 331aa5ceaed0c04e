//! How calls meet the file of the statements: which lines it has and in which order, how much is lent for it, and what cannot be read.

use crate::names::STRING_ENDING;
use crate::plain::{Call, Lent};
use crate::reclaims::holding;

/// The ways that are to be met. Of a file: its lines, by the statements and by their order; what stands in its names; what is lent. "Begins
/// another" are two lines, one after the other, of whose first names that differ one begins the other. Of 11: what is too short, by how much;
/// "words for the live ones" are fewer than T. Of 9: what cannot be read, "alone" if it is in one statement only.
pub const WAYS: [(&str, &[&str]); 1] = [(
    "lt_export",
    &[
        "no statements",
        "no statements, nothing lent",
        "all retracted",
        "some retracted",
        "one line",
        "several lines",
        "another order than the numbers",
        "a name begins another",
        "equal lines",
        "unsound",
        "unsound names",
        "a line feed in a name",
        "the string ending",
        "as many bytes",
        "more bytes",
        "as many words",
        "more words",
        "11 for one byte",
        "11 for one word",
        "11 for both",
        "11, words for the live ones",
        "11, nothing lent",
        "9 for a flag alone",
        "9 for a resource alone",
        "9 for a name alone",
        "9 for several",
        "9 for a retracted one",
        "9 and too few words",
        "9, nothing lent",
        "1, nothing lent",
    ],
)];

/// How a call meets the file, if it is not refused 100.
pub fn met(call: &Call, result: u32, before: &Lent) -> Vec<String> {
    let Call::Export = call else { return vec![] };
    let nothing = before.out.is_empty() && before.work.is_empty();
    match result {
        0 => met_writing(before, nothing),
        11 => met_no_space(before, nothing),
        9 => met_unreadable(before, nothing),
        _ => holding(&[("1, nothing lent", nothing)]),
    }
}

fn met_writing(before: &Lent, nothing: bool) -> Vec<String> {
    let lines = before.lines().expect("statements that can be read");
    let mut sorted = lines.clone();
    sorted.sort();
    let (t, live, length) = (before.t() as usize, lines.len(), lines.concat().len());
    let (bytes, words) = (before.out.len(), before.work.len());
    let line_feeds = lines.concat().iter().filter(|&&byte| byte == b'\n').count();
    let spelled = [STRING_ENDING, b" .\n"].concat();
    let begins = |two: &[(Vec<u8>, [Vec<u8>; 3])]| {
        let parted = two[0].1.iter().zip(&two[1].1).find(|(one, other)| one != other);
        parted.is_some_and(|(one, other)| one.starts_with(other) || other.starts_with(one))
    };
    holding(&[
        ("no statements", t == 0),
        ("no statements, nothing lent", t == 0 && nothing),
        ("all retracted", t > 0 && live == 0),
        ("some retracted", 0 < live && live < t),
        ("one line", live == 1),
        ("several lines", live > 1),
        ("another order than the numbers", lines != sorted),
        ("a name begins another", named_lines(before).windows(2).any(begins)),
        ("equal lines", sorted.windows(2).any(|two| two[0] == two[1])),
        ("unsound", live > 0 && !before.sound()),
        ("unsound names", live > 0 && before.names().is_none()),
        ("a line feed in a name", line_feeds > live),
        ("the string ending", lines.iter().any(|line| line.ends_with(&spelled))),
        ("as many bytes", length > 0 && bytes == length),
        ("more bytes", length > 0 && bytes > length),
        ("as many words", t > 0 && words == t),
        ("more words", t > 0 && words > t),
    ])
}

/// The live statements' lines, sorted, each with its names.
fn named_lines(lent: &Lent) -> Vec<(Vec<u8>, [Vec<u8>; 3])> {
    let name = |number| {
        let (start, length) = lent.name(number).expect("a name that can be read");
        lent.text[start as usize..][..length as usize].to_vec()
    };
    let live = (1..=lent.t()).filter(|&n| lent.flag(n) == 0);
    let line = |names: &[Vec<u8>; 3]| [&names.join(&b' ')[..], b" .\n"].concat();
    let mut named: Vec<_> = live.map(|n| lent.triple(n).map(name)).map(|names| (line(&names), names)).collect();
    named.sort();
    named
}

fn met_no_space(before: &Lent, nothing: bool) -> Vec<String> {
    let lines = before.lines().expect("statements that can be read");
    let (t, live, length) = (before.t() as usize, lines.len(), lines.concat().len());
    let (bytes, words) = (before.out.len(), before.work.len());
    holding(&[
        ("11 for one byte", bytes + 1 == length && words >= t),
        ("11 for one word", bytes >= length && words + 1 == t),
        ("11 for both", bytes < length && words < t),
        ("11, words for the live ones", bytes >= length && live <= words),
        ("11, nothing lent", nothing),
    ])
}

fn met_unreadable(before: &Lent, nothing: bool) -> Vec<String> {
    let unreadable: Vec<(u32, &str)> = (1..=before.t()).filter_map(|n| Some((n, unread(before, n)?))).collect();
    let alone = |what: &str| matches!(unreadable[..], [(_, only)] if only == what);
    holding(&[
        ("9 for a flag alone", alone("flag")),
        ("9 for a resource alone", alone("resource")),
        ("9 for a name alone", alone("name")),
        ("9 for several", unreadable.len() > 1),
        ("9 for a retracted one", unreadable.iter().all(|&(n, _)| before.flag(n) == 1)),
        ("9 and too few words", before.work.len() < before.t() as usize),
        ("9, nothing lent", nothing),
    ])
}

/// What cannot be read of a statement.
fn unread(lent: &Lent, n: u32) -> Option<&'static str> {
    match lent.statement(n) {
        Err(_) if lent.triple(n).iter().any(|&number| !lent.is_resource(number)) => Some("resource"),
        Err(_) => Some("flag"),
        Ok(_) if lent.triple(n).iter().any(|&number| lent.name(number).is_err()) => Some("name"),
        Ok(_) => None,
    }
}
