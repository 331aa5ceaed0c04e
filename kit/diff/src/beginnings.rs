//! How calls meet the index of names: where find places a name, and listings by a beginning, by what it is, which names have it, and how
//! many words are lent for them.

use crate::names::{without_ending, MAX_NAME};
use crate::plain::{Call, Lent};
use crate::reclaims::holding;

/// The ways that are to be met. Of a name: whether it is there, and at which end of the index; "elsewhere as spelled" is a position that
/// the name with its string ending would not have. Of a beginning: what it is, by how many names have it; where they stand among
/// all names, or where one would; the words lent for some of them.
pub const WAYS: [(&str, &[&str]); 2] = [
    (
        "lt_find",
        &[
            "there, first",
            "there, between",
            "there, last",
            "absent, first",
            "absent, between",
            "absent, last",
            "absent, no names",
            "absent, elsewhere as spelled",
        ],
    ),
    (
        "lt_names_with_prefix",
        &[
            "empty: all",
            "empty: no names",
            "255 bytes: some",
            "255 bytes: none",
            "256 bytes: refused 2",
            "over 255 bytes, else none",
            "over 255 bytes, else bounded",
            "over 255 bytes, else refused 1",
            "a whole name: one",
            "a whole name: more",
            "a name and a zero byte: none",
            "a zero byte elsewhere: none",
            "into the next name of the text: none",
            "byte 255 at the end: none",
            "some without its last byte: none",
            "some without the string ending: none",
            "some, first",
            "some, between",
            "some, last",
            "none, first",
            "none, between",
            "none, last",
            "no words",
            "fewer words",
            "as many words",
            "more words",
            "none, and words",
            "bounded",
            "bounded, and words",
        ],
    ),
];

/// How a call meets the index, if it is not refused 100.
pub fn met(call: &Call, result: u32, before: &Lent, after: &Lent, bounded: bool) -> Vec<String> {
    match call {
        Call::Find { name } if result == 0 && !bounded => met_finding(name, before, after),
        Call::NamesWithPrefix { prefix } if result == 0 && !bounded => met_listing(prefix, before, after),
        Call::NamesWithPrefix { .. } if bounded => {
            holding(&[("bounded", true), ("bounded, and words", !before.numbers.is_empty())])
        }
        Call::NamesWithPrefix { prefix } if prefix.len() > MAX_NAME => met_too_long(prefix, result, before),
        _ => vec![],
    }
}

fn met_finding(name: &[u8], before: &Lent, after: &Lent) -> Vec<String> {
    let (there, position, r) = (after.reply[0] != 0, after.reply[1], before.r());
    let names = before.names().expect("a sound dictionary");
    let elsewhere = names.iter().filter(|&&other| other < name).count() as u32 != position;
    let elsewhere = elsewhere && without_ending(name).len() < name.len();
    let (first, last) = (position == 0, position == if there { r - 1 } else { r });
    holding(&[
        ("there, first", there && first && r > 1),
        ("there, between", there && !first && !last),
        ("there, last", there && last && r > 1),
        ("absent, first", !there && first && r > 0),
        ("absent, between", !there && !first && !last),
        ("absent, last", !there && last && r > 0),
        ("absent, no names", r == 0),
        ("absent, elsewhere as spelled", !there && elsewhere),
    ])
}

fn met_listing(prefix: &[u8], before: &Lent, after: &Lent) -> Vec<String> {
    let (total, words, r) = (after.reply[0] as usize, before.numbers.len(), before.r() as usize);
    let names = before.names().expect("a sound dictionary");
    let below = names.iter().filter(|&&name| name < prefix).count();
    let (some, first, last) = (total > 0, below == 0, below + total == r);
    let whole = names.contains(&prefix);
    let zero = prefix.iter().position(|&byte| byte == 0);
    let cut = prefix.split_last();
    let begins = |bytes: &[u8]| names.iter().any(|name| name.starts_with(bytes));
    let in_text = zero.is_some() && before.used_text().windows(prefix.len()).any(|window| window == prefix);
    let unspelled = without_ending(prefix);
    holding(&[
        ("empty: all", prefix.is_empty() && r > 0),
        ("empty: no names", prefix.is_empty() && r == 0),
        ("255 bytes: some", prefix.len() == MAX_NAME && some),
        ("255 bytes: none", prefix.len() == MAX_NAME && !some),
        ("a whole name: one", whole && total == 1),
        ("a whole name: more", whole && total > 1),
        ("a name and a zero byte: none", cut.is_some_and(|(&last, cut)| last == 0 && names.contains(&cut))),
        ("a zero byte elsewhere: none", zero.is_some_and(|zero| !names.contains(&&prefix[..zero]))),
        ("into the next name of the text: none", in_text && prefix.last() != Some(&0)),
        ("byte 255 at the end: none", cut.is_some_and(|(&last, cut)| last == 255 && begins(cut))),
        ("some without its last byte: none", !some && cut.is_some_and(|(_, cut)| begins(cut))),
        ("some without the string ending: none", !some && unspelled.len() < prefix.len() && begins(unspelled)),
        ("some, first", some && first && total < r),
        ("some, between", some && !first && !last),
        ("some, last", some && last && total < r),
        ("none, first", !some && first && r > 0),
        ("none, between", !some && !first && !last),
        ("none, last", !some && last && r > 0),
        ("no words", some && words == 0),
        ("fewer words", some && 0 < words && words < total),
        ("as many words", some && words == total),
        ("more words", some && words > total),
        ("none, and words", !some && words > 0),
    ])
}

/// A beginning over 255 bytes was refused. No name of a sound store would have it.
fn met_too_long(prefix: &[u8], result: u32, before: &Lent) -> Vec<String> {
    let unsound = before.within_capacity() && before.names().is_none();
    holding(&[
        ("256 bytes: refused 2", prefix.len() == MAX_NAME + 1 && result == 2),
        ("over 255 bytes, else none", result == 2 && !unsound),
        ("over 255 bytes, else bounded", result == 2 && unsound),
        ("over 255 bytes, else refused 1", result == 1),
    ])
}
