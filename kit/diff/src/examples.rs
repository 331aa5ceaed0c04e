//! The plain implementation against the papers' own examples and those of `docs/DECISIONS.md`, so that it is not right only by agreeing
//! with the library.

use crate::names::{kind_of, read_line, Line};
use crate::plain::{
    resource_at, statement_at, Call, Expected, Lent, COUNTER_WORDS, FLAG, KIND, LIVE, MAX_PATTERNS, MAX_RECLAIMS, NEXT, OFFSET,
    PLACES, QUERY_CURSOR_WORDS, QUERY_RECLAIMS, RECLAIMS, RESOURCE_WORDS, SCAN_CHAIN, SCAN_RECLAIMS, STATEMENT_WORDS, VARIABLES,
};
use crate::random::Random;

const V: u32 = 1 << 31;

fn call(lent: &mut Lent, call: Call) -> (u32, Vec<u32>) {
    lent.reply = vec![0; call.reply_words()];
    lent.cursor.resize(call.cursor_words(), 0);
    match call.make(lent) {
        Expected::Exactly(result) => (result, lent.reply.clone()),
        Expected::Bounded => panic!("bounded"),
    }
}

fn store(names: &[&str], triples: &[[u32; 3]]) -> Lent {
    let mut lent = Lent {
        counters: vec![0; COUNTER_WORDS],
        resources: vec![9; RESOURCE_WORDS * 6],
        statements: vec![9; STATEMENT_WORDS * 6],
        index: vec![9; 6],
        text: vec![9; 64],
        ..Lent::default()
    };
    for (k, name) in names.iter().enumerate() {
        assert_eq!(call(&mut lent, Call::Enter { name: name.as_bytes().to_vec() }), (0, vec![k as u32 + 1]));
    }
    for (k, &triple) in triples.iter().enumerate() {
        assert_eq!(call(&mut lent, Call::Assert { triple }), (0, vec![1, k as u32 + 1]));
    }
    assert_eq!(call(&mut lent, Call::Check), (0, vec![1]));
    lent
}

/// The paper's example: 1 `<r:21>`, 2 `<p:trips>`, 3 `<b:4>`, 4 `<b:7>`.
fn bay() -> Lent {
    store(&["<r:21>", "<p:trips>", "<b:4>", "<b:7>"], &[[1, 2, 3], [1, 2, 4]])
}

/// The statements of a listing, and the visits until it has ended.
fn listed(lent: &mut Lent, pattern: [u32; 3]) -> (Vec<u32>, u32) {
    assert_eq!(call(lent, Call::ScanOpen { pattern }).0, 0);
    let (mut found, mut visits) = (vec![], 0);
    loop {
        let (result, reply) = call(lent, Call::ScanNext { budget: 9 });
        assert_eq!(result, 0);
        visits += reply[2];
        match reply[0] {
            1 => found.push(reply[1]),
            _ => return (found, visits),
        }
    }
}

#[test]
fn bench_examples() {
    let mut lent = bay();
    assert_eq!(listed(&mut lent, [1, 0, 0]), (vec![2, 1], 2));
    assert_eq!(listed(&mut lent, [1, 2, 3]), (vec![1], 1));
    assert_eq!(listed(&mut lent, [0, 0, 0]), (vec![2, 1], 2));
    assert_eq!(lent.statements[statement_at(2) + NEXT..][..PLACES], [1, 1, 0]);

    let words = vec![V, 2, 3, V, 2, V + 1];
    assert_eq!(call(&mut lent, Call::QueryOpen { words: words.clone() }).0, 0);
    let (mut answers, mut visits) = (vec![], 0);
    loop {
        let (result, reply) = call(&mut lent, Call::QueryNext { words: words.clone(), budget: 9 });
        assert_eq!(result, 0);
        visits += reply[1];
        match reply[0] {
            1 => answers.push((reply[2], reply[3])),
            _ => break,
        }
    }
    assert_eq!((answers, visits), (vec![(1, 4), (1, 3)], 3));

    let triple = [1, 2, 3];
    assert_eq!(call(&mut lent, Call::Retract { triple }), (0, vec![1]));
    assert_eq!(listed(&mut lent, [0, 0, 3]), (vec![], 1));
    assert_eq!(call(&mut lent, Call::Retract { triple }), (0, vec![0]));
    assert_eq!(call(&mut lent, Call::Assert { triple }), (0, vec![3, 1]));
    assert_eq!(call(&mut lent, Call::Retract { triple: [1, 2, 4] }), (0, vec![2]));
    assert_eq!(call(&mut lent, Call::ScanOpen { pattern: [1, 2, 0] }).0, 0);
    assert_eq!(call(&mut lent, Call::ScanNext { budget: 1 }), (0, vec![3, 0, 1]));
}

/// Decisions 60 to 62: a chain that has run out stays in the cursor, and whether a record remains.
#[test]
fn run_out_chains() {
    let words = vec![V, 2, V + 1, V + 1, 2, V + 2];
    let mut lent = store(&["<a>", "<b>", "<c>", "<d>"], &[[1, 2, 3], [1, 2, 4], [3, 2, 4]]);
    assert_eq!(call(&mut lent, Call::QueryOpen { words: words.clone() }).0, 0);
    assert_eq!(call(&mut lent, Call::QueryNext { words: words.clone(), budget: 1 }).1[..2], [3, 1]);
    assert_eq!(lent.cursor[..8], [1, 2, 0, 2, 3, 1, 0, 0]);

    let mut lent = store(&["<a>", "<b>", "<c>", "<d>"], &[[1, 2, 4]]);
    assert_eq!(call(&mut lent, Call::QueryOpen { words: words.clone() }).0, 0);
    assert_eq!(call(&mut lent, Call::QueryNext { words, budget: 1 }).1[..2], [2, 1]);
    assert_eq!(lent.cursor[..4], [2, 0, 0, 0]);
}

/// Decision 58: the level whose record was retracted is left for its chain's next, without a visit.
#[test]
fn retracted_since() {
    let words = vec![V, 2, V + 1, V + 1, 2, V + 2];
    let mut lent = store(&["<a>", "<b>", "<c>", "<d>"], &[[1, 2, 3], [2, 2, 1], [3, 2, 4]]);
    assert_eq!(call(&mut lent, Call::Retract { triple: [1, 2, 3] }), (0, vec![1]));
    lent.cursor = [&[1, 2, 0, 2, 1, 1, 3][..], &[0; 2 * (MAX_PATTERNS - 2)]].concat();
    assert_eq!(call(&mut lent, Call::QueryNext { words, budget: 5 }).1[..2], [2, 0]);
}

#[test]
fn no_patterns() {
    let mut lent = bay();
    assert_eq!(call(&mut lent, Call::QueryOpen { words: vec![] }).0, 0);
    let next = |budget| Call::QueryNext { words: vec![], budget };
    assert_eq!(call(&mut lent, next(0)).0, 7);
    assert_eq!(call(&mut lent, next(1)), (0, [&[1, 0][..], &[0; VARIABLES]].concat()));
    assert_eq!(call(&mut lent, next(1)), (0, [&[2, 0][..], &[0; VARIABLES]].concat()));
    lent.cursor[..2].copy_from_slice(&[1, 1]);
    assert_eq!(call(&mut lent, next(1)).0, 6);
}

/// Paper 02, six patterns: the seventh is refused 8, and so is a word past the sixth; six take a visit each. A place of seven levels is 6.
#[test]
fn six_patterns() {
    let mut lent = bay();
    let copies = |words: usize| [1, 2, 3].into_iter().cycle().take(words).collect::<Vec<u32>>();
    for (length, refused) in [(0, 0), (17, 8), (18, 0), (19, 8), (21, 8), (24, 8)] {
        assert_eq!(call(&mut lent, Call::QueryOpen { words: copies(length) }).0, refused);
        assert_eq!(call(&mut lent, Call::QueryNext { words: copies(length), budget: 9 }).0, refused);
    }
    let next = |budget| Call::QueryNext { words: copies(18), budget };
    lent.cursor = vec![0; 15];
    assert_eq!(call(&mut lent, next(9)).1[..2], [1, 6]);
    assert_eq!(lent.cursor, [1, 6, 0, 3, 1, 3, 1, 3, 1, 3, 1, 3, 1, 3, 0]);
    lent.cursor[1] = 7;
    assert_eq!(call(&mut lent, next(9)).0, 6);
    assert_eq!(call(&mut lent, next(0)).0, 6);
}

/// Decision 19.
#[test]
fn names() {
    let kind = |name: &str| kind_of(name.as_bytes());
    for name in ["_:a-", "_:a..b"] {
        assert_eq!(kind(name), Some(2), "{name}");
    }
    for name in ["\"\"", "\"a\"@e-1", "\"a\"^^<t>", "\"\\\"\\\\\\n\\r\""] {
        assert_eq!(kind(name), Some(3), "{name}");
    }
    let none = [
        "",
        "<>",
        "_:-a",
        "_:.a",
        "_:a.",
        "_:a:b",
        "\"a\"@",
        "\"a\"@en-",
        "\"a\"@1",
        "\"a\"^^",
        "\"\t\"",
        "\"\x7f\"",
        "\"\\t\"",
        " <a>",
    ];
    for name in none {
        assert_eq!(kind(name), None, "{name}");
    }
    assert_eq!(kind(&format!("<{}>", "a".repeat(253))), Some(1));
    assert_eq!(kind(&format!("<{}>", "a".repeat(254))), None);
}

/// Decisions 72 to 83, by the offset of the refusal, or none for a triple.
#[test]
fn lines() {
    let broken = |text: &str| match read_line(text.as_bytes(), 0) {
        (Line::Broken { offset }, _) => Some(offset),
        (Line::Triple(_), _) => None,
        (line, _) => panic!("{text}: {line:?}"),
    };
    let long = |length: usize, tail: &str| format!("<a><b>_:{}{tail}", "a".repeat(length));
    assert_eq!(broken("_:a<b>\"c\"@en.#x"), None);
    assert_eq!(broken("<a> # c"), Some(4));
    assert_eq!(broken("<a><b>\"c\" @en."), Some(10));
    assert_eq!(broken("<a><b>_:c."), None);
    assert_eq!(broken("<a><b>_:c.d."), None);
    assert_eq!(broken("<a><b>_:c. ."), Some(11));
    assert_eq!(broken("<a><b>_:c.."), Some(11));
    assert_eq!(broken("_:a. <b>"), Some(4));
    assert_eq!(broken("\"a\" <b> <c> ."), Some(0));
    assert_eq!(broken("<a> _:b <c> ."), Some(4));
    assert_eq!(broken(&format!("<{}", "a".repeat(254))), Some(255));
    assert_eq!(broken(&format!("<{}", "a".repeat(300))), Some(255));
    for (tail, offset) in [(".", None), (".b", Some(262)), ("..", Some(262)), (". y", Some(263)), ("a", Some(261))] {
        assert_eq!(broken(&long(253, tail)), offset, "{tail}");
    }
    for (tail, offset) in [(".", None), ("..", Some(261)), (".b", Some(261))] {
        assert_eq!(broken(&long(252, tail)), offset, "{tail}");
    }
    assert_eq!(read_line(b"#a\r", 0), (Line::Broken { offset: 2 }, 3));
    assert_eq!(read_line(b"#a\r\n", 0), (Line::Nothing, 4));
    assert_eq!(read_line(b"#a\r\r\n", 0), (Line::Broken { offset: 2 }, 5));
    assert_eq!(read_line(b"\r\n", 1), (Line::Nothing, 2));
    assert_eq!(read_line(b"\n", 9), (Line::End, 9));
    assert_eq!(read_line(b" <a> <b> <c> . \n", 0), (Line::Triple([(1, 3), (5, 3), (9, 3)]), 16));
}

/// The string ending as paper 02 spells it; with a capital letter, without its last byte, and its datatype as a name.
const ENDING: &str = "^^<http://www.w3.org/2001/XMLSchema#string>";
const CAPITAL: &str = "^^<http://www.w3.org/2001/XMLSchema#String>";
const UNCLOSED: &str = "^^<http://www.w3.org/2001/XMLSchema#string";
const DATATYPE: &str = "<http://www.w3.org/2001/XMLSchema#string>";

/// A fresh store of two resources and so many bytes of text.
fn fresh(text: usize) -> Lent {
    Lent {
        counters: vec![0; COUNTER_WORDS],
        resources: vec![9; RESOURCE_WORDS * 2],
        index: vec![9; 2],
        text: vec![9; text],
        ..Lent::default()
    }
}

fn find(lent: &mut Lent, name: &str) -> (u32, Vec<u32>) {
    call(lent, Call::Find { name: name.into() })
}

fn enter(lent: &mut Lent, name: &str) -> (u32, Vec<u32>) {
    call(lent, Call::Enter { name: name.into() })
}

/// The record of a literal whose name stands at the text's beginning and that no statement has.
fn literal_record() -> [u32; RESOURCE_WORDS] {
    let mut record = [0; RESOURCE_WORDS];
    record[KIND] = 3;
    record
}

/// Decisions 21 and 123: a label with the string ending is the label without it. Room and B go by what is left.
#[test]
fn one_label_two_spellings() {
    let spelled = format!("\"A\"{ENDING}");
    assert_eq!((spelled.len(), kind_of(spelled.as_bytes())), (46, Some(3)));
    for order in [[spelled.as_str(), "\"A\""], ["\"A\"", spelled.as_str()]] {
        let mut lent = fresh(4);
        assert_eq!(find(&mut lent, order[0]), (0, vec![0, 0]));
        assert_eq!(enter(&mut lent, order[0]), (0, vec![1]));
        assert_eq!((&lent.counters[..], &lent.text[..]), (&[1, 0, 4, 0][..], &b"\"A\"\0"[..]));
        assert_eq!((&lent.resources[..RESOURCE_WORDS], lent.index[0]), (&literal_record()[..], 1));
        for name in order {
            assert_eq!(find(&mut lent, name), (0, vec![1, 0]));
            assert_eq!(enter(&mut lent, name), (0, vec![1]));
        }
        assert_eq!(call(&mut lent, Call::Name { number: 1 }), (0, vec![0, 3]));
        assert_eq!(call(&mut lent, Call::Check), (0, vec![1]));
        assert_eq!(enter(&mut lent, &format!("\"\"{ENDING}")).0, 3);
    }
    let mut lent = fresh(3);
    assert_eq!(enter(&mut lent, &spelled).0, 3);
    assert_eq!(enter(&mut lent, &format!("\"\"{ENDING}")), (0, vec![1]));
    assert_eq!((&lent.counters[..], &lent.text[..]), (&[1, 0, 3, 0][..], &b"\"\"\0"[..]));
    assert_eq!(find(&mut lent, "\"\""), (0, vec![1, 0]));
}

/// Decision 123: the 255 bytes are those of the name as spelled, so 212 are the most that are left, and a longer literal has one spelling.
#[test]
fn an_ending_within_255_bytes() {
    let [longest, beyond] = [210, 211].map(|inner| format!("\"{}\"{ENDING}", "A".repeat(inner)));
    assert_eq!([longest.len(), beyond.len()], [255, 256]);
    assert_eq!([&longest, &beyond].map(|name| kind_of(name.as_bytes())), [Some(3), None]);
    let mut lent = fresh(213);
    assert_eq!(find(&mut lent, &beyond).0, 2);
    assert_eq!(enter(&mut lent, &beyond).0, 2);
    assert_eq!(enter(&mut lent, &longest), (0, vec![1]));
    assert_eq!(lent.counters, [1, 0, 213, 0]);
    assert_eq!(find(&mut lent, &format!("\"{}\"", "A".repeat(210))), (0, vec![1, 0]));
    let mut lent = fresh(212);
    assert_eq!(enter(&mut lent, &longest).0, 3);
    let mut lent = fresh(214);
    assert_eq!(enter(&mut lent, &format!("\"{}\"", "A".repeat(211))), (0, vec![1]));
    assert_eq!(lent.counters, [1, 0, 214, 0]);
    assert_eq!([find(&mut lent, &beyond).0, enter(&mut lent, &beyond).0], [2, 2]);
}

/// Decision 123: names that keep all their bytes, and bytes that are no name.
#[test]
fn no_string_ending() {
    let kept = [
        (format!("\"A\"{CAPITAL}"), 46),
        (format!("\"{ENDING}\""), 45),
        (format!("\"A{ENDING}\""), 46),
        (DATATYPE.to_string(), 41),
        ("\"A\"@en".to_string(), 6),
    ];
    for (name, length) in &kept {
        let mut lent = fresh(length + 5);
        assert_eq!(enter(&mut lent, "\"A\""), (0, vec![1]));
        assert_eq!(find(&mut lent, name), (0, vec![0, 1]), "{name}");
        assert_eq!(enter(&mut lent, name), (0, vec![2]), "{name}");
        assert_eq!(lent.counters, [2, 0, 4 + *length as u32 + 1, 0], "{name}");
        assert_eq!(&lent.text[4..4 + length], name.as_bytes());
        assert_eq!(find(&mut lent, &format!("\"A\"{ENDING}")), (0, vec![1, 0]), "{name}");
        assert_eq!(call(&mut lent, Call::Check), (0, vec![1]), "{name}");
    }
    let none = [
        format!("\"A\"{UNCLOSED}"),
        format!("\"A\"{ENDING}@en"),
        format!("\"A\"@en{ENDING}"),
        format!("\"A\"{ENDING}{ENDING}"),
        format!("\"A{ENDING}"),
        format!("\"A\\\"{ENDING}"),
        format!("<a>{ENDING}"),
        ENDING.to_string(),
    ];
    for name in &none {
        assert_eq!(kind_of(name.as_bytes()), None, "{name}");
        assert_eq!(find(&mut fresh(64), name).0, 2, "{name}");
        assert_eq!(enter(&mut fresh(64), name).0, 2, "{name}");
    }
}

/// Decision 124: the object's part is without the string ending; the dot, the position after the line and the offset of a fault are as
/// spelled.
#[test]
fn lines_with_the_ending() {
    let object = |tail: &str| read_line(format!("<a><b>{tail}").as_bytes(), 0);
    let part = |length: usize, after: usize| (Line::Triple([(0, 3), (3, 3), (6, length)]), after);
    let broken = |offset: usize, after: usize| (Line::Broken { offset }, after);
    assert_eq!(object(&format!("\"A\"{ENDING}.")), part(3, 53));
    assert_eq!(object(&format!("\"\"{ENDING} . # c\r\n<a>")), part(2, 59));
    assert_eq!(object(&format!("\"{}\"{ENDING}.", "A".repeat(210))), part(212, 262));
    assert_eq!(object(&format!("\"{}\"{ENDING}.", "A".repeat(211))), broken(261, 263));
    assert_eq!(object(&format!("\"A\"{CAPITAL}.")), part(46, 53));
    assert_eq!(object(&format!("\"{ENDING}\".")), part(45, 52));
    assert_eq!(object(&format!("{DATATYPE}.")), part(41, 48));
    assert_eq!(object("\"A\"@en."), part(6, 13));
    assert_eq!(object(&format!("\"A\"{ENDING}@en.")), broken(52, 56));
    assert_eq!(object(&format!("\"A\"{ENDING}{ENDING}.")), broken(52, 96));
    assert_eq!(object(&format!("\"A\" {ENDING}.")), broken(10, 54));
    assert_eq!(object(&format!("\"A\"{ENDING}")), broken(52, 52));
    assert_eq!(object(&format!("\"A\"{UNCLOSED}.")), broken(52, 52));
    let second = format!("#\n<a> <b> \"A\"{ENDING}\t.\n");
    assert_eq!(read_line(second.as_bytes(), 2), (Line::Triple([(2, 3), (6, 3), (10, 3)]), 59));
}

/// One literal as the text has it, and room for so many bytes more.
fn holding(name: &str, room: usize) -> Lent {
    let mut lent = fresh(name.len() + 1 + room);
    lent.counters = vec![1, 0, name.len() as u32 + 1, 0];
    lent.resources[..RESOURCE_WORDS].copy_from_slice(&literal_record());
    lent.index[0] = 1;
    lent.text[..name.len()].copy_from_slice(name.as_bytes());
    lent.text[name.len()] = 0;
    lent
}

/// Decision 125: a table that holds a name with the string ending is not sound, and find, listings by a beginning and enter are bounded
/// there, also on other names.
#[test]
fn a_table_with_the_ending() {
    for (name, sound) in [
        (format!("\"A\"{ENDING}"), 0),
        (format!("\"\"{ENDING}"), 0),
        ("\"A\"".to_string(), 1),
        (format!("\"A\"{CAPITAL}"), 1),
        (format!("\"{ENDING}\""), 1),
    ] {
        assert_eq!(call(&mut holding(&name, 0), Call::Check), (0, vec![sound]), "{name}");
    }
    let stored = format!("\"A\"{ENDING}");
    for name in [&stored, "\"A\"", "<b>"] {
        let listed = Call::NamesWithPrefix { prefix: name.into() };
        for asked in [Call::Find { name: name.into() }, listed, Call::Enter { name: name.into() }] {
            let mut lent = holding(&stored, 64);
            lent.reply = vec![0; asked.reply_words()];
            assert_eq!(asked.make(&mut lent), Expected::Bounded, "{asked:?}");
        }
    }
    assert_eq!(call(&mut holding(&stored, 64), Call::Name { number: 1 }), (0, vec![0, 46]));
    assert_eq!(find(&mut holding(&stored, 64), &format!("{stored}@en")).0, 2);

    // Entering `"B"` with the ending there: by what is left of it there is room for it or none.
    let asked = Call::Enter { name: format!("\"B\"{ENDING}").into() };
    for (room, result, answer, text_bytes, kept) in [
        (4, 0, 2, 51, true),
        (4, 0, 2, 94, false),
        (4, 0, 1, 47, true),
        (4, 9, 0, 47, true),
        (4, 3, 0, 47, false),
        (3, 3, 0, 47, true),
        (3, 0, 2, 51, false),
        (64, 0, 2, 94, false),
    ] {
        let mut before = holding(&stored, room);
        before.reply = vec![9];
        let mut after = before.clone();
        after.reply = vec![answer];
        after.counters = vec![if answer == 2 { 2 } else { 1 }, 0, text_bytes, 0];
        assert_eq!(asked.bounds_kept(&before, result, &after).is_ok(), kept, "{room} {result} {answer} {text_bytes}");
    }
}

/// Paper 02, names by their beginning: a find says where in the index, from 0, the name stands or would stand. Beside a refusal it is 0.
#[test]
fn where_a_name_stands() {
    // In byte order 3 `<b:4>`, 4 `<b:7>`, 2 `<p:trips>`, 1 `<r:21>`.
    let mut lent = bay();
    for (name, number, position) in [("<b:4>", 3, 0), ("<b:7>", 4, 1), ("<p:trips>", 2, 2), ("<r:21>", 1, 3)] {
        assert_eq!(find(&mut lent, name), (0, vec![number, position]), "{name}");
        assert_eq!(lent.index[position as usize], number);
    }
    for (name, position) in
        [("\"\"", 0), ("<a>", 0), ("<b:4/>", 0), ("<b:41>", 0), ("<b:5>", 1), ("<c>", 2), ("<r:2>", 4), ("_:a", 4)]
    {
        assert_eq!(find(&mut lent, name), (0, vec![0, position]), "{name}");
    }
    assert_eq!(find(&mut fresh(9), "<a>"), (0, vec![0, 0]));
    assert_eq!(find(&mut lent, "<a"), (2, vec![0, 0]));
    lent.counters[1] = 7;
    assert_eq!(find(&mut lent, "<r:21>"), (1, vec![0, 0]));

    // By the name without the string ending: `"A"@en` lies between the two spellings.
    let mut lent = store(&["\"A\"@en"], &[]);
    assert_eq!(find(&mut lent, "\"A\""), (0, vec![0, 0]));
    assert_eq!(find(&mut lent, &format!("\"A\"{ENDING}")), (0, vec![0, 0]));
    assert_eq!(find(&mut lent, &format!("\"A\"{CAPITAL}")), (0, vec![0, 1]));
    assert_eq!(enter(&mut lent, &format!("\"A\"{ENDING}")), (0, vec![2]));
    assert_eq!(find(&mut lent, &format!("\"A\"{ENDING}")), (0, vec![2, 0]));
}

/// Paper 02, names by their beginning: entering a name uses the place that find tells.
#[test]
fn entered_where_find_tells() {
    let names = ["<a>", "<a/>", "<ab>", "_:a", "_:a.b", "\"a\"", "\"a\"@en", "\"b\""];
    let mut random = Random::new(4);
    for _ in 0..300 {
        let mut lent = store(&[], &[]);
        let mut sorted: Vec<u32> = vec![];
        for number in 1..=6 {
            let absent: Vec<&str> = names.into_iter().filter(|name| find(&mut lent, name).1[0] == 0).collect();
            let name = random.of(&absent);
            let position = find(&mut lent, name).1[1];
            sorted.insert(position as usize, number);
            assert_eq!(enter(&mut lent, name), (0, vec![number]));
            assert_eq!(find(&mut lent, name), (0, vec![number, position]));
            assert_eq!(lent.index[..sorted.len()], sorted);
        }
        assert_eq!(call(&mut lent, Call::Check), (0, vec![1]));
    }
}

/// A listing by a beginning into so many words that hold 77: its result, the total and the words.
fn begun(lent: &mut Lent, prefix: &[u8], words: usize) -> (u32, u32, Vec<u32>) {
    lent.numbers = vec![77; words];
    let (result, reply) = call(lent, Call::NamesWithPrefix { prefix: prefix.to_vec() });
    (result, reply[0], std::mem::take(&mut lent.numbers))
}

/// Paper 02, names by their beginning: every name that starts so, in byte order, as numbers.
#[test]
fn names_by_their_beginning() {
    // In byte order 6 `"r:2"`, 3 `<b:2>`, 5 `<r:20>`, 1 `<r:21>`, 4 `<r:2>`, 2 `<r:3>`.
    let mut lent = store(&["<r:21>", "<r:3>", "<b:2>", "<r:2>", "<r:20>", "\"r:2\""], &[]);
    let cases: [(&[u8], &[u32]); 22] = [
        (b"", &[6, 3, 5, 1, 4, 2]),
        (b"<", &[3, 5, 1, 4, 2]),
        (b"<r:", &[5, 1, 4, 2]),
        (b"<r:2", &[5, 1, 4]),
        (b"<r:2>", &[4]),
        (b"<r:20", &[5]),
        (b"<r:20>", &[5]),
        (b"\"r:2\"", &[6]),
        (b"<r:4", &[]),
        (b"r:2", &[]),
        (b"=", &[]),
        (b"!", &[]),
        // A zero byte meets nothing, also where the text goes on so; nor does byte 255.
        (b"\0", &[]),
        (b"<r:2>\0", &[]),
        (b"<r:2\0", &[]),
        (b"<r:2>\0<r:20>", &[]),
        (b"<r:20>\0\"r", &[]),
        (b"\xff", &[]),
        (b"<r:2>\xff", &[]),
        (b"<r:2\xff", &[]),
        (&[b'<'; 255], &[]),
        (&[0; 255], &[]),
    ];
    for (prefix, listed) in cases {
        assert_eq!(begun(&mut lent, prefix, listed.len()), (0, listed.len() as u32, listed.to_vec()), "{prefix:?}");
    }
    // Nothing of the string ending is dropped.
    assert_eq!(begun(&mut lent, format!("\"r:2\"{ENDING}").as_bytes(), 0).1, 0);
    // Every name whose number is retracted from all statements is still there.
    let mut lent = rewired();
    assert_eq!(begun(&mut lent, b"<b", 3), (0, 2, vec![3, 4, 77]));
    assert_eq!(call(&mut lent, Call::Reclaim).0, 0);
    assert_eq!(begun(&mut lent, b"<b", 3), (0, 2, vec![3, 4, 77]));
    // No names.
    for prefix in [&b""[..], b"<", &[0; 255]] {
        assert_eq!(begun(&mut fresh(9), prefix, 2), (0, 0, vec![77, 77]));
    }
}

/// Paper 02, names by their beginning: with fewer words than the total the first ones are filled; words past the list keep their values.
#[test]
fn words_of_a_list() {
    let mut lent = bay();
    for (words, left) in
        [(0, &[][..]), (1, &[3]), (3, &[3, 4, 2]), (4, &[3, 4, 2, 1]), (5, &[3, 4, 2, 1, 77]), (6, &[3, 4, 2, 1, 77, 77])]
    {
        assert_eq!(begun(&mut lent, b"<", words), (0, 4, left.to_vec()));
    }
    assert_eq!(begun(&mut lent, b"x", 2), (0, 0, vec![77, 77]));
}

/// Paper 02, names by their beginning: one may have 255 bytes, 256 are refused 2, after 1 and before 9. A refusal writes none of the words.
#[test]
fn long_beginnings() {
    let longest = [b"<", [b'a'; 253].as_slice(), b">"].concat();
    let mut lent = fresh(300);
    assert_eq!(enter(&mut lent, std::str::from_utf8(&longest).unwrap()), (0, vec![1]));
    assert_eq!(begun(&mut lent, &longest, 2), (0, 1, vec![1, 77]));
    assert_eq!(begun(&mut lent, &longest[..254], 2), (0, 1, vec![1, 77]));
    assert_eq!(begun(&mut lent, &[&longest, &b"a"[..]].concat(), 2), (2, 0, vec![77, 77]));
    assert_eq!(begun(&mut lent, &[0; 1000], 2), (2, 0, vec![77, 77]));
    lent.index[0] = 2;
    assert_eq!(begun(&mut lent, &[0; 256], 2), (2, 0, vec![77, 77]));
    assert_eq!(Call::NamesWithPrefix { prefix: vec![0; 255] }.make(&mut lent), Expected::Bounded);
    lent.counters[2] = 301;
    assert_eq!(begun(&mut lent, &[0; 256], 2), (1, 0, vec![77, 77]));
    assert_eq!(begun(&mut lent, b"", 2), (1, 0, vec![77, 77]));
}

/// What is left open where names or index are not sound: a position is at most R, below R beside a number, a total is at most R, and words
/// past the list keep their values.
#[test]
fn bounds_of_the_index() {
    let mut before = bay();
    before.index.swap(0, 1);
    let find = Call::Find { name: b"<b:4>".to_vec() };
    before.reply = vec![9; 2];
    for (result, reply, kept) in [
        (0, [0, 0], true),
        (0, [4, 3], true),
        (0, [4, 4], false),
        (0, [0, 4], true),
        (0, [5, 0], false),
        (0, [0, 5], false),
        (9, [0, 0], true),
        (9, [0, 1], false),
        (9, [1, 0], false),
        (3, [0, 0], false),
        (2, [0, 0], false),
    ] {
        let after = Lent { reply: reply.to_vec(), ..before.clone() };
        assert_eq!(find.bounds_kept(&before, result, &after).is_ok(), kept, "{result} {reply:?}");
    }

    let list = Call::NamesWithPrefix { prefix: b"<b".to_vec() };
    before.reply = vec![9];
    before.numbers = vec![77; 3];
    for (result, total, numbers, kept) in [
        (0, 0, [77, 77, 77], true),
        (0, 0, [3, 77, 77], false),
        (0, 2, [3, 0, 77], true),
        (0, 2, [u32::MAX, 3, 77], true),
        (0, 2, [3, 4, 3], false),
        (0, 4, [1, 1, 1], true),
        (0, 5, [1, 1, 1], false),
        (9, 0, [77, 77, 77], true),
        (9, 0, [3, 77, 77], false),
        (9, 1, [77, 77, 77], false),
        (2, 0, [77, 77, 77], false),
    ] {
        let after = Lent { reply: vec![total], numbers: numbers.to_vec(), ..before.clone() };
        assert_eq!(list.bounds_kept(&before, result, &after).is_ok(), kept, "{result} {total} {numbers:?}");
    }
    let wrote = Lent { reply: vec![0], index: bay().index, ..before.clone() };
    assert!(list.bounds_kept(&before, 0, &wrote).is_err());
}

/// A file written into so many bytes and words, which hold 9: the result, the length, and what they hold then.
fn exported(lent: &mut Lent, bytes: usize, words: usize) -> (u32, u32, Vec<u8>, Vec<u32>) {
    (lent.out, lent.work) = (vec![9; bytes], vec![9; words]);
    let before = lent.clone();
    let (result, reply) = call(lent, Call::Export);
    let (out, work) = (std::mem::take(&mut lent.out), std::mem::take(&mut lent.work));
    let tables = |lent: &Lent| [&lent.counters, &lent.resources, &lent.statements, &lent.index].map(Vec::clone);
    assert_eq!((tables(lent), &lent.text), (tables(&before), &before.text));
    (result, reply[0], out, work)
}

/// A refusal: nothing is written.
fn none(refusal: u32, bytes: usize, words: usize) -> (u32, u32, Vec<u8>, Vec<u32>) {
    (refusal, 0, vec![9; bytes], vec![9; words])
}

/// The file of a store that has room for it.
fn file(lent: &mut Lent) -> String {
    let (result, length, out, _) = exported(lent, 999, 99);
    assert_eq!((result, &out[length as usize..]), (0, &vec![9; 999 - length as usize][..]));
    String::from_utf8(out[..length as usize].to_vec()).unwrap()
}

/// Paper 02, files: the example's file, into just as much as it takes, more and less. Decision 158: T words, none written beside a refusal.
#[test]
fn a_file_of_the_bay() {
    const LINES: [&[u8]; 2] = [b"<r:21> <p:trips> <b:4> .\n", b"<r:21> <p:trips> <b:7> .\n"];
    let mut lent = bay();
    assert_eq!(exported(&mut lent, 50, 2), (0, 50, LINES.concat(), vec![0, 0]));
    assert_eq!(exported(&mut lent, 51, 4), (0, 50, [LINES[0], LINES[1], &[9]].concat(), vec![0, 0, 9, 9]));
    for (bytes, words) in [(49, 2), (50, 1), (49, 1), (0, 2), (50, 0), (0, 0)] {
        assert_eq!(exported(&mut lent, bytes, words), none(11, bytes, words));
    }

    // T words are due, and zeroed, however few are live.
    assert_eq!(call(&mut lent, Call::Retract { triple: [1, 2, 3] }), (0, vec![1]));
    assert_eq!(exported(&mut lent, 25, 3), (0, 25, LINES[1].to_vec(), vec![0, 0, 9]));
    assert_eq!((exported(&mut lent, 25, 1), exported(&mut lent, 24, 2)), (none(11, 25, 1), none(11, 24, 2)));
    assert_eq!(call(&mut lent, Call::Retract { triple: [1, 2, 4] }), (0, vec![2]));
    assert_eq!(exported(&mut lent, 1, 2), (0, 0, vec![9], vec![0, 0]));
    assert_eq!(exported(&mut lent, 1, 1), none(11, 1, 1));
    assert_eq!(call(&mut lent, Call::Reclaim), (0, vec![]));
    assert_eq!(exported(&mut lent, 0, 0), (0, 0, vec![], vec![]));

    // Too short a reply writes nothing, whatever else is lent.
    let mut lent = Lent { out: vec![9; 50], work: vec![9; 2], ..bay() };
    lent.reply.clear();
    let before = lent.clone();
    assert_eq!((Call::Export.make(&mut lent), lent), (Expected::Exactly(100), before));
}

/// Paper 02, files: loading a sound store's file gives the graph again; two stores with one graph, under other numbers, have one file.
#[test]
fn one_graph_one_file() {
    let names = ["<b:7>", "\"A\"", "<r:21>", "_:b", "<p:trips>", "_:a"];
    let mut lent = store(&names, &[[6, 5, 1], [3, 5, 2], [4, 5, 6], [3, 5, 1]]);
    let lines = ["<r:21> <p:trips> \"A\" .\n", "<r:21> <p:trips> <b:7> .\n", "_:a <p:trips> <b:7> .\n", "_:b <p:trips> _:a .\n"];
    assert_eq!(file(&mut lent), lines.concat());
    let mut again = fresh(64);
    again.resources.resize(6 * RESOURCE_WORDS, 9);
    again.index.resize(6, 9);
    again.statements = vec![9; 6 * STATEMENT_WORDS];
    let text = lines.concat();
    let mut at = 0;
    while let (Line::Triple(parts), after) = read_line(text.as_bytes(), at) {
        let triple = parts.map(|(start, length)| enter(&mut again, &text[start..start + length]).1[0]);
        assert_eq!(call(&mut again, Call::Assert { triple }).1[0], 1);
        at = after;
    }
    assert_eq!((at, again.t(), file(&mut again)), (text.len(), 4, text));
    assert_ne!(again.text, lent.text);
}

/// Whole lines as bytes: a blank is below every byte of a sound name that goes on, and bytes that no sound name has come by their number.
#[test]
fn lines_in_byte_order() {
    let mut lent = store(&["<p>", "_:ab", "_:a", "\"a\"@en", "\"a\""], &[[2, 1, 4], [2, 1, 5], [3, 1, 2], [3, 1, 3]]);
    assert_eq!(file(&mut lent), "_:a <p> _:a .\n_:a <p> _:ab .\n_:ab <p> \"a\" .\n_:ab <p> \"a\"@en .\n");
    // The b of _:ab as a byte below the blank, a line feed, the blank itself, and the highest.
    let b = lent.text.windows(2).position(|two| two == b"ab").unwrap() + 1;
    for (byte, first) in [(31, true), (10, true), (b' ', true), (b'!', false), (255, false)] {
        lent.text[b] = byte;
        let (result, length, out, _) = exported(&mut lent, 99, 4);
        assert_eq!((result, length as usize), (0, 14 + 15 + 15 + 18));
        let begins = if first { [b'_', b':', b'a', byte, b' '] } else { *b"_:a <" };
        assert!(out.starts_with(&begins), "{byte}");
    }
    // A triple twice is two lines.
    let mut lent = bay();
    lent.statements[statement_at(2) + 2] = 3;
    assert_eq!(file(&mut lent), "<r:21> <p:trips> <b:4> .\n".repeat(2));
}

/// 9 before 11, for a statement that is retracted too, and for its names; 1 before both. A name that no statement has is not read.
#[test]
fn no_file_of_what_cannot_be_read() {
    for retracted in [0, 1] {
        for (word, value) in [(FLAG, 2), (0, 0), (0, 5), (1, 5), (2, u32::MAX)] {
            let mut lent = bay();
            lent.statements[statement_at(1) + FLAG] = retracted;
            lent.statements[statement_at(1) + word] = value;
            assert_eq!((exported(&mut lent, 50, 2), exported(&mut lent, 0, 0)), (none(9, 50, 2), none(9, 0, 0)));
        }
        for offset in [29, 30, u32::MAX] {
            let mut lent = bay();
            lent.statements[statement_at(1) + FLAG] = retracted;
            lent.resources[resource_at(3) + OFFSET] = offset;
            assert_eq!((exported(&mut lent, 50, 2), exported(&mut lent, 0, 0)), (none(9, 50, 2), none(9, 0, 0)));
            lent.statements[statement_at(1) + 2] = 4;
            assert_eq!(exported(&mut lent, 50, 2).0, 0);
        }
    }
    // Firsts, counts, nexts, kinds and the index are no matter.
    let mut lent = bay();
    for number in 1..=4 {
        lent.resources[resource_at(number)..][..OFFSET].fill(77);
        lent.resources[resource_at(number) + KIND..][..4].fill(77);
    }
    lent.statements[statement_at(1) + NEXT..][..PLACES].fill(77);
    lent.index.fill(77);
    assert_eq!(exported(&mut lent, 50, 2).0, 0);
    for (counter, over) in [(0, 7), (1, 7), (2, 65), (RECLAIMS, MAX_RECLAIMS + 1)] {
        let mut lent = bay();
        lent.statements[statement_at(1) + FLAG] = 2;
        lent.counters[counter] = over;
        assert_eq!((exported(&mut lent, 50, 2), exported(&mut lent, 0, 0)), (none(1, 50, 2), none(1, 0, 0)));
    }
}

/// The longest name has 255 bytes; on unsound tables one that is longer is cut nowhere, but cannot be read.
#[test]
fn the_longest_line() {
    let longest = format!("<{}>", "a".repeat(253));
    let mut lent = fresh(300);
    lent.statements = vec![9; STATEMENT_WORDS];
    assert_eq!(enter(&mut lent, &longest), (0, vec![1]));
    assert_eq!(call(&mut lent, Call::Assert { triple: [1, 1, 1] }), (0, vec![1, 1]));
    assert_eq!(file(&mut lent), format!("{longest} {longest} {longest} .\n"));
    assert_eq!(exported(&mut lent, 770, 1).1, 770);
    assert_eq!(exported(&mut lent, 769, 1), none(11, 769, 1));
    lent.text[255..257].copy_from_slice(b"a\0");
    lent.counters[2] += 1;
    assert_eq!(exported(&mut lent, 999, 1), none(9, 999, 1));
}

/// The live counts of the first resources, each as subject, predicate and object.
fn live(lent: &Lent, resources: u32) -> Vec<[u32; PLACES]> {
    (1..=resources).map(|number| [0, 1, 2].map(|place| lent.live(number, place))).collect()
}

fn set_live(lent: &mut Lent, number: u32, place: usize, live: u32) {
    lent.resources[resource_at(number) + LIVE + place] = live;
}

/// A call that is refused 9 and leaves the tables as they were.
fn damaged(lent: &mut Lent, asked: Call) {
    let before = lent.clone();
    assert_eq!(call(lent, asked.clone()).0, 9, "{asked:?}");
    assert!(lent.counters == before.counters && lent.resources == before.resources && lent.statements == before.statements);
    assert!(lent.index == before.index && lent.text == before.text);
}

/// The header's two own calls: a name that is not there is refused 4, after 1 and 2; a live count is the record's word, for numbers from 1
/// to R and the three positions, and 4 comes after 1.
#[test]
fn calls_of_the_header() {
    let mut lent = bay();
    let number = |lent: &mut Lent, name: &str| call(lent, Call::Number { name: name.as_bytes().to_vec() });
    let told = |lent: &mut Lent, number: u32, position: u32| call(lent, Call::Live { number, position });
    assert_eq!((number(&mut lent, "<b:4>"), number(&mut lent, "<b:9>")), ((0, vec![3]), (4, vec![0])));
    assert_eq!((number(&mut lent, "b:9"), number(&mut lent, "")), ((2, vec![0]), (2, vec![0])));
    assert_eq!((told(&mut lent, 1, 0), told(&mut lent, 2, 1), told(&mut lent, 4, 2)), ((0, vec![2]), (0, vec![2]), (0, vec![1])));
    for (named, position) in [(0, 0), (5, 0), (u32::MAX, 2), (1, 3), (1, u32::MAX)] {
        assert_eq!(told(&mut lent, named, position), (4, vec![0]));
    }
    set_live(&mut lent, 3, 2, u32::MAX);
    assert_eq!(told(&mut lent, 3, 2), (0, vec![u32::MAX]));
    lent.resources.truncate(4 * RESOURCE_WORDS - 1);
    assert_eq!((told(&mut lent, 1, 0), told(&mut lent, 0, 0), number(&mut lent, "b")), ((1, vec![0]), (1, vec![0]), (1, vec![0])));
}

/// Paper 02, live counts: new and revived raise all three, already none, retracting lowers them; the counts of paper 01 stay.
#[test]
fn live_counts() {
    let (retract, assert) = (Call::Retract { triple: [1, 2, 3] }, Call::Assert { triple: [1, 2, 3] });
    let both = [[2, 0, 0], [0, 2, 0], [0, 0, 1], [0, 0, 1]];
    let one = [[1, 0, 0], [0, 1, 0], [0, 0, 0], [0, 0, 1]];
    let mut lent = bay();
    assert_eq!(live(&lent, 4), both);
    let history = [(&assert, vec![2, 1], both), (&retract, vec![1], one), (&retract, vec![0], one), (&assert, vec![3, 1], both)];
    for (asked, answer, live_after) in history {
        assert_eq!(call(&mut lent, asked.clone()), (0, answer));
        assert_eq!(live(&lent, 4), live_after);
        let counts: Vec<u32> = [(1, 0), (2, 1), (3, 2), (4, 2)].map(|(number, place)| lent.count(number, place)).to_vec();
        assert_eq!((counts, call(&mut lent, Call::Check)), (vec![2, 2, 1, 1], (0, vec![1])));
    }

    // One resource at two places, then at all three: a count of each place.
    let mut lent = store(&["<a>", "<b>"], &[[1, 2, 1], [1, 1, 1]]);
    assert_eq!(live(&lent, 2), [[2, 1, 2], [0, 1, 0]]);
    assert_eq!(call(&mut lent, Call::Retract { triple: [1, 2, 1] }), (0, vec![1]));
    assert_eq!(live(&lent, 2), [[1, 1, 1], [0, 0, 0]]);
    assert_eq!(call(&mut lent, Call::Retract { triple: [1, 1, 1] }), (0, vec![2]));
    assert_eq!(live(&lent, 2), [[0; 3]; 2]);
    assert_eq!(call(&mut lent, Call::Assert { triple: [1, 1, 1] }), (0, vec![3, 2]));
    assert_eq!(live(&lent, 2), [[1, 1, 1], [0, 0, 0]]);
    assert_eq!(call(&mut lent, Call::Check), (0, vec![1]));
}

/// Paper 02, live counts: a record has eleven words, and capacity goes by whole ones. Entering writes all of them.
#[test]
fn eleven_words() {
    for (words, records) in [(0, 0), (8, 0), (10, 0), (11, 1), (16, 1), (21, 1), (22, 2)] {
        let mut lent = fresh(64);
        lent.resources = vec![9; words];
        for (number, name) in [(1, "<a>"), (2, "<b>")] {
            let answer = if number <= records { (0, vec![number]) } else { (3, vec![0]) };
            assert_eq!(enter(&mut lent, name), answer, "{words} words");
        }
        assert_eq!(lent.counters[0], records);
        if records == 2 {
            assert_eq!(lent.resources, [0, 0, 0, 0, 0, 0, 0, 1, 0, 0, 0, 0, 0, 0, 0, 0, 0, 4, 1, 0, 0, 0]);
        }
        lent.counters[0] = records + 1;
        assert_eq!(find(&mut lent, "<a>").0, 1, "{words} words");
    }
}

/// Paper 02, live counts: a store is sound exactly if each is the number of live records, in each place.
#[test]
fn sound_live_counts() {
    let mut right = bay();
    assert_eq!(call(&mut right, Call::Retract { triple: [1, 2, 4] }), (0, vec![2]));
    for number in 1..=4 {
        for place in 0..PLACES {
            let own = right.live(number, place);
            for live in [own.wrapping_sub(1), own, own + 1, right.count(number, place)] {
                let mut lent = right.clone();
                set_live(&mut lent, number, place, live);
                assert_eq!(call(&mut lent, Call::Check), (0, vec![(live == own) as u32]), "{number} {place} {live}");
            }
        }
    }
}

/// Paper 02, live counts: one above its count is 9 in assert and retract, whatever would be answered, and nothing to a listing.
#[test]
fn live_above_its_count() {
    let triples = [[1, 2, 3], [1, 2, 4], [1, 2, 2], [1, 2, 1]];
    for place in 0..PLACES {
        // Live, retracted, absent with room and without: no resource of the place is in order.
        let mut lent = bay();
        assert_eq!(call(&mut lent, Call::Retract { triple: [1, 2, 4] }), (0, vec![2]));
        for number in 1..=4 {
            let above = lent.count(number, place) + 1;
            set_live(&mut lent, number, place, above);
        }
        for full in [false, true] {
            if full {
                lent.statements.truncate(STATEMENT_WORDS * 2);
            }
            for triple in triples {
                damaged(&mut lent, Call::Assert { triple });
                damaged(&mut lent, Call::Retract { triple });
            }
        }
        // 1, 4 and 5 come before.
        assert_eq!(call(&mut lent, Call::Assert { triple: [5, 2, 3] }).0, 4);
        lent.resources[resource_at(1) + KIND] = 3;
        assert_eq!(call(&mut lent, Call::Assert { triple: [1, 2, 3] }).0, 5);
        damaged(&mut lent, Call::Retract { triple: [1, 2, 3] });
        lent.resources[resource_at(1) + KIND] = 1;
        assert_eq!(listed(&mut lent, [1, 2, 3]), (vec![1], 1));
        assert_eq!(listed(&mut lent, [1, 2, 0]), (vec![1], 2));
        lent.counters[1] = 3;
        assert_eq!(call(&mut lent, Call::Assert { triple: [1, 2, 3] }).0, 1);
    }
}

/// Paper 02, live counts: one above its count elsewhere, or at another place of the same resource, does not matter.
#[test]
fn live_above_its_count_elsewhere() {
    let triple = [1, 2, 3];
    let mut lent = bay();
    for number in 1..=4 {
        for other in (0..PLACES).filter(|&other| triple[other] != number) {
            set_live(&mut lent, number, other, u32::MAX);
        }
    }
    assert_eq!(call(&mut lent, Call::Assert { triple }), (0, vec![2, 1]));
    assert_eq!(call(&mut lent, Call::Retract { triple }), (0, vec![1]));
    assert_eq!(call(&mut lent, Call::Assert { triple }), (0, vec![3, 1]));
}

/// Paper 02, live counts: one of 0 is 9 in retract where the record found is live, and there alone.
#[test]
fn live_0() {
    for place in 0..PLACES {
        let triple = [1, 2, 3];
        let mut lent = bay();
        set_live(&mut lent, triple[place], place, 0);
        damaged(&mut lent, Call::Retract { triple });
        assert_eq!(call(&mut lent, Call::Assert { triple }), (0, vec![2, 1]));
        assert_eq!(call(&mut lent, Call::Retract { triple: [1, 2, 2] }), (0, vec![0]));

        let mut lent = bay();
        assert_eq!(call(&mut lent, Call::Retract { triple }), (0, vec![1]));
        set_live(&mut lent, triple[place], place, 0);
        assert_eq!(call(&mut lent, Call::Retract { triple }), (0, vec![0]));
        assert_eq!(call(&mut lent, Call::Assert { triple }), (0, vec![3, 1]));
        assert_eq!(lent.live(triple[place], place), 1);
        assert_eq!(call(&mut lent, Call::Retract { triple }), (0, vec![1]));
    }
    // A chain of no count, walked all the same.
    let mut lent = store(&["<a>"], &[[1, 1, 1]]);
    lent.resources[..RESOURCE_WORDS].copy_from_slice(&[1, 1, 1, 0, 0, 0, 0, 1, 0, 0, 0]);
    damaged(&mut lent, Call::Retract { triple: [1; 3] });
    assert_eq!(call(&mut lent, Call::Assert { triple: [1; 3] }), (0, vec![2, 1]));
}

/// Decision 129: reviving raises them also where they are at their counts; what comes after is refused.
#[test]
fn revived_past_its_count() {
    let triple = [1, 1, 1];
    let mut lent = store(&["<a>"], &[triple]);
    lent.statements[statement_at(1) + FLAG] = 1;
    assert_eq!(call(&mut lent, Call::Check), (0, vec![0]));
    assert_eq!(call(&mut lent, Call::Assert { triple }), (0, vec![3, 1]));
    assert_eq!(live(&lent, 1), [[2, 2, 2]]);
    damaged(&mut lent, Call::Assert { triple });
    damaged(&mut lent, Call::Retract { triple });
}

/// Six statements of the bay, numbers 1, 3 and 6 retracted.
fn rewired() -> Lent {
    let mut lent =
        store(&["<r:21>", "<p:trips>", "<b:4>", "<b:7>"], &[[1, 2, 3], [1, 2, 4], [3, 2, 1], [1, 2, 1], [4, 2, 3], [4, 2, 4]]);
    for (triple, n) in [([1, 2, 3], 1), ([3, 2, 1], 3), ([4, 2, 4], 6)] {
        assert_eq!(call(&mut lent, Call::Retract { triple }), (0, vec![n]));
    }
    lent
}

/// Paper 02, getting room back: the live statements in their order and numbered from 1, chains and counts anew, zeros in the words given
/// up. Names, and the words past the records and past the resources, are as they were.
#[test]
fn room_back() {
    let mut lent = rewired();
    lent.resources.extend([7; RESOURCE_WORDS]);
    lent.statements.extend([7; STATEMENT_WORDS]);
    let before = lent.clone();
    assert_eq!(call(&mut lent, Call::Reclaim), (0, vec![]));
    assert_eq!(lent.counters, [4, 3, before.counters[2], 1]);
    assert_eq!((&lent.index, &lent.text), (&before.index, &before.text));
    let [first, second, third] = [[1, 2, 4, 0, 0, 0, 0], [1, 2, 1, 1, 1, 0, 0], [4, 2, 3, 0, 2, 0, 0]];
    assert_eq!(lent.statements[..3 * STATEMENT_WORDS], [first, second, third].concat());
    assert_eq!(lent.statements[3 * STATEMENT_WORDS..6 * STATEMENT_WORDS], [0; 3 * STATEMENT_WORDS]);
    assert_eq!(lent.statements[6 * STATEMENT_WORDS..], [7; STATEMENT_WORDS]);
    let resource = |n: u32| &lent.resources[resource_at(n)..][..RESOURCE_WORDS];
    assert_eq!(resource(1), [2, 0, 2, 2, 0, 1, 0, 1, 2, 0, 1]);
    assert_eq!(resource(2), [0, 3, 0, 0, 3, 0, 7, 1, 0, 3, 0]);
    assert_eq!(resource(3), [0, 0, 3, 0, 0, 1, 17, 1, 0, 0, 1]);
    assert_eq!(resource(4), [3, 0, 1, 1, 0, 1, 23, 1, 1, 0, 1]);
    assert_eq!(lent.resources[4 * RESOURCE_WORDS..], before.resources[4 * RESOURCE_WORDS..]);
    assert_eq!(call(&mut lent, Call::Check), (0, vec![1]));
    assert_eq!(listed(&mut lent, [0, 2, 0]), (vec![3, 2, 1], 3));
    assert_eq!(listed(&mut lent, [0, 0, 3]), (vec![3], 1));

    // Nothing to drop: the number alone rises.
    let mut again = lent.clone();
    assert_eq!(call(&mut again, Call::Reclaim), (0, vec![]));
    assert_eq!(again.counters, [4, 3, before.counters[2], 2]);
    assert_eq!((&again.resources, &again.statements), (&lent.resources, &lent.statements));

    // All retracted: no statement, every chain empty, names as they were.
    for triple in [[1, 2, 4], [1, 2, 1], [4, 2, 3]] {
        call(&mut lent, Call::Retract { triple });
    }
    assert_eq!(call(&mut lent, Call::Reclaim), (0, vec![]));
    assert_eq!(lent.counters, [4, 0, before.counters[2], 2]);
    assert_eq!(lent.statements[..6 * STATEMENT_WORDS], [0; 6 * STATEMENT_WORDS]);
    assert!((1..=4).all(|n| lent.resources[resource_at(n)..][..6] == [0; 6]));
    assert_eq!(live(&lent, 4), [[0; 3]; 4]);
    assert_eq!(call(&mut lent, Call::Check), (0, vec![1]));
    assert_eq!(find(&mut lent, "<b:7>"), (0, vec![4, 1]));
}

/// Paper 02, getting room back: refused 3 and made again right after the next reclaim, an assert is new exactly if a record was dropped; a
/// triple that was retracted is new.
#[test]
fn new_once_reclaimed() {
    let absent = Call::Assert { triple: [4, 2, 1] };
    let mut lent = rewired();
    assert_eq!(call(&mut lent, absent.clone()).0, 3);
    assert_eq!(call(&mut lent, Call::Reclaim).0, 0);
    assert_eq!(call(&mut lent, absent.clone()), (0, vec![1, 4]));
    assert_eq!(call(&mut lent, Call::Assert { triple: [1, 2, 3] }), (0, vec![1, 5]));
    assert_eq!(call(&mut lent, Call::Assert { triple: [1, 2, 4] }), (0, vec![2, 1]));
    assert_eq!(call(&mut lent, Call::Assert { triple: [4, 2, 4] }), (0, vec![1, 6]));
    assert_eq!(call(&mut lent, Call::Check), (0, vec![1]));

    let absent = Call::Assert { triple: [3, 2, 4] };
    assert_eq!(call(&mut lent, absent.clone()).0, 3);
    assert_eq!(call(&mut lent, Call::Reclaim).0, 0);
    assert_eq!(call(&mut lent, absent.clone()).0, 3);
    // A name that has no room is not helped.
    let mut lent = rewired();
    assert_eq!((enter(&mut lent, "<c>").1, enter(&mut lent, "<d>").1, enter(&mut lent, "<e>").0), (vec![5], vec![6], 3));
    assert_eq!(call(&mut lent, Call::Reclaim).0, 0);
    assert_eq!(enter(&mut lent, "<e>").0, 3);
}

/// Paper 02, getting room back: a plain list read alongside forgets its retracted entries at the same moment.
#[test]
fn a_list_read_alongside() {
    let mut random = Random::new(2);
    let mut dropped = 0;
    for _ in 0..300 {
        let mut lent = store(&["<a>", "<b>", "<c>"], &[]);
        let mut list: Vec<([u32; 3], bool)> = vec![];
        for _ in 0..60 {
            let triple = [0; 3].map(|_| random.from_to(1, 3) as u32);
            let at = list.iter().position(|entry| entry.0 == triple);
            match (random.below(12), at) {
                (0, _) => {
                    dropped += list.iter().filter(|entry| !entry.1).count();
                    list.retain(|entry| entry.1);
                    assert_eq!(call(&mut lent, Call::Reclaim), (0, vec![]));
                }
                (1..=5, _) => {
                    let live = at.filter(|&at| list[at].1);
                    live.into_iter().for_each(|at| list[at].1 = false);
                    assert_eq!(call(&mut lent, Call::Retract { triple }), (0, vec![live.map_or(0, |at| at as u32 + 1)]));
                }
                (_, Some(at)) => {
                    let status = if list[at].1 { 2 } else { 3 };
                    list[at].1 = true;
                    assert_eq!(call(&mut lent, Call::Assert { triple }), (0, vec![status, at as u32 + 1]));
                }
                (_, None) if list.len() == 6 => assert_eq!(call(&mut lent, Call::Assert { triple }).0, 3),
                _ => {
                    list.push((triple, true));
                    assert_eq!(call(&mut lent, Call::Assert { triple }), (0, vec![1, list.len() as u32]));
                }
            }
            let held: Vec<([u32; 3], bool)> = (1..=lent.t()).map(|n| (lent.triple(n), lent.flag(n) == 0)).collect();
            assert_eq!((held, call(&mut lent, Call::Check)), (list.clone(), (0, vec![1])));
        }
    }
    assert!(dropped > 500, "{dropped}");
}

/// Paper 02, getting room back: the order is 1, 14, 9, and a refusal writes nothing.
#[test]
fn reclaim_refused() {
    let cases = [
        (0, true, 0),
        (0, false, 9),
        (MAX_RECLAIMS - 1, true, 0),
        (MAX_RECLAIMS - 1, false, 9),
        (MAX_RECLAIMS, true, 14),
        (MAX_RECLAIMS, false, 14),
        (MAX_RECLAIMS + 1, true, 1),
        (MAX_RECLAIMS + 1, false, 1),
        (u32::MAX, true, 1),
    ];
    for (number, sound, result) in cases {
        // A live count, a flag, a next, a name, the index: each is enough.
        for way in 0..if sound { 1 } else { 5 } {
            let mut lent = rewired();
            lent.counters[RECLAIMS] = number;
            match way {
                _ if sound => {}
                0 => set_live(&mut lent, 3, 0, 1),
                1 => lent.statements[statement_at(6) + FLAG] = 2,
                2 => lent.statements[statement_at(6) + NEXT] = 0,
                3 => lent.text[1] = b'>',
                _ => lent.index.swap(0, 1),
            }
            let before = lent.clone();
            assert_eq!(call(&mut lent, Call::Check).1, [(sound && number <= MAX_RECLAIMS) as u32], "{number} {way}");
            assert_eq!(call(&mut lent, Call::Reclaim), (result, vec![]), "{number} {way}");
            if result != 0 {
                lent.reply = before.reply.clone();
                assert_eq!(lent, before);
            } else {
                assert_eq!((lent.t(), lent.reclaims()), (3, number + 1));
            }
        }
    }
    // A counter that exceeds its capacity comes first.
    let mut lent = rewired();
    lent.counters[RECLAIMS] = MAX_RECLAIMS;
    lent.counters[1] = 7;
    assert_eq!(call(&mut lent, Call::Reclaim).0, 1);
}

/// Paper 02, getting room back: a number of reclaims above 65,535 is 1 in every operation, and 65,535 in none but a reclaim.
#[test]
fn too_many_reclaims() {
    let name = || b"<b:4>".to_vec();
    let triple = [1, 2, 3];
    for (number, refused) in [(MAX_RECLAIMS, false), (MAX_RECLAIMS + 1, true), (u32::MAX, true)] {
        let mut lent = bay();
        lent.counters[RECLAIMS] = number;
        lent.cursor = vec![0, 0, 0, 0, 2, number];
        let next = call(&mut lent, Call::ScanNext { budget: 1 }).0;
        lent.cursor = [&[0, 0, number][..], &[0; 2 * MAX_PATTERNS]].concat();
        let query_next = call(&mut lent, Call::QueryNext { words: vec![], budget: 1 }).0;
        assert_eq!([next, query_next], [refused as u32; 2]);
        let all = [
            Call::Find { name: name() },
            Call::NamesWithPrefix { prefix: name() },
            Call::Enter { name: name() },
            Call::Name { number: 1 },
            Call::Statement { number: 1 },
            Call::Assert { triple },
            Call::Retract { triple },
            Call::ScanOpen { pattern: triple },
            Call::QueryOpen { words: vec![] },
        ];
        for asked in all {
            assert_eq!(call(&mut lent, asked.clone()).0, refused as u32, "{asked:?}");
        }
        assert_eq!(call(&mut lent, Call::Check), (0, vec![!refused as u32]));
    }
}

/// Paper 02, getting room back, and what DECISIONS reads in it: a listing's place with another number is 13 after 1 and before 6 and 7,
/// also one that has ended, and one whose chain is none.
#[test]
fn listings_left_open() {
    let mut lent = bay();
    assert_eq!(call(&mut lent, Call::ScanOpen { pattern: [1, 0, 0] }).0, 0);
    assert_eq!(lent.cursor, [1, 0, 0, 1, 2, 0]);
    let opened = lent.cursor.clone();
    assert_eq!(call(&mut lent, Call::Reclaim).0, 0);
    let refusal = |lent: &Lent, change: &dyn Fn(&mut Vec<u32>), budget: u32| {
        let mut lent = lent.clone();
        lent.cursor = opened.clone();
        change(&mut lent.cursor);
        let kept = lent.cursor.clone();
        let answer = call(&mut lent, Call::ScanNext { budget });
        assert!(answer.0 == 0 || answer.1 == [0; 3] && lent.cursor == kept);
        answer.0
    };
    for budget in [0, 1] {
        assert_eq!(refusal(&lent, &|_| (), budget), 13);
        assert_eq!(refusal(&lent, &|cursor| cursor[SCAN_CHAIN + 1] = 0, budget), 13);
        assert_eq!(refusal(&lent, &|cursor| cursor[SCAN_CHAIN] = 4, budget), 13);
        assert_eq!(refusal(&lent, &|cursor| cursor[0] = 9, budget), 13);
        for number in [2, MAX_RECLAIMS, MAX_RECLAIMS + 1, 1 + (1 << 16), u32::MAX] {
            assert_eq!(refusal(&lent, &|cursor| cursor[SCAN_RECLAIMS] = number, budget), 13);
        }
    }
    assert_eq!(refusal(&lent, &|cursor| cursor[SCAN_RECLAIMS] = 1, 1), 0);
    assert_eq!(refusal(&lent, &|cursor| cursor[SCAN_RECLAIMS] = 1, 0), 7);
    assert_eq!(refusal(&lent, &|cursor| cursor[3..].copy_from_slice(&[4, 2, 1]), 0), 6);
    let mut over = lent.clone();
    over.counters[1] = 7;
    assert_eq!(refusal(&over, &|_| (), 0), 1);
    // Opened again it goes on.
    assert_eq!(call(&mut lent, Call::ScanOpen { pattern: [1, 0, 0] }).0, 0);
    assert_eq!(lent.cursor, [1, 0, 0, 1, 2, 1]);
    assert_eq!(call(&mut lent, Call::ScanNext { budget: 1 }), (0, vec![1, 2, 1]));
    assert_eq!(lent.cursor, [1, 0, 0, 1, 1, 1]);
}

/// The same of a question: 13 after 8, at the start and at the end too, and where the first word or a chain is none. Zeros are the start
/// in a store that was never reclaimed.
#[test]
fn questions_left_open() {
    let words = vec![V, 2, V + 1];
    let mut lent = bay();
    assert_eq!(call(&mut lent, Call::QueryOpen { words: words.clone() }).0, 0);
    assert_eq!(lent.cursor, [0; QUERY_CURSOR_WORDS]);
    assert_eq!(call(&mut lent, Call::QueryNext { words: words.clone(), budget: 1 }).1[..4], [1, 1, 1, 4]);
    let within = lent.cursor.clone();
    assert_eq!(within[..6], [1, 1, 0, 2, 1, 0]);
    assert_eq!(call(&mut lent, Call::Reclaim).0, 0);

    let zeros = vec![0; QUERY_CURSOR_WORDS];
    let with = |changes: &[(usize, u32)]| {
        let mut cursor = within.clone();
        changes.iter().for_each(|&(word, value)| cursor[word] = value);
        cursor
    };
    let stale =
        [zeros, within.clone(), with(&[(0, 2)]), with(&[(0, 3)]), with(&[(3, 4)]), with(&[(1, 9)]), with(&[(QUERY_RECLAIMS, 2)])];
    for cursor in stale {
        for budget in [0, 1] {
            lent.cursor = cursor.clone();
            assert_eq!(call(&mut lent, Call::QueryNext { words: words.clone(), budget }).0, 13, "{cursor:?}");
            assert_eq!(lent.cursor, cursor);
            assert_eq!(call(&mut lent, Call::QueryNext { words: vec![V], budget }).0, 8);
            let t = std::mem::replace(&mut lent.counters[1], 7);
            assert_eq!(call(&mut lent, Call::QueryNext { words: vec![V], budget }).0, 1);
            lent.counters[1] = t;
        }
    }
    // With its number the place is as before.
    for (changes, budget, result) in [(&[][..], 1, 0), (&[], 0, 7), (&[(0, 3)], 0, 6), (&[(3, 4)], 0, 6), (&[(1, 9)], 0, 6)] {
        lent.cursor = with(&[changes, &[(QUERY_RECLAIMS, 1)]].concat());
        assert_eq!(call(&mut lent, Call::QueryNext { words: words.clone(), budget }).0, result, "{changes:?}");
    }
    assert_eq!(call(&mut lent, Call::QueryOpen { words: words.clone() }).0, 0);
    assert_eq!(lent.cursor[..4], [0, 0, 1, 0]);
    for (status, second) in [(1, 4), (1, 3), (2, 0), (2, 0)] {
        let (result, reply) = call(&mut lent, Call::QueryNext { words: words.clone(), budget: 9 });
        assert_eq!((result, reply[0], reply[3]), (0, status, second));
    }
    assert_eq!(lent.cursor[..4], [2, 0, 1, 0]);
}

/// Every choice of one live statement a pattern, the first pattern's deciding first, higher numbers first, that gives each variable one
/// resource.
fn solutions(lent: &Lent, patterns: &[&[u32]], bound: [u32; VARIABLES], found: &mut Vec<Vec<u32>>) {
    let Some(pattern) = patterns.first() else { return found.push(bound.to_vec()) };
    for n in (1..=lent.t()).rev() {
        let record = &lent.statements[statement_at(n)..][..STATEMENT_WORDS];
        let mut solution = bound;
        let fits = (0..PLACES).all(|place| {
            let word = pattern[place];
            if word >= V && solution[(word - V) as usize] == 0 {
                solution[(word - V) as usize] = record[place];
            }
            record[place] == if word >= V { solution[(word - V) as usize] } else { word }
        });
        if fits && record[FLAG] == 0 {
            solutions(lent, &patterns[1..], solution, found);
        }
    }
}

/// Decision 63, by all choices of statements, whatever the budgets.
#[test]
fn questions_by_brute_force() {
    let mut random = Random::new(1);
    let mut many = 0;
    for _ in 0..3000 {
        let mut lent = store(&["<a>", "<b>", "<c>"], &[]);
        for turn in 0..20 {
            let triple = [0; 3].map(|_| random.from_to(1, 3) as u32);
            let change = if turn % 3 == 2 { Call::Retract { triple } } else { Call::Assert { triple } };
            call(&mut lent, change);
        }
        let length = PLACES * random.from_to(0, 4);
        let words: Vec<u32> = (0..length).map(|_| random.of(&[1, V, V + 1, V + 2, V + 3, V + 4])).collect();
        let mut expected = vec![];
        solutions(&lent, &words.chunks(PLACES).collect::<Vec<_>>(), [0; VARIABLES], &mut expected);
        many += expected.len();
        assert_eq!(call(&mut lent, Call::QueryOpen { words: words.clone() }).0, 0);
        let mut found = vec![];
        loop {
            let budget = random.from_to(1, 9) as u32;
            let (result, reply) = call(&mut lent, Call::QueryNext { words: words.clone(), budget });
            assert!(result == 0 && reply[1] <= budget);
            match reply[0] {
                1 => found.push(reply[2..].to_vec()),
                2 => break,
                _ => assert_eq!(reply[1], budget),
            }
        }
        assert_eq!(found, expected, "{words:?}");
    }
    assert!(many > 3_000, "{many}");
}
