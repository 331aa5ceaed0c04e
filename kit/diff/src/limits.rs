//! The limits of 65,535 records, 1,048,576 bytes of text and 65,535 reclaims: every function at them and one beyond, on tables that have
//! room for more and hold what would be sound there, so that a limit that is not kept shows in the answer. And the room for a literal with
//! the string ending, which is that for what is left of it; index, offsets and text in disorder; the live count of a chain of all
//! statements; resource tables about each whole record; the longest file, files of every small number of lines, and lines in every order.

use crate::names::{MAX_NAME, STRING_ENDING};
use crate::plain::{
    resource_at, statement_at, Call, Lent, COUNT, COUNTER_WORDS, FIRST, FIRST_VARIABLE, FLAG, LIVE, LONGEST_REPLY, MAX_RECLAIMS,
    MAX_RECORDS, MAX_TEXT, NEXT, OFFSET, PLACES, QUERY_CURSOR_WORDS, RECLAIMS, RESOURCE_WORDS, SCAN_CURSOR_WORDS, SCAN_NEXT,
    STATEMENT_WORDS, WITHIN,
};
use crate::{Difference, Run, UNWRITTEN};

/// The predicate of every statement.
const PREDICATE: u32 = 2;

/// Subjects, and objects of each.
const SIDE: u32 = 256;

/// The least name of these tests.
const SHORT: usize = 6;

/// No bytes and no words for a file, however many fewer than it takes that is.
const NOTHING: (isize, isize) = (isize::MIN, isize::MIN);

/// Name k of a length: an IRI, another one for each k up to 65,536 and in no order.
fn named(k: u32, length: usize) -> Vec<u8> {
    let mixed = k.wrapping_mul(40_503) & 0xFFFF; // a permutation
    format!("<{mixed:04x}{}>", "a".repeat(length - SHORT)).into_bytes()
}

/// The triple of statement n in a store of so many resources, another one for each n up to 65,536; its subject is among the last.
fn triple(n: u32, resources: u32) -> [u32; 3] {
    [resources - (n - 1) / SIDE, PREDICATE, 1 + (n - 1) % SIDE]
}

/// A store with a name of each length and so many statements, every fifth of them retracted, which is sound apart from the limits.
/// Of each table there is room for two more than it holds, and some words over.
fn store(lengths: &[usize], statements: u32) -> Lent {
    let resources = lengths.len() as u32;
    let mut lent = Lent {
        counters: vec![0; COUNTER_WORDS],
        resources: vec![0; (lengths.len() + 2) * RESOURCE_WORDS + 3],
        statements: vec![0; (statements as usize + 2) * STATEMENT_WORDS + 3],
        index: vec![0; lengths.len() + 3],
        reply: vec![0; LONGEST_REPLY],
        cursor: vec![0; QUERY_CURSOR_WORDS],
        ..Lent::default()
    };
    let mut names: Vec<(Vec<u8>, u32)> = (1..).zip(lengths).map(|(n, &length)| (named(n, length), n)).collect();
    for (k, (name, _)) in names.iter().enumerate() {
        lent.resources[RESOURCE_WORDS * k + OFFSET..][..2].copy_from_slice(&[lent.text.len() as u32, 1]);
        lent.text.extend_from_slice(name);
        lent.text.push(0);
    }
    lent.counters.copy_from_slice(&[resources, statements, lent.text.len() as u32, 0]);
    lent.text.resize(lent.text.len() + 300, 0);
    names.sort();
    names.iter().enumerate().for_each(|(k, (_, n))| lent.index[k] = *n);
    for n in 1..=statements {
        let (at, retracted) = (statement_at(n), n % 5 == 1);
        for (place, number) in triple(n, resources).into_iter().enumerate() {
            let record = resource_at(number);
            lent.statements[at + place] = number;
            lent.statements[at + NEXT + place] = lent.resources[record + FIRST + place];
            lent.resources[record + FIRST + place] = n;
            lent.resources[record + COUNT + place] += 1;
            lent.resources[record + LIVE + place] += !retracted as u32;
        }
        lent.statements[at + FLAG] = retracted as u32;
    }
    lent
}

/// A store with these live statements alone, without their chains.
fn stating(lent: &Lent, triples: &[[u32; PLACES]]) -> Lent {
    let mut lent = lent.clone();
    lent.counters[1] = triples.len() as u32;
    lent.statements = triples.iter().flat_map(|triple| [&triple[..], &[0; STATEMENT_WORDS - PLACES]].concat()).collect();
    lent
}

impl Run {
    /// Every function on stores about each limit.
    pub fn limits(&mut self) -> Result<(), Difference> {
        const RECORDS: u32 = MAX_RECORDS as u32;
        const LONG: usize = MAX_NAME;
        let few = vec![SHORT; 300];
        let short = |count: u32| vec![SHORT; count as usize];
        let long = |count: usize| vec![LONG; count];
        let all_text = MAX_TEXT / (LONG + 1);

        // One below the limit, at it and one above: resources, then statements; both at it; then the text.
        for over in 0..3 {
            self.every_function(store(&short(RECORDS - 1 + over), 300), SHORT)?;
            self.every_function(store(&few, RECORDS - 1 + over), SHORT)?;
        }
        self.every_function(store(&short(RECORDS), RECORDS), SHORT)?;
        self.every_function(store(&long(all_text - 1), 300), LONG)?;
        self.every_function(store(&long(all_text), 300), LONG)?;
        // One byte more: a long name is replaced by two that take 257 bytes with their zeros.
        let mut beyond = long(all_text - 1);
        beyond.extend([127, 128]);
        self.every_function(store(&beyond, 300), LONG)?;
        self.reclaims()?;
        self.window()?;
        self.endings()?;
        self.names_in_disorder()?;
        self.live_counts()?;
        self.resource_words()?;
        self.files()
    }

    /// The number of reclaims: one below the limit, at it, above it, and the highest; then the first two on tables that are not sound.
    fn reclaims(&mut self) -> Result<(), Difference> {
        for number in [MAX_RECLAIMS - 1, MAX_RECLAIMS, MAX_RECLAIMS + 1, u32::MAX] {
            let mut lent = store(&[SHORT; 300], 300);
            lent.counters[RECLAIMS] = number;
            self.every_function(lent, SHORT)?;
        }
        for number in [MAX_RECLAIMS - 1, MAX_RECLAIMS] {
            let lent = &mut store(&[SHORT; 300], 300);
            lent.counters[RECLAIMS] = number;
            lent.statements[statement_at(7) + FLAG] = 1;
            self.compare(&Call::Reclaim, lent)?;
        }
        Ok(())
    }

    /// Labels with the string ending, where what is left of them, three bytes or as many as may be, lacks a byte of room, then just fits:
    /// up to the limit of the text, and up to a text's end. Then names that are close to such a label and keep their bytes.
    fn endings(&mut self) -> Result<(), Difference> {
        let quoted = |left: usize| format!("\"{}\"", "A".repeat(left - 2)).into_bytes();
        let spelled = |left: usize| [&quoted(left), STRING_ENDING].concat();
        for left in [3, MAX_NAME - STRING_ENDING.len()] {
            let names = [spelled(left), quoted(left), spelled(left), spelled(left + 1)];
            for room in [left, left + 1] {
                let mut lengths = vec![MAX_NAME; MAX_TEXT / (MAX_NAME + 1) - 1];
                lengths.push(MAX_NAME - room);
                self.found_and_entered(store(&lengths, 300), &names)?;
                let mut short = store(&[SHORT; 300], 300);
                short.text.truncate(short.counters[2] as usize + room);
                self.found_and_entered(short, &names)?;
            }
        }
        let capital = b"\"A\"^^<http://www.w3.org/2001/XMLSchema#String>".to_vec();
        let between_quotes = [b"\"", STRING_ENDING, b"\""].concat();
        for close in [capital, between_quotes, STRING_ENDING[2..].to_vec()] {
            self.found_and_entered(store(&[SHORT; 300], 300), &[close, spelled(3), quoted(3)])?;
        }
        Ok(())
    }

    /// Listings by beginnings, each with so many words for the list.
    fn listed(&mut self, lent: &mut Lent, beginnings: &[(&[u8], usize)]) -> Result<(), Difference> {
        for &(prefix, words) in beginnings {
            lent.numbers = vec![UNWRITTEN; words];
            self.compare(&Call::NamesWithPrefix { prefix: prefix.to_vec() }, lent)?;
        }
        lent.numbers.clear();
        Ok(())
    }

    /// Finding, and listing by beginnings, where the index, the offsets or the text are not sound: all bounded, at the limit of names too.
    fn names_in_disorder(&mut self) -> Result<(), Difference> {
        let disorders: [fn(&mut Lent, usize); 8] = [
            |lent, r| lent.index[..r].reverse(),
            |lent, r| lent.index[..r].rotate_left(r / 3),
            |lent, r| lent.index[..r].fill(r as u32),
            |lent, r| lent.index[..r].fill(0),
            |lent, r| lent.index[r / 2] = r as u32 + 1,
            |lent, r| (1..=r as u32).for_each(|n| lent.resources[resource_at(n) + OFFSET] = lent.counters[2] - 1),
            |lent, r| (1..=r as u32).for_each(|n| lent.resources[resource_at(n) + OFFSET] = lent.counters[2] - n),
            |lent, _| lent.text.fill(b'<'),
        ];
        for names in [3, 300, MAX_RECORDS] {
            let whole = store(&vec![SHORT; names], 0);
            let [first, last, absent] = [1, names as u32, 0].map(|k| named(k, SHORT));
            for disorder in disorders {
                let lent = &mut whole.clone();
                disorder(lent, names);
                for name in [&first, &last, &absent] {
                    self.compare(&Call::Find { name: name.clone() }, lent)?;
                }
                let beginnings = [(&b""[..], names + 2), (b"<", 2), (b"<8", names), (b"<8", 0), (&first, 2), (&[b'<'; 255], names)];
                self.listed(lent, &beginnings)?;
            }
        }
        Ok(())
    }

    /// Writes a file, bytes and words being lent so many more or fewer than it takes.
    fn exported(&mut self, lent: &mut Lent, spaces: &[(isize, isize)]) -> Result<(), Difference> {
        let (length, t) = (lent.file().map_or(0, |file| file.len()), lent.t() as usize);
        for &(bytes, words) in spaces {
            lent.out = vec![UNWRITTEN as u8; length.saturating_add_signed(bytes)];
            lent.work = vec![UNWRITTEN; t.saturating_add_signed(words)];
            self.compare(&Call::Export, lent)?;
        }
        lent.out.clear();
        lent.work.clear();
        Ok(())
    }

    /// The longest file: 65,535 lines of 770 bytes. The same line 65,535 times. Files of every small number of lines, whose names are in no
    /// order. A statement that cannot be read, retracted or live. Then lines of names of which one begins another, or which have the string
    /// ending or bytes below the blank, above it and LF, as no sound name does; and all orders of a few lines.
    fn files(&mut self) -> Result<(), Difference> {
        const ALL: [(isize, isize); 3] = [(0, 0), (-1, 0), (0, -1)];
        let mut lent = store(&vec![MAX_NAME; MAX_TEXT / (MAX_NAME + 1)], MAX_RECORDS as u32);
        (1..=lent.t()).for_each(|n| lent.statements[statement_at(n) + FLAG] = 0);
        self.exported(&mut lent, &ALL)?;
        (1..=lent.t()).for_each(|n| lent.statements[statement_at(n)..][..PLACES].copy_from_slice(&[3, 2, 1]));
        self.exported(&mut lent, &[(0, 0)])?;

        for lines in 0..=70 {
            let lent = &mut store(&[SHORT; 300], lines);
            for retracted in [false, true] {
                (1..=lines).for_each(|n| lent.statements[statement_at(n) + FLAG] = (retracted && n % 3 == 0) as u32);
                self.exported(lent, &[(0, 0), (3, 2)])?;
            }
        }

        // 6 is retracted, 7 is live, and no other statement has their objects.
        for n in [6, 7] {
            let whole = store(&[SHORT; 300], 9);
            for (word, value) in [(FLAG, 2), (0, 0), (1, whole.r() + 1)] {
                let lent = &mut whole.clone();
                lent.statements[statement_at(n) + word] = value;
                self.exported(lent, &[(200, 0), NOTHING])?;
            }
            let lent = &mut whole.clone();
            lent.resources[resource_at(whole.member(n, 2)) + OFFSET] = whole.counters[2];
            self.exported(lent, &[(200, 0), NOTHING])?;
        }

        let spelled = [b"\"a\"", STRING_ENDING].concat();
        let names: [&[u8]; 13] =
            [b"_:a", b"_:ab", b"_:a b", b"_:a\n", b"_:a\x1f", b"_:a!", b"", b"\"a\"", b"\"a\"@en", &spelled, b" ", b".", b"\xff"];
        let mut whole = store(&[], 0);
        whole.resources = vec![0; RESOURCE_WORDS * names.len()];
        whole.index = vec![0; names.len()];
        whole.text.clear();
        for (k, name) in names.iter().enumerate() {
            whole.resources[RESOURCE_WORDS * k + OFFSET] = whole.text.len() as u32;
            whole.text.extend_from_slice(name);
            whole.text.push(0);
        }
        whole.counters = vec![names.len() as u32, 0, whole.text.len() as u32, 0];
        // Each pair of names at each place, and four lines in each of their orders.
        let numbers = 1..=names.len() as u32;
        for (one, other) in numbers.clone().flat_map(|one| numbers.clone().map(move |other| (one, other))) {
            for place in 0..PLACES {
                let mut triples = [[1; PLACES]; 2];
                (triples[0][place], triples[1][place]) = (one, other);
                self.exported(&mut stating(&whole, &triples), &[(0, 0)])?;
            }
        }
        for order in 0..256 {
            let triples = [0, 2, 4, 6].map(|shift| [[1, 1, 2], [1, 2, 1], [2, 1, 1], [3, 1, 4]][order >> shift & 3]);
            self.exported(&mut stating(&whole, &triples), &[(0, 0)])?;
        }
        Ok(())
    }

    fn found_and_entered(&mut self, mut lent: Lent, names: &[Vec<u8>]) -> Result<(), Difference> {
        let lent = &mut lent;
        for name in names {
            self.compare(&Call::Find { name: name.clone() }, lent)?;
            self.compare(&Call::Enter { name: name.clone() }, lent)?;
        }
        for name in names {
            self.compare(&Call::Find { name: name.clone() }, lent)?;
        }
        self.compare(&Call::Check, lent)?;
        Ok(())
    }

    /// The live count of the predicate, which all statements have: about its count, 0 and 1, and the highest. Statements 1 and 6 are
    /// retracted, 2 and 3 live; there is room for one more.
    fn live_counts(&mut self) -> Result<(), Difference> {
        const AS_PREDICATE: usize = 1;
        let whole = store(&[SHORT; 300], MAX_RECORDS as u32 - 1);
        let r = whole.r();
        let count = whole.count(PREDICATE, AS_PREDICATE);
        for live in [count - 1, count, count + 1, 0, 1, u32::MAX] {
            let lent = &mut whole.clone();
            lent.resources[resource_at(PREDICATE) + LIVE + AS_PREDICATE] = live;
            let assert = |n: u32| Call::Assert { triple: triple(n, r) };
            let retract = |n: u32| Call::Retract { triple: triple(n, r) };
            let absent = |object: u32| Call::Assert { triple: [1, PREDICATE, object] };
            self.compare(&Call::Check, lent)?;
            self.compare(&Call::ScanOpen { pattern: [0, PREDICATE, 0] }, lent)?;
            self.compare(&Call::ScanNext { budget: u32::MAX }, lent)?;
            lent.cursor[SCAN_NEXT] = 6;
            self.compare(&Call::ScanNext { budget: 1 }, lent)?;
            // Of the two that are revived the second may bring it past its count; all after that is then refused.
            for call in [assert(2), retract(1), retract(2), absent(r), assert(1), assert(6), assert(3), retract(3), absent(r - 1)] {
                self.compare(&call, lent)?;
            }
        }
        Ok(())
    }

    /// Resource tables from no word to three whole records: how many names they take, and that a record has words of its own.
    fn resource_words(&mut self) -> Result<(), Difference> {
        for words in 0..=3 * RESOURCE_WORDS {
            let lent = &mut store(&[], 0);
            lent.resources = vec![7; words];
            for name in [b"<a>", b"<b>", b"<c>", b"<d>"] {
                self.compare(&Call::Enter { name: name.to_vec() }, lent)?;
            }
            for triple in [[1, 1, 1], [1, 2, 1]] {
                self.compare(&Call::Assert { triple }, lent)?;
            }
            self.compare(&Call::Retract { triple: [1, 1, 1] }, lent)?;
            self.compare(&Call::Check, lent)?;
            for number in 0..=4 {
                self.compare(&Call::Live { number, position: PLACES as u32 - 1 }, lent)?;
            }
            lent.counters[0] += 1;
            self.compare(&Call::Name { number: 1 }, lent)?;
            self.compare(&Call::Live { number: 1, position: 0 }, lent)?;
        }
        Ok(())
    }

    /// The window of a name: its zero is the 256th byte from the offset, then the 257th.
    fn window(&mut self) -> Result<(), Difference> {
        let mut lent = store(&[MAX_NAME; 300], 300);
        lent.text[MAX_NAME] = b'a';
        for offset in [MAX_NAME + 1, MAX_NAME] {
            lent.resources[resource_at(2) + OFFSET] = offset as u32;
            self.compare(&Call::Name { number: 2 }, &mut lent)?;
        }
        Ok(())
    }

    /// Every function that takes tables, on numbers from the first to beyond the last; then those that fill the store up, and those that
    /// get room back.
    fn every_function(&mut self, mut lent: Lent, length: usize) -> Result<(), Difference> {
        let lent = &mut lent;
        let [r, t, reclaims] = [lent.r(), lent.t(), lent.reclaims()];
        self.compare(&Call::Check, lent)?;
        for name in [named(1, length), named(r, SHORT), named(0, length)] {
            self.compare(&Call::Find { name: name.clone() }, lent)?;
            self.compare(&Call::Number { name }, lent)?;
        }
        // All names; a sixteenth of them, and a 256th; one, by the whole of it; none, by a zero
        // byte after it (at 255 bytes in place of its last), by another last byte, and below all.
        let (all, name) = (r as usize, named(1, length));
        let (above, closed) = ([&name[..length - 1], &[255]].concat(), [&name[..length.min(MAX_NAME - 1)], &[0]].concat());
        let beginnings =
            [(&b""[..], all + 2), (b"<", 1), (b"<8", all), (&name[..3], 0), (&name, 2), (&closed, 2), (&above, 2), (b"\"", 2)];
        self.listed(lent, &beginnings)?;
        self.listed(lent, &[(&[b'<'; MAX_NAME], 2), (&[b'<'; MAX_NAME + 1], 2)])?;
        self.compare(&Call::Enter { name: named(1, length) }, lent)?;
        for number in [1, 13, r - 1, r, r + 1] {
            self.compare(&Call::Name { number }, lent)?;
        }
        for number in [0, 1, PREDICATE, r - 1, r, r + 1, u32::MAX] {
            for position in 0..=PLACES as u32 {
                self.compare(&Call::Live { number, position }, lent)?;
            }
        }
        for number in [1, 13, t / 2, t - 1, t, t + 1] {
            self.compare(&Call::Statement { number }, lent)?;
        }
        self.exported(lent, &[(0, 0), (2, 3)])?;

        // A listing of everything, of the last statement's resources, and of the predicate's long chain; the cursor is made up first, so
        // that there is one also where opening is refused.
        let [subject, predicate, object] = triple(t, r);
        let first = |place: usize, number: u32| lent.resources[resource_at(number) + FIRST + place];
        let [by_subject, by_predicate, by_object] = [first(0, subject), first(1, predicate), first(2, object)];
        let cursors = [
            [0, 0, 0, 0, t, reclaims],
            [subject, 0, 0, 1, by_subject, reclaims],
            [0, predicate, 0, 2, by_predicate, reclaims],
            [0, 0, object, 3, by_object, reclaims],
            [subject, predicate, 7, 1, by_subject, reclaims],
        ];
        for cursor in cursors {
            lent.cursor[..SCAN_CURSOR_WORDS].copy_from_slice(&cursor);
            self.compare(&Call::ScanOpen { pattern: [cursor[0], cursor[1], cursor[2]] }, lent)?;
            for budget in [1, 2, u32::MAX] {
                self.compare(&Call::ScanNext { budget }, lent)?;
            }
        }
        // An object that no statement has: the whole of the long chain is visited.
        lent.cursor[..SCAN_CURSOR_WORDS].copy_from_slice(&[0, predicate, r - 1, 2, by_predicate, reclaims]);
        self.compare(&Call::ScanNext { budget: u32::MAX }, lent)?;

        // Two objects of one subject; the cursor is the start, then goes on within.
        let variable = |v: u32| FIRST_VARIABLE + v;
        let words = vec![variable(0), predicate, object, variable(0), variable(1), variable(2)];
        lent.cursor.fill(0);
        self.compare(&Call::QueryOpen { words: words.clone() }, lent)?;
        for budget in [1, 1, 3, 700, u32::MAX] {
            self.compare(&Call::QueryNext { words: words.clone(), budget }, lent)?;
        }
        lent.cursor[..7].copy_from_slice(&[WITHIN, 2, reclaims, 3, t, 1, by_subject]);
        self.compare(&Call::QueryNext { words: words.clone(), budget: 2 }, lent)?;

        // Retracted, retracted again, revived, live already: the first, a middle and the last statement.
        for n in [1, t / 2 + 1, t] {
            let triple = triple(n, r);
            let (retract, assert) = (Call::Retract { triple }, Call::Assert { triple });
            for call in [&retract, &retract, &assert, &assert, &retract] {
                self.compare(call, lent)?;
            }
        }

        // As many as fit: new ones up to the limit, then refused.
        for object in [r - 1, r, r - 2] {
            self.compare(&Call::Assert { triple: [1, PREDICATE, object] }, lent)?;
        }
        for name in [named(0, length), b"<a>".to_vec(), b"<b>".to_vec()] {
            self.compare(&Call::Enter { name }, lent)?;
        }
        self.compare(&Call::Check, lent)?;

        // Room again, with a listing of all left open: it is refused, and opened again it goes over what moved. What had no room is new,
        // and so is the first statement, which was retracted. Then a reclaim that drops nothing.
        let all = Call::ScanOpen { pattern: [0, PREDICATE, 0] };
        self.compare(&all, lent)?;
        self.compare(&Call::Reclaim, lent)?;
        self.compare(&Call::ScanNext { budget: 1 }, lent)?;
        self.compare(&Call::Check, lent)?;
        self.compare(&all, lent)?;
        for budget in [1, 2, u32::MAX] {
            self.compare(&Call::ScanNext { budget }, lent)?;
        }
        for triple in [[1, PREDICATE, r - 2], [1, PREDICATE, r], triple(1, r), triple(t, r)] {
            self.compare(&Call::Assert { triple }, lent)?;
        }
        self.compare(&Call::QueryOpen { words: words.clone() }, lent)?;
        self.compare(&Call::Reclaim, lent)?;
        self.compare(&Call::QueryNext { words, budget: 1 }, lent)?;
        self.compare(&Call::Check, lent)?;
        self.exported(lent, &[(0, 0), (-1, 0), (0, -1), NOTHING])
    }
}
