//! The differential test: random calls through the C interface against the plain implementation in `plain.rs` and `names.rs`, which is
//! written from paper 01, what paper 02 says of files of the statements, of names by their beginning, of live counts, of getting room back,
//! of the same label typed two ways and of six patterns, and `docs/DECISIONS.md` alone.
//!
//!     diff SEED CALLS SECONDS
//!
//! makes calls from a seed until there are so many or so much time has passed, about half of them by the structs of the header, and of
//! these half with null for every empty slice. After each call the result, the reply, the cursor, the words of a list, a file and its working words, the counters and every byte of the
//! tables must be what the paper says; where find, a listing by a beginning and enter meet a dictionary that is not sound, what the paper
//! leaves open is bounded. The first difference is told with the seed, the call's number and both answers, and ends the run with status 1.
//! A run that made fewer calls than it was to make, and fewer than a million, has failed too. At the end stands how many calls of each kind
//! had each result, and how many met null, the string ending, the index of names, files, live counts, reclaims and the limit of patterns in
//! which way; a run of 300,000 calls or more must have met all of these.

mod beginnings;
mod damage;
#[cfg(test)]
mod examples;
mod files;
mod library;
mod limits;
mod live;
mod names;
mod nulls;
mod patterns;
mod plain;
mod random;
mod reclaims;
mod structs;
mod tally;

use damage::damage;
use library::Way;
use plain::{
    Call, Expected, Lent, COUNTER_WORDS, END, MAX_RECLAIMS, PLACES, QUERY_RECLAIMS, RECLAIMS, RESOURCE_WORDS, SCAN_NEXT,
    SCAN_RECLAIMS, STATEMENT_WORDS, WITHIN,
};
use random::Random;
use std::process::ExitCode;
use std::time::{Duration, Instant};
use tally::Tally;

/// What a cursor, a list's words and a reply hold before a call that is to write them.
const UNWRITTEN: u32 = 0x77;

/// One store in so many is of middle size.
const MIDDLE: usize = 300;

/// A run that is to make so many calls or more has failed with fewer, also where its time is over.
const LEAST: u64 = 1_000_000;

/// Calls after which every result, and everything of null, of the string ending, of the index of names, of files, of live counts, of
/// reclaims and of the limit of patterns, must have been met.
const ENOUGH: u64 = 300_000;

struct Run {
    random: Random,
    made: u64,
    tally: Tally,
}

/// What is told of a difference.
type Difference = String;

/// What a store is at: its first names and statements, calls of all kinds, or such calls on a damaged copy.
#[derive(Clone, Copy, PartialEq)]
enum Phase {
    Building,
    Sound,
    Damaged,
}

/// Open listings and questions: the words of a question, and the cursor; they stay over a reclaim. And a triple that was refused 3 on a
/// sound store, no reclaim having been answered since.
#[derive(Default)]
struct Open {
    scans: Vec<Vec<u32>>,
    queries: Vec<(Vec<u32>, Vec<u32>)>,
    no_room: Option<[u32; 3]>,
}

impl Run {
    /// Makes one call both ways and compares: its result.
    fn compare(&mut self, call: &Call, lent: &mut Lent) -> Result<u32, Difference> {
        self.made += 1;
        let before = lent.clone();
        let way = match self.random.below(4) {
            0 | 1 if !call.of_the_header() => Way::Slices,
            _ if call.lacks_words(lent) => Way::Slices,
            0 | 2 => Way::Structs,
            _ => Way::StructsOrNull,
        };
        let told = |what: String| {
            let lent = if before.resources.len() < 1000 { format!("{before:?}") } else { "the tables of the limits".to_string() };
            format!("call {}, by {way:?}: {call:?}\n{what}\nlent: {lent}", self.made)
        };
        let (result, after) = library::make(call, &before, way).map_err(told)?;
        let expected = call.make(lent);
        match expected {
            Expected::Exactly(right) if result == right && after == *lent => {}
            Expected::Exactly(right) => {
                return Err(told(format!(
                    "the library: {result} {}\nthe paper:   {right} {}\nwhere they differ, the paper's to the library's: {}",
                    after.changes(&before),
                    lent.changes(&before),
                    after.changes(lent)
                )))
            }
            Expected::Bounded => {
                let kept = call.bounds_kept(&before, result, &after);
                kept.map_err(|what| told(format!("the library: {what} {}", after.changes(&before))))?;
                *lent = after;
            }
        }
        self.tally.count(call, way, result, &before, lent, expected == Expected::Bounded);
        Ok(result)
    }

    /// Tables of up to a few records, or of some hundreds, some words short or over, holding anything. The counters are 0, with words past
    /// them at times; so is the number of reclaims, or it is close to its limit.
    fn tables(&mut self, middle: bool) -> Lent {
        let random = &mut self.random;
        if middle {
            return Lent {
                counters: vec![0; COUNTER_WORDS],
                resources: vec![0; RESOURCE_WORDS * random.from_to(20, 60) + 5],
                statements: vec![0; STATEMENT_WORDS * random.from_to(60, 300) + 5],
                index: vec![0; 60],
                text: vec![0; random.from_to(400, 3000)],
                ..Lent::default()
            };
        }
        let records = |random: &mut Random| if random.one_in(5) { random.below(3) } else { random.from_to(3, 6) };
        let partial = |random: &mut Random, words: usize| if random.one_in(4) { random.below(words) } else { 0 };
        let named = records(random);
        let mut lent = Lent {
            counters: vec![0; COUNTER_WORDS],
            resources: vec![0; RESOURCE_WORDS * named + partial(random, RESOURCE_WORDS)],
            statements: vec![0; STATEMENT_WORDS * records(random) + partial(random, STATEMENT_WORDS)],
            index: vec![0; (named + random.of(&[0, 0, 0, 0, 1, 2])).saturating_sub(random.below(5) / 4)],
            text: vec![0; if random.one_in(5) { random.below(24) } else { random.from_to(24, 60) }],
            ..Lent::default()
        };
        if random.one_in(4) {
            lent.statements.resize(STATEMENT_WORDS * random.from_to(7, 12), 0);
        }
        if random.one_in(6) {
            lent.text.resize(random.of(&[100, 220, 300, 600]), 0);
        }
        if random.one_in(8) {
            lent.counters.extend([7, 8]);
        }
        if random.one_in(12) {
            lent.counters[RECLAIMS] = MAX_RECLAIMS - random.below(4) as u32;
        }
        if !random.one_in(3) {
            for words in [&mut lent.resources, &mut lent.statements, &mut lent.index] {
                words.iter_mut().for_each(|word| *word = random.wild(&[6]));
            }
            lent.text.iter_mut().for_each(|byte| *byte = random.any() as u8);
        }
        lent
    }

    /// A call, the cursor for it, and which of the open listings or questions it goes on with.
    fn choose(&mut self, lent: &Lent, open: &Open, phase: Phase) -> (Call, Vec<u32>, Option<usize>) {
        let random = &mut self.random;
        let few = lent.counters[0] < 3;
        let choice = match phase {
            Phase::Building if random.one_in(100) => 38,
            Phase::Building if random.one_in(if few { 2 } else { 4 }) => 0,
            Phase::Building => random.of(&[17, 17, 17, 31]),
            Phase::Sound | Phase::Damaged => random.below(124),
        };
        let alone = |call| (call, vec![], None);
        match choice {
            0..=11 => alone(Call::Enter { name: random.short_name(lent) }),
            12..=16 => alone(Call::Find { name: random.short_name(lent) }),
            17..=30 => alone(Call::Assert { triple: random.triple(lent) }),
            31..=37 => alone(Call::Retract { triple: random.triple(lent) }),
            38..=41 => alone(Call::Reclaim),
            42..=44 => alone(Call::Name { number: random.resource(lent) }),
            45..=47 => alone(Call::Statement { number: random.statement(lent) }),
            48..=51 => alone(Call::Check),
            52..=54 => alone(Call::NameKind { name: random.name() }),
            55..=59 => {
                let (line_text, at) = random.line_text();
                alone(Call::ReadLine { line_text, at })
            }
            60..=67 => (Call::ScanOpen { pattern: random.pattern(lent) }, vec![], None),
            68..=79 => {
                let call = Call::ScanNext { budget: random.budget(lent, 0) };
                if open.scans.is_empty() || random.one_in(5) {
                    return (call, random.scan_cursor(lent), None);
                }
                let which = random.below(open.scans.len());
                let mut cursor = open.scans[which].clone();
                let altered = random.alter_cursor(&mut cursor, SCAN_RECLAIMS, lent);
                (call, cursor, (!altered).then_some(which))
            }
            80..=84 => (Call::QueryOpen { words: random.words(lent) }, vec![], None),
            85..=92 => alone(Call::NamesWithPrefix { prefix: random.beginning(lent) }),
            93..=98 => alone(Call::Export),
            99..=101 => alone(Call::Number { name: random.short_name(lent) }),
            102..=104 => alone(Call::Live { number: random.resource(lent), position: random.position(lent) }),
            _ => {
                if open.queries.is_empty() || random.one_in(4) {
                    let words = random.words(lent);
                    let cursor = random.query_cursor(lent, words.len() / PLACES);
                    return (Call::QueryNext { budget: random.budget(lent, words.len() / PLACES), words }, cursor, None);
                }
                let which = random.below(open.queries.len());
                let (mut words, mut cursor) = open.queries[which].clone();
                let budget = random.budget(lent, words.len() / PLACES);
                let mut altered = random.alter_cursor(&mut cursor, QUERY_RECLAIMS, lent);
                if random.one_in(20) {
                    words = random.words(lent);
                    altered = true;
                }
                (Call::QueryNext { words, budget }, cursor, (!altered).then_some(which))
            }
        }
    }

    /// A length for a slice that must have so many words: mostly those, sometimes more, seldom fewer where the library tests that.
    fn length(&mut self, call: &Call, words: usize) -> usize {
        match self.random.below(60) {
            0 if words > 0 && !call.of_the_header() => self.random.below(words),
            1..=6 => words + self.random.from_to(1, 3),
            _ => words,
        }
    }

    /// Words for the list of a call: about as many as it has numbers, or, where that is not known, as there are names.
    fn list(&mut self, call: &Call, lent: &Lent) -> Vec<u32> {
        let Call::NamesWithPrefix { prefix } = call else { return vec![] };
        let listed = lent.within_capacity() && lent.names().is_some();
        let total = if listed { lent.names_with_prefix(prefix).map_or(0, |listed| listed.len()) } else { lent.index.len() };
        vec![UNWRITTEN; self.random.list_words(total)]
    }

    /// Bytes and working words for a file, any values in them: about as many as it takes, or, where that is not known, as may be.
    fn file_space(&mut self, call: &Call, lent: &Lent) -> (Vec<u8>, Vec<u32>) {
        let Call::Export = call else { return (vec![], vec![]) };
        let bytes = lent.file().map_or(40, |file| file.len());
        let words = if lent.within_capacity() { lent.t() as usize } else { 3 };
        let [bytes, words] = [bytes, words].map(|needed| self.random.space(needed));
        ((0..bytes).map(|_| self.random.any() as u8).collect(), (0..words).map(|_| self.random.any() as u32).collect())
    }

    /// One call on a store, with slices of mostly the right lengths, and what it leaves of the open listings and questions.
    fn step(&mut self, lent: &mut Lent, open: &mut Open, phase: Phase) -> Result<(), Difference> {
        let (call, mut cursor, which) = self.choose(lent, open, phase);
        if call.cursor_words() > 0 {
            cursor.resize(self.length(&call, call.cursor_words()), UNWRITTEN);
        }
        if phase == Phase::Damaged && matches!(call, Call::QueryNext { .. }) && self.random.one_in(2) {
            damage::entered_records(&mut self.random, lent, &cursor);
        }
        lent.cursor = cursor;
        lent.numbers = self.list(&call, lent);
        (lent.out, lent.work) = self.file_space(&call, lent);
        lent.reply = vec![UNWRITTEN; if call.reply_words() > 0 { self.length(&call, call.reply_words()) } else { 0 }];
        lent.line_reply = vec![UNWRITTEN.into(); if call.line_words() > 0 { self.length(&call, call.line_words()) } else { 0 }];
        if call.takes_tables() && !call.of_the_header() && self.random.one_in(100) {
            let whole = lent.counters.clone();
            lent.counters.truncate(self.random.below(COUNTER_WORDS));
            self.compare(&call, lent)?;
            lent.counters = whole;
            return Ok(());
        }
        let before = if matches!(call, Call::Reclaim) { lent.clone() } else { Lent::default() };
        let result = self.compare(&call, lent)?;
        if phase != Phase::Damaged {
            match (&call, result) {
                (Call::Reclaim, 0) => self.assert_again(&before, lent, open.no_room.take())?,
                (Call::Assert { triple }, 3) if lent.sound() => open.no_room = Some(*triple),
                _ => {}
            }
        }
        if lent.cursor.len() >= call.cursor_words() {
            let cursor = lent.cursor[..call.cursor_words()].to_vec();
            let stopped = phase != Phase::Damaged && result == 13;
            self.keep(call, which, cursor, stopped, open);
        }
        Ok(())
    }

    /// What a call leaves of the open listings and questions: its cursor afterwards, in the place of the one it went on with.
    fn keep(&mut self, call: Call, which: Option<usize>, cursor: Vec<u32>, stopped: bool, open: &mut Open) {
        const KEPT: usize = 3;
        // What has ended is asked again at times, then dropped; so, mostly at once, is what a reclaim has stopped.
        let over = match call {
            _ if stopped => !self.random.one_in(6),
            Call::ScanNext { .. } if cursor[SCAN_NEXT] == 0 => self.random.one_in(2),
            Call::QueryNext { .. } if cursor[0] == END => self.random.one_in(2),
            _ => false,
        };
        match (call, which) {
            (Call::ScanNext { .. }, Some(which)) if over => drop(open.scans.remove(which)),
            (Call::QueryNext { .. }, Some(which)) if over => drop(open.queries.remove(which)),
            (Call::ScanNext { .. }, Some(which)) => open.scans[which] = cursor,
            (Call::QueryNext { .. }, Some(which)) => open.queries[which].1 = cursor,
            // A refused opening leaves the cursor as it was, which is no cursor.
            (Call::ScanOpen { .. }, _) if cursor.iter().any(|&word| word != UNWRITTEN) => {
                open.scans.insert(0, cursor);
                open.scans.truncate(KEPT);
            }
            (Call::QueryOpen { words }, _) if cursor.iter().any(|&word| word != UNWRITTEN) => {
                open.queries.insert(0, (words, cursor));
                open.queries.truncate(KEPT);
            }
            // A cursor that was made up and accepted is gone on with, too.
            (Call::QueryNext { words, .. }, None) if cursor[0] == WITHIN && self.random.one_in(2) => {
                open.queries.insert(0, (words, cursor));
                open.queries.truncate(KEPT);
            }
            _ => {}
        }
    }

    /// A store from its first call on: names and statements, then calls of all kinds, between them some on damaged copies of it.
    fn episode(&mut self) -> Result<(), Difference> {
        let middle = self.random.one_in(MIDDLE);
        let mut lent = self.tables(middle);
        let mut open = Open::default();
        if !middle && self.random.one_in(20) {
            damage(&mut self.random, &mut lent);
        }
        let (building, rounds) = if middle { ([300, 600, 1000, 2000, 2000], 30) } else { ([0, 5, 20, 30, 40], 6) };
        for _ in 0..self.random.of(&building) {
            self.step(&mut lent, &mut open, Phase::Building)?;
        }
        for _ in 0..self.random.from_to(1, rounds) {
            for _ in 0..self.random.from_to(1, 15) {
                self.step(&mut lent, &mut open, Phase::Sound)?;
            }
            let sound = lent.clone();
            damage(&mut self.random, &mut lent);
            lent.reply = vec![UNWRITTEN];
            self.compare(&Call::Check, &mut lent)?;
            for _ in 0..self.random.from_to(1, 12) {
                self.step(&mut lent, &mut open, Phase::Damaged)?;
            }
            lent = sound;
        }
        Ok(())
    }

    /// The limits first, which take some seconds; the time counts from then on.
    fn run(&mut self, calls: u64, time: Duration) -> Result<(), Difference> {
        self.limits()?;
        let until = Instant::now() + time;
        while self.made < calls && Instant::now() < until {
            self.episode()?;
        }
        Ok(())
    }
}

fn main() -> ExitCode {
    let arguments: Vec<u64> = std::env::args().skip(1).filter_map(|word| word.parse().ok()).collect();
    let [seed, calls, seconds] = arguments[..] else {
        eprintln!("usage: diff SEED CALLS SECONDS");
        return ExitCode::from(2);
    };
    let mut run = Run { random: Random::new(seed), made: 0, tally: Tally::default() };
    let end = run.run(calls, Duration::from_secs(seconds));
    print!("{}", run.tally);
    if let Err(difference) = end {
        println!("seed {seed}, {difference}");
        return ExitCode::FAILURE;
    }
    if run.made < calls.min(LEAST) {
        println!("seed {seed}: only {} calls in {seconds} seconds, at least {} are due", run.made, calls.min(LEAST));
        return ExitCode::FAILURE;
    }
    let missing = run.tally.missing();
    if run.made >= ENOUGH && !missing.is_empty() {
        println!("seed {seed}: {} calls, and none of {}", run.made, missing.join(", "));
        return ExitCode::FAILURE;
    }
    println!("seed {seed}: {} calls, no difference", run.made);
    ExitCode::SUCCESS
}
