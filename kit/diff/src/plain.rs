//! The store, plainly: paper 01, "Tables and counters" and "Operations and refusals", and paper 02 on files of the statements, on names by
//! their beginning, on live counts, on getting room back, on the same label typed two ways and on six patterns, as read in
//! `docs/DECISIONS.md`. Nothing here is meant to be fast. Every operation works on what is lent, as the library's does, so that the two
//! can be compared byte by byte. Refusals are the `Err` of a `Result`, by their number. Two calls are the C header's own, and go by its
//! sentences: the number of a name that must be there, and a live count.

use crate::names::{has_ending, kind_of, read_line, without_ending, Line, MAX_NAME};
use std::fmt::Display;

pub const MAX_RECORDS: usize = 65_535;
pub const MAX_TEXT: usize = 1_048_576;
pub const MAX_RECLAIMS: u32 = 65_535;
pub const MAX_PATTERNS: usize = 6;
pub const VARIABLES: usize = 16;
pub const FIRST_VARIABLE: u32 = 1 << 31;

/// The counters: resources, statements, text bytes, reclaims so far.
pub const COUNTER_WORDS: usize = 4;
pub const RECLAIMS: usize = 3;
/// A resource's record: first as subject, predicate and object, count as each, offset, kind, live count as each.
pub const RESOURCE_WORDS: usize = 11;
pub const FIRST: usize = 0;
pub const COUNT: usize = 3;
pub const OFFSET: usize = 6;
pub const KIND: usize = 7;
pub const LIVE: usize = 8;
/// A statement's record: subject, predicate, object, next on the chain of each, flag.
pub const STATEMENT_WORDS: usize = 7;
pub const NEXT: usize = 3;
pub const FLAG: usize = 6;
/// Words of a pattern, and the places of a triple.
pub const PLACES: usize = 3;
/// A listing's place: its pattern, the chain, the next record, the reclaims.
pub const SCAN_CURSOR_WORDS: usize = 6;
pub const SCAN_CHAIN: usize = 3;
pub const SCAN_NEXT: usize = 4;
pub const SCAN_RECLAIMS: usize = 5;
/// A question's place: start, within or end; the levels; the reclaims; a chain and a record for each level.
pub const QUERY_CURSOR_WORDS: usize = 3 + 2 * MAX_PATTERNS;
pub const QUERY_RECLAIMS: usize = 2;
pub const LEVELS: usize = 3;
/// Status, visits, a resource for each variable.
const QUERY_REPLY_WORDS: usize = 2 + VARIABLES;
const LINE_WORDS: usize = 8;
/// The most words that a call needs for its reply, a line's apart.
pub const LONGEST_REPLY: usize = QUERY_REPLY_WORDS;

type QueryCursor = [u32; QUERY_CURSOR_WORDS];

/// The first word of a question's place.
pub const START: u32 = 0;
pub const WITHIN: u32 = 1;
pub const END: u32 = 2;

/// Statuses of a next call and of assert.
const FOUND: u32 = 1;
const ENDED: u32 = 2;
const SPENT: u32 = 3;
const NEW: u32 = 1;
const ALREADY: u32 = 2;
const REVIVED: u32 = 3;

/// Everything that one call is lent.
#[derive(Clone, Debug, PartialEq, Default)]
pub struct Lent {
    pub counters: Vec<u32>,
    pub resources: Vec<u32>,
    pub statements: Vec<u32>,
    pub index: Vec<u32>,
    pub text: Vec<u8>,
    pub cursor: Vec<u32>,
    /// Words for a list of numbers.
    pub numbers: Vec<u32>,
    /// Bytes for a file, and its working words.
    pub out: Vec<u8>,
    pub work: Vec<u32>,
    pub reply: Vec<u32>,
    pub line_reply: Vec<u64>,
}

/// One call of the interface, with what it is given beside the lent memory.
#[derive(Clone, Debug)]
pub enum Call {
    NameKind { name: Vec<u8> },
    ReadLine { line_text: Vec<u8>, at: usize },
    Check,
    Find { name: Vec<u8> },
    Number { name: Vec<u8> },
    NamesWithPrefix { prefix: Vec<u8> },
    Enter { name: Vec<u8> },
    Name { number: u32 },
    Live { number: u32, position: u32 },
    Statement { number: u32 },
    Assert { triple: [u32; 3] },
    Retract { triple: [u32; 3] },
    Reclaim,
    ScanOpen { pattern: [u32; 3] },
    ScanNext { budget: u32 },
    QueryOpen { words: Vec<u32> },
    QueryNext { words: Vec<u32>, budget: u32 },
    Export,
}

/// What the paper says of a call: the one result, or no more than bounds (find, a name's number, names by their beginning and enter, where
/// the dictionary is not sound).
#[derive(Debug, PartialEq)]
pub enum Expected {
    Exactly(u32),
    Bounded,
}

/// Where record n begins in its table.
pub fn resource_at(n: u32) -> usize {
    RESOURCE_WORDS * (n as usize - 1)
}
pub fn statement_at(n: u32) -> usize {
    STATEMENT_WORDS * (n as usize - 1)
}

impl Lent {
    pub fn r(&self) -> u32 {
        self.counters[0]
    }
    pub fn t(&self) -> u32 {
        self.counters[1]
    }
    fn b(&self) -> u32 {
        self.counters[2]
    }
    pub fn reclaims(&self) -> u32 {
        self.counters[RECLAIMS]
    }

    fn resource_capacity(&self) -> usize {
        (self.resources.len() / RESOURCE_WORDS).min(self.index.len()).min(MAX_RECORDS)
    }
    fn statement_capacity(&self) -> usize {
        (self.statements.len() / STATEMENT_WORDS).min(MAX_RECORDS)
    }
    fn text_capacity(&self) -> usize {
        self.text.len().min(MAX_TEXT)
    }
    pub fn within_capacity(&self) -> bool {
        self.tables_hold_counters() && self.reclaims() <= MAX_RECLAIMS
    }
    /// Whether the counters are within capacity, the number of reclaims apart.
    pub fn tables_hold_counters(&self) -> bool {
        self.r() as usize <= self.resource_capacity()
            && self.t() as usize <= self.statement_capacity()
            && self.b() as usize <= self.text_capacity()
    }

    /// The text up to B, or to its end.
    pub fn used_text(&self) -> &[u8] {
        &self.text[..self.text.len().min(self.b() as usize)]
    }

    // Words of record n, for a place 0 subject, 1 predicate, 2 object.
    fn resource_word(&self, n: u32, word: usize) -> u32 {
        self.resources[resource_at(n) + word]
    }
    fn first(&self, n: u32, place: usize) -> u32 {
        self.resource_word(n, FIRST + place)
    }
    pub fn count(&self, n: u32, place: usize) -> u32 {
        self.resource_word(n, COUNT + place)
    }
    pub fn live(&self, n: u32, place: usize) -> u32 {
        self.resource_word(n, LIVE + place)
    }
    fn offset(&self, n: u32) -> u32 {
        self.resource_word(n, OFFSET)
    }
    fn kind(&self, n: u32) -> u32 {
        self.resource_word(n, KIND)
    }
    fn statement_word(&self, n: u32, word: usize) -> u32 {
        self.statements[statement_at(n) + word]
    }
    pub fn member(&self, n: u32, place: usize) -> u32 {
        self.statement_word(n, place)
    }
    pub fn triple(&self, n: u32) -> [u32; 3] {
        [0, 1, 2].map(|place| self.member(n, place))
    }
    fn next(&self, n: u32, place: usize) -> u32 {
        self.statement_word(n, NEXT + place)
    }
    pub fn flag(&self, n: u32) -> u32 {
        self.statement_word(n, FLAG)
    }
    fn set_flag(&mut self, n: u32, flag: u32) {
        self.statements[statement_at(n) + FLAG] = flag;
    }

    pub fn is_resource(&self, number: u32) -> bool {
        1 <= number && number <= self.r()
    }
    fn resources_known(&self, n: u32) -> bool {
        self.triple(n).iter().all(|&number| self.is_resource(number))
    }

    // ---- soundness

    pub fn sound(&self) -> bool {
        self.sound_but_for_live_counts() && (0..PLACES).all(|place| self.live_counts_sound(place))
    }

    /// Whether all is sound, live counts apart.
    pub fn sound_but_for_live_counts(&self) -> bool {
        self.within_capacity() && self.names().is_some() && self.statements_sound() && self.chains_sound()
    }

    /// Whether names that have the string ending are all that keeps the store from being sound.
    pub fn sound_but_for_endings(&self) -> bool {
        self.within_capacity()
            && self.names().is_none()
            && self.spelled_names().is_some()
            && self.statements_sound()
            && self.chains_sound()
            && (0..PLACES).all(|place| self.live_counts_sound(place))
    }

    /// The names in resource order, if text, offsets, kinds and index are sound. Counters must be within capacity.
    pub fn names(&self) -> Option<Vec<&[u8]>> {
        self.spelled_names().filter(|names| !names.iter().any(|name| has_ending(name)))
    }

    /// The same, whether or not some of them have the string ending.
    fn spelled_names(&self) -> Option<Vec<&[u8]>> {
        let used = &self.text[..self.b() as usize];
        let mut names = vec![];
        let mut at = 0;
        for n in 1..=self.r() {
            let length = used[at..].iter().position(|&b| b == 0)?;
            let name = &used[at..at + length];
            if self.offset(n) as usize != at || kind_of(name) != Some(self.kind(n)) {
                return None;
            }
            names.push(name);
            at += length + 1;
        }
        // The index is the numbers sorted by name, and no name stands there twice.
        let mut sorted: Vec<u32> = (1..=self.r()).collect();
        sorted.sort_by_key(|&n| names[n as usize - 1]);
        let rising = sorted.windows(2).all(|two| names[two[0] as usize - 1] < names[two[1] as usize - 1]);
        (at == used.len() && rising && self.index[..self.r() as usize] == sorted[..]).then_some(names)
    }

    fn statements_sound(&self) -> bool {
        (1..=self.t()).all(|n| {
            self.resources_known(n)
                && matches!(self.kind(self.member(n, 0)), 1 | 2)
                && self.kind(self.member(n, 1)) == 1
                && matches!(self.kind(self.member(n, 2)), 1..=3)
                && self.flag(n) <= 1
        }) && self.no_triple_twice()
    }

    fn no_triple_twice(&self) -> bool {
        let mut triples: Vec<[u32; 3]> = (1..=self.t()).map(|n| self.triple(n)).collect();
        triples.sort();
        triples.windows(2).all(|two| two[0] != two[1])
    }

    /// Whether every next, first and count is what asserting the statements in their order gives. Their resources must be known.
    fn chains_sound(&self) -> bool {
        (0..PLACES).all(|place| {
            // The first statement and the count of each resource, under the statements so far.
            let mut chains = vec![(0, 0); self.r() as usize + 1];
            let nexts = (1..=self.t()).all(|n| {
                let (first, count) = &mut chains[self.member(n, place) as usize];
                let right = self.next(n, place) == *first;
                (*first, *count) = (n, *count + 1);
                right
            });
            nexts && (1..=self.r()).all(|number| chains[number as usize] == (self.first(number, place), self.count(number, place)))
        })
    }

    /// Whether every live count of a place is the number of live records that hold the resource there. Their resources must be known.
    pub fn live_counts_sound(&self, place: usize) -> bool {
        let mut live = vec![0; self.r() as usize + 1];
        (1..=self.t()).filter(|&n| self.flag(n) == 0).for_each(|n| live[self.member(n, place) as usize] += 1);
        (1..=self.r()).all(|number| live[number as usize] == self.live(number, place))
    }

    // ---- chains

    /// The chain a listing takes, 0 for all records, 1 to 3 for a place, and its first record. `bound` has 0 for any.
    fn pick(&self, bound: [u32; 3]) -> Result<(u32, u32), u32> {
        let mut picked = None;
        for place in 0..PLACES {
            if bound[place] != 0 {
                let (count, first) = (self.count(bound[place], place), self.first(bound[place], place));
                if count > self.t() || first > self.t() {
                    return Err(9);
                }
                if picked.map_or(true, |(least, _, _)| count < least) {
                    picked = Some((count, place as u32 + 1, first));
                }
            }
        }
        Ok(picked.map_or((0, self.t()), |(_, chain, first)| (chain, first)))
    }

    /// The record after n on a chain.
    fn after(&self, chain: u32, n: u32) -> u32 {
        match chain {
            0 => n - 1,
            _ => self.next(n, chain as usize - 1),
        }
    }

    /// Refusal 9 of a visit.
    fn visit(&self, chain: u32, bound: [u32; 3], n: u32) -> Result<(), u32> {
        let lacks = chain != 0 && self.member(n, chain as usize - 1) != bound[chain as usize - 1];
        if !self.resources_known(n) || lacks || self.after(chain, n) >= n || self.flag(n) > 1 {
            return Err(9);
        }
        Ok(())
    }

    /// Whether a chain is no bound place, or none though one is bound.
    fn chain_refused(&self, bound: [u32; 3], chain: u32) -> bool {
        match chain {
            0 => bound != [0; 3],
            1..=3 => bound[chain as usize - 1] == 0,
            _ => true,
        }
    }

    /// Whether a listing refuses a chain with its next record.
    fn place_refused(&self, bound: [u32; 3], chain: u32, next: u32) -> bool {
        self.chain_refused(bound, chain)
            || next > self.t()
            || next != 0 && chain != 0 && self.member(next, chain as usize - 1) != bound[chain as usize - 1]
    }

    // ---- operations; each begins with refusal 1

    fn capacity(&self) -> Result<(), u32> {
        if self.within_capacity() {
            Ok(())
        } else {
            Err(1)
        }
    }

    /// The number of a name, or 0; and where in the index it stands or would stand: after the names that are below it.
    fn find(&self, name: &[u8]) -> Result<(u32, u32), u32> {
        self.capacity()?;
        kind_of(name).ok_or(2u32)?;
        let name = without_ending(name);
        let names = self.names().expect("a sound dictionary");
        let number = names.iter().position(|&n| n == name).map_or(0, |k| k as u32 + 1);
        Ok((number, names.iter().filter(|&&n| n < name).count() as u32))
    }

    /// The number of a name that must be there.
    fn number(&self, name: &[u8]) -> Result<u32, u32> {
        match self.find(name)? {
            (0, _) => Err(4),
            (number, _) => Ok(number),
        }
    }

    /// The numbers of all names that begin with some bytes, which are taken as they are, in byte order of name.
    pub fn names_with_prefix(&self, prefix: &[u8]) -> Result<Vec<u32>, u32> {
        self.capacity()?;
        if prefix.len() > MAX_NAME {
            return Err(2);
        }
        let names = self.names().expect("a sound dictionary");
        let mut listed: Vec<(&[u8], u32)> = names.into_iter().zip(1..).filter(|(name, _)| name.starts_with(prefix)).collect();
        listed.sort();
        Ok(listed.into_iter().map(|(_, number)| number).collect())
    }

    /// Whether one more name of this length fits.
    pub fn room_for_name(&self, length: usize) -> bool {
        (self.r() as usize) < self.resource_capacity() && self.b() as usize + length + 1 <= self.text_capacity()
    }

    fn enter(&mut self, name: &[u8]) -> Result<u32, u32> {
        let (found, position) = self.find(name)?;
        if found != 0 {
            return Ok(found);
        }
        let name = without_ending(name);
        if !self.room_for_name(name.len()) {
            return Err(3);
        }
        let (r, b, position) = (self.r() as usize, self.b() as usize, position as usize);
        self.index[..=r].copy_within(position..r, position + 1);
        self.index[position] = r as u32 + 1;
        let mut record = [0; RESOURCE_WORDS];
        record[OFFSET] = b as u32;
        record[KIND] = kind_of(name).unwrap();
        self.resources[r * RESOURCE_WORDS..][..RESOURCE_WORDS].copy_from_slice(&record);
        self.text[b..][..name.len()].copy_from_slice(name);
        self.text[b + name.len()] = 0;
        self.counters[0] += 1;
        self.counters[2] += name.len() as u32 + 1;
        Ok(r as u32 + 1)
    }

    pub fn name(&self, number: u32) -> Result<(u32, u32), u32> {
        self.capacity()?;
        if !self.is_resource(number) {
            return Err(4);
        }
        let (offset, end) = (self.offset(number) as usize, self.b() as usize);
        if offset >= end {
            return Err(9);
        }
        let length = self.text[offset..end.min(offset + MAX_NAME + 1)].iter().position(|&b| b == 0).ok_or(9u32)?;
        Ok((offset as u32, length as u32))
    }

    /// A live count, as the record has it.
    fn live_count(&self, number: u32, position: u32) -> Result<u32, u32> {
        self.capacity()?;
        if !self.is_resource(number) || position as usize >= PLACES {
            return Err(4);
        }
        Ok(self.live(number, position as usize))
    }

    pub fn statement(&self, number: u32) -> Result<[u32; 4], u32> {
        self.capacity()?;
        if number == 0 || number > self.t() {
            return Err(4);
        }
        if !self.resources_known(number) || self.flag(number) > 1 {
            return Err(9);
        }
        let [subject, predicate, object] = self.triple(number);
        Ok([subject, predicate, object, self.flag(number)])
    }

    /// The first record with a triple on the chain that a listing of it would take, or 0. Where firsts and counts are tested, so are the
    /// live counts.
    pub fn walk_to(&self, triple: [u32; 3]) -> Result<u32, u32> {
        let (chain, mut n) = self.pick(triple)?;
        if (0..PLACES).any(|place| self.live(triple[place], place) > self.count(triple[place], place)) {
            return Err(9);
        }
        while n != 0 {
            self.visit(chain, triple, n)?;
            if self.triple(n) == triple {
                break;
            }
            n = self.after(chain, n);
        }
        Ok(n)
    }

    /// The three live counts of a triple, each made another by `change`.
    fn change_live(&mut self, triple: [u32; 3], change: fn(u32) -> u32) {
        for place in 0..PLACES {
            let live = &mut self.resources[resource_at(triple[place]) + LIVE + place];
            *live = change(*live);
        }
    }

    fn assert(&mut self, triple: [u32; 3]) -> Result<(u32, u32), u32> {
        self.capacity()?;
        if triple.iter().any(|&number| !self.is_resource(number)) {
            return Err(4);
        }
        let kinds = triple.map(|number| self.kind(number));
        if kinds.iter().any(|kind| !(1..=3).contains(kind)) {
            return Err(9);
        }
        if kinds[0] == 3 || kinds[1] != 1 {
            return Err(5);
        }
        let n = self.walk_to(triple)?;
        if n != 0 && self.flag(n) == 0 {
            return Ok((ALREADY, n));
        }
        if n != 0 {
            self.set_flag(n, 0);
            self.change_live(triple, |live| live + 1);
            return Ok((REVIVED, n));
        }
        if self.t() as usize == self.statement_capacity() {
            return Err(3);
        }
        self.append(triple);
        Ok((NEW, self.t()))
    }

    /// A triple as the next record, live and at the head of its three chains.
    fn append(&mut self, triple: [u32; 3]) {
        let n = self.t() + 1;
        let firsts = [0, 1, 2].map(|place| self.first(triple[place], place));
        let record: [u32; STATEMENT_WORDS] = [triple[0], triple[1], triple[2], firsts[0], firsts[1], firsts[2], 0];
        self.statements[statement_at(n)..][..STATEMENT_WORDS].copy_from_slice(&record);
        for place in 0..PLACES {
            let at = resource_at(triple[place]);
            self.resources[at + FIRST + place] = n;
            self.resources[at + COUNT + place] += 1;
        }
        self.change_live(triple, |live| live + 1);
        self.counters[1] = n;
    }

    fn retract(&mut self, triple: [u32; 3]) -> Result<u32, u32> {
        self.capacity()?;
        if triple.iter().any(|&number| !self.is_resource(number)) {
            return Err(4);
        }
        let n = self.walk_to(triple)?;
        if n == 0 || self.flag(n) == 1 {
            return Ok(0);
        }
        if (0..PLACES).any(|place| self.live(triple[place], place) == 0) {
            return Err(9);
        }
        self.set_flag(n, 1);
        self.change_live(triple, |live| live - 1);
        Ok(n)
    }

    /// The triples of the records with a flag, in their order.
    pub fn flagged(&self, flag: u32) -> Vec<[u32; 3]> {
        (1..=self.t()).filter(|&n| self.flag(n) == flag).map(|n| self.triple(n)).collect()
    }

    /// Clears all records, and what resources say of them, then appends the live triples in their order.
    fn reclaim(&mut self) -> Result<(), u32> {
        self.capacity()?;
        if self.reclaims() == MAX_RECLAIMS {
            return Err(14);
        }
        if !self.sound() {
            return Err(9);
        }
        let live = self.flagged(0);
        let used = STATEMENT_WORDS * self.t() as usize;
        self.statements[..used].fill(0);
        for number in 1..=self.r() {
            let record = &mut self.resources[resource_at(number)..][..RESOURCE_WORDS];
            for word in [FIRST, COUNT, LIVE] {
                record[word..word + PLACES].fill(0);
            }
        }
        self.counters[1] = 0;
        live.into_iter().for_each(|triple| self.append(triple));
        self.counters[RECLAIMS] += 1;
        Ok(())
    }

    fn scan_open(&self, pattern: [u32; 3]) -> Result<[u32; SCAN_CURSOR_WORDS], u32> {
        self.capacity()?;
        if pattern.iter().any(|&number| number > self.r()) {
            return Err(4);
        }
        let (chain, first) = self.pick(pattern)?;
        Ok([pattern[0], pattern[1], pattern[2], chain, first, self.reclaims()])
    }

    /// Status, statement, visits; and the cursor's next.
    fn scan_next(&self, budget: u32) -> Result<([u32; 3], u32), u32> {
        self.capacity()?;
        let bound = [self.cursor[0], self.cursor[1], self.cursor[2]];
        let (chain, mut n) = (self.cursor[SCAN_CHAIN], self.cursor[SCAN_NEXT]);
        if self.cursor[SCAN_RECLAIMS] != self.reclaims() {
            return Err(13);
        }
        if bound.iter().any(|&number| number > self.r()) || self.place_refused(bound, chain, n) {
            return Err(6);
        }
        if budget == 0 {
            return Err(7);
        }
        let mut visits = 0;
        loop {
            if n == 0 {
                return Ok(([ENDED, 0, visits], 0));
            }
            if visits == budget {
                return Ok(([SPENT, 0, visits], n));
            }
            self.visit(chain, bound, n)?;
            visits += 1;
            let (at, triple) = (n, self.triple(n));
            n = self.after(chain, n);
            if self.flag(at) == 0 && (0..PLACES).all(|place| bound[place] == 0 || bound[place] == triple[place]) {
                return Ok(([FOUND, at, visits], n));
            }
        }
    }

    /// Whether a word of a question is a resource's number or a variable's.
    pub fn word_fits(&self, w: u32) -> bool {
        self.is_resource(w) || (w >= FIRST_VARIABLE && w - FIRST_VARIABLE < VARIABLES as u32)
    }

    fn words_refused(&self, words: &[u32]) -> bool {
        words.len() % PLACES != 0 || words.len() > PLACES * MAX_PATTERNS || !words.iter().all(|&w| self.word_fits(w))
    }

    fn query_open(&self, words: &[u32]) -> Result<QueryCursor, u32> {
        self.capacity()?;
        if self.words_refused(words) {
            return Err(8);
        }
        Ok(self.outside(START))
    }

    /// The solution with which a record matches a pattern under the variables bound so far, if it does. Its resources are known.
    fn matched(&self, pattern: &[u32], bound: [u32; VARIABLES], n: u32) -> Option<[u32; VARIABLES]> {
        let mut solution = bound;
        for place in 0..PLACES {
            let (word, member) = (pattern[place], self.member(n, place));
            if word >= FIRST_VARIABLE {
                let variable = &mut solution[(word - FIRST_VARIABLE) as usize];
                if *variable == 0 {
                    *variable = member;
                }
                if *variable != member {
                    return None;
                }
            } else if word != member {
                return None;
            }
        }
        Some(solution)
    }

    /// Status, visits and solution; and the cursor.
    fn query_next(&self, words: &[u32], budget: u32) -> Result<(u32, u32, [u32; VARIABLES], QueryCursor), u32> {
        self.capacity()?;
        if self.words_refused(words) {
            return Err(8);
        }
        if self.cursor[QUERY_RECLAIMS] != self.reclaims() {
            return Err(13);
        }
        let patterns: Vec<&[u32]> = words.chunks(PLACES).collect();
        if self.cursor[0] > END || self.cursor[0] == WITHIN && self.cursor[1] as usize > patterns.len() {
            return Err(6);
        }

        // The levels of the cursor: chain and record, and before each the variables that the earlier records bind.
        let mut levels: Vec<(u32, u32)> = vec![];
        let mut solutions: Vec<[u32; VARIABLES]> = vec![[0; VARIABLES]];
        if self.cursor[0] == WITHIN {
            let given = self.cursor[1] as usize;
            for k in 0..given {
                let (chain, record) = (self.cursor[LEVELS + 2 * k], self.cursor[LEVELS + 2 * k + 1]);
                let bound = bound_places(patterns[k], &solutions[k]);
                if k + 1 < given {
                    if self.chain_refused(bound, chain) || record == 0 || record > self.t() || !self.resources_known(record) {
                        return Err(6);
                    }
                    solutions.push(self.matched(patterns[k], solutions[k], record).ok_or(6u32)?);
                } else if self.place_refused(bound, chain, record) {
                    return Err(6);
                }
                levels.push((chain, record));
            }
        }
        if budget == 0 {
            return Err(7);
        }
        let ended = |visits| Ok((ENDED, visits, [0; VARIABLES], self.outside(END)));
        if self.cursor[0] == END {
            return ended(0);
        }
        if patterns.is_empty() {
            return Ok((FOUND, 0, [0; VARIABLES], self.outside(END)));
        }
        if levels.is_empty() {
            levels.push(self.pick(bound_places(patterns[0], &solutions[0]))?);
        }

        // The entered records before the deepest: their flags and nexts, and the first that is retracted.
        let entered = levels.len() - 1;
        if levels[..entered].iter().any(|&(chain, n)| self.flag(n) > 1 || self.after(chain, n) >= n) {
            return Err(9);
        }
        if let Some(k) = levels[..entered].iter().position(|&(_, n)| self.flag(n) == 1) {
            levels.truncate(k + 1);
            solutions.truncate(k + 1);
            levels[k].1 = self.after(levels[k].0, levels[k].1);
        }

        let mut visits = 0;
        loop {
            if visits == budget {
                let (_, deepest) = levels[levels.len() - 1];
                let above = &levels[..levels.len() - 1];
                if deepest != 0 || above.iter().any(|&(chain, n)| self.after(chain, n) != 0) {
                    return Ok((SPENT, visits, [0; VARIABLES], self.within(&levels)));
                }
                return ended(visits);
            }
            // A further visit is sought: leave the chains that have run out.
            while levels[levels.len() - 1].1 == 0 {
                levels.pop();
                solutions.pop();
                match levels.last_mut() {
                    None => return ended(visits),
                    Some((chain, n)) => *n = self.after(*chain, *n),
                }
            }
            let k = levels.len() - 1;
            let (chain, n) = levels[k];
            self.visit(chain, bound_places(patterns[k], &solutions[k]), n)?;
            visits += 1;
            match self.matched(patterns[k], solutions[k], n) {
                Some(solution) if self.flag(n) == 0 => {
                    if k + 1 == patterns.len() {
                        levels[k].1 = self.after(chain, n);
                        return Ok((FOUND, visits, solution, self.within(&levels)));
                    }
                    levels.push(self.pick(bound_places(patterns[k + 1], &solution))?);
                    solutions.push(solution);
                }
                _ => levels[k].1 = self.after(chain, n),
            }
        }
    }

    /// The lines of the live statements, in the order of their numbers. Every statement is read, and each of its resources is named.
    pub fn lines(&self) -> Result<Vec<Vec<u8>>, u32> {
        self.capacity()?;
        let mut lines = vec![];
        for n in 1..=self.t() {
            let [subject, predicate, object, flag] = self.statement(n)?;
            let mut line = vec![];
            for number in [subject, predicate, object] {
                let (start, length) = self.name(number)?;
                line.extend_from_slice(&self.text[start as usize..][..length as usize]);
                line.push(b' ');
            }
            line.extend_from_slice(b".\n");
            if flag == 0 {
                lines.push(line);
            }
        }
        Ok(lines)
    }

    /// The lines in rising byte order, one after another.
    pub fn file(&self) -> Result<Vec<u8>, u32> {
        let mut lines = self.lines()?;
        lines.sort();
        Ok(lines.concat())
    }

    fn export(&mut self) -> Result<u32, u32> {
        let (file, t) = (self.file()?, self.t() as usize);
        if self.out.len() < file.len() || self.work.len() < t {
            return Err(11);
        }
        self.out[..file.len()].copy_from_slice(&file);
        self.work[..t].fill(0);
        Ok(file.len() as u32)
    }

    /// The start or the end of a question.
    fn outside(&self, place: u32) -> QueryCursor {
        let mut cursor = [0; QUERY_CURSOR_WORDS];
        cursor[0] = place;
        cursor[QUERY_RECLAIMS] = self.reclaims();
        cursor
    }

    /// A question's place within.
    fn within(&self, levels: &[(u32, u32)]) -> QueryCursor {
        let mut cursor = self.outside(WITHIN);
        cursor[1] = levels.len() as u32;
        for (k, &(chain, record)) in levels.iter().enumerate() {
            cursor[LEVELS + 2 * k] = chain;
            cursor[LEVELS + 2 * k + 1] = record;
        }
        cursor
    }
}

/// The resource that each place of a pattern is bound to, or 0.
fn bound_places(pattern: &[u32], solution: &[u32; VARIABLES]) -> [u32; 3] {
    [0, 1, 2].map(|place| match pattern[place] {
        word if word >= FIRST_VARIABLE => solution[(word - FIRST_VARIABLE) as usize],
        word => word,
    })
}

/// Writes an answer's words at the front of a slice, or zeros beside a refusal, and gives the result's number.
fn put(reply: &mut [u32], length: usize, answer: Result<Vec<u32>, u32>) -> u32 {
    let (result, words) = match answer {
        Ok(words) => (0, words),
        Err(refusal) => (refusal, vec![0; length]),
    };
    reply[..length].copy_from_slice(&words);
    result
}

impl Call {
    /// Whether the call is one of the C header's structs, and the library has no function of it.
    pub fn of_the_header(&self) -> bool {
        matches!(self, Call::Number { .. } | Call::Live { .. })
    }

    /// Whether the call takes the five slices of the store.
    pub fn takes_tables(&self) -> bool {
        !matches!(self, Call::NameKind { .. } | Call::ReadLine { .. })
    }

    /// The name, its beginning or the text of lines that the call is given; empty if it takes none.
    pub fn bytes(&self) -> &[u8] {
        match self {
            Call::NameKind { name } | Call::Find { name } | Call::Number { name } | Call::Enter { name } => name,
            Call::NamesWithPrefix { prefix } => prefix,
            Call::ReadLine { line_text, .. } => line_text,
            _ => &[],
        }
    }

    /// The words of the question that the call is given; empty if it takes none.
    pub fn words(&self) -> &[u32] {
        match self {
            Call::QueryOpen { words } | Call::QueryNext { words, .. } => words,
            _ => &[],
        }
    }

    pub fn cursor_words(&self) -> usize {
        match self {
            Call::ScanOpen { .. } | Call::ScanNext { .. } => SCAN_CURSOR_WORDS,
            Call::QueryOpen { .. } | Call::QueryNext { .. } => QUERY_CURSOR_WORDS,
            _ => 0,
        }
    }

    /// Words of the reply; a line's are in `line_reply`.
    pub fn reply_words(&self) -> usize {
        match self {
            Call::NameKind { .. } | Call::Check | Call::NamesWithPrefix { .. } | Call::Number { .. } | Call::Live { .. } => 1,
            Call::Enter { .. } | Call::Retract { .. } | Call::Export => 1,
            Call::Find { .. } | Call::Name { .. } | Call::Assert { .. } => 2,
            Call::ScanNext { .. } => 3,
            Call::Statement { .. } => 4,
            Call::QueryNext { .. } => QUERY_REPLY_WORDS,
            Call::ReadLine { .. } | Call::Reclaim | Call::ScanOpen { .. } | Call::QueryOpen { .. } => 0,
        }
    }

    pub fn line_words(&self) -> usize {
        match self {
            Call::ReadLine { .. } => LINE_WORDS,
            _ => 0,
        }
    }

    /// Whether counters, cursor or reply have fewer words than the call needs.
    pub fn lacks_words(&self, lent: &Lent) -> bool {
        self.takes_tables() && lent.counters.len() < COUNTER_WORDS
            || lent.cursor.len() < self.cursor_words()
            || lent.reply.len() < self.reply_words()
            || lent.line_reply.len() < self.line_words()
    }

    /// Makes the call on what is lent, as the paper says.
    pub fn make(&self, lent: &mut Lent) -> Expected {
        if self.lacks_words(lent) {
            return Expected::Exactly(100);
        }
        let by_name = match self {
            Call::Find { name } | Call::Number { name } | Call::Enter { name } => kind_of(name).is_some(),
            Call::NamesWithPrefix { prefix } => prefix.len() <= MAX_NAME,
            _ => false,
        };
        if by_name && lent.within_capacity() && lent.names().is_none() {
            return Expected::Bounded;
        }
        let answer: Result<Vec<u32>, u32> = match self {
            Call::NameKind { name } => kind_of(name).map(|kind| vec![kind]).ok_or(2),
            Call::ReadLine { line_text, at } => return Expected::Exactly(put_line(lent, line_text, *at)),
            Call::Check => Ok(vec![lent.sound() as u32]),
            Call::Find { name } => lent.find(name).map(|(n, position)| vec![n, position]),
            Call::Number { name } => lent.number(name).map(|n| vec![n]),
            Call::NamesWithPrefix { prefix } => lent.names_with_prefix(prefix).map(|listed| {
                lent.numbers.iter_mut().zip(&listed).for_each(|(word, &number)| *word = number);
                vec![listed.len() as u32]
            }),
            Call::Enter { name } => lent.enter(name).map(|n| vec![n]),
            Call::Name { number } => lent.name(*number).map(|(start, length)| vec![start, length]),
            Call::Live { number, position } => lent.live_count(*number, *position).map(|live| vec![live]),
            Call::Statement { number } => lent.statement(*number).map(|words| words.to_vec()),
            Call::Assert { triple } => lent.assert(*triple).map(|(status, n)| vec![status, n]),
            Call::Retract { triple } => lent.retract(*triple).map(|n| vec![n]),
            Call::Reclaim => lent.reclaim().map(|()| vec![]),
            Call::ScanOpen { pattern } => lent.scan_open(*pattern).map(|cursor| {
                lent.cursor[..SCAN_CURSOR_WORDS].copy_from_slice(&cursor);
                vec![]
            }),
            Call::ScanNext { budget } => lent.scan_next(*budget).map(|(words, next)| {
                lent.cursor[SCAN_NEXT] = next;
                words.to_vec()
            }),
            Call::QueryOpen { words } => lent.query_open(words).map(|cursor| {
                lent.cursor[..QUERY_CURSOR_WORDS].copy_from_slice(&cursor);
                vec![]
            }),
            Call::QueryNext { words, budget } => lent.query_next(words, *budget).map(|(status, visits, solution, cursor)| {
                lent.cursor[..QUERY_CURSOR_WORDS].copy_from_slice(&cursor);
                [&[status, visits], &solution[..]].concat()
            }),
            Call::Export => lent.export().map(|length| vec![length]),
        };
        Expected::Exactly(put(&mut lent.reply, self.reply_words(), answer))
    }

    /// What holds of find, a name's number, names by their beginning and enter where the dictionary is not sound: 9, which writes nothing
    /// but zeros into the reply; or what is within bounds, and writes nothing beyond them.
    pub fn bounds_kept(&self, before: &Lent, result: u32, after: &Lent) -> Result<(), String> {
        let words = self.reply_words();
        let mut expected = before.clone();
        let within = match self {
            _ if result == 9 => Some(vec![0; words]),
            Call::Find { .. } => (result == 0).then(|| found_within(before, after)).flatten(),
            Call::Number { .. } if result == 4 => Some(vec![0]),
            Call::Number { .. } => (result == 0 && before.is_resource(after.reply[0])).then(|| vec![after.reply[0]]),
            Call::NamesWithPrefix { .. } => (result == 0).then(|| listed_within(before, after, &mut expected)).flatten(),
            Call::Enter { name } => entered_within(without_ending(name), before, result, after, &mut expected),
            _ => return Err("only find, a name's number, names by their beginning and enter are bounded".into()),
        };
        let answer = &after.reply[..words];
        let Some(reply) = within else { return Err(format!("{result} with {answer:?} is out of bounds")) };
        expected.reply[..words].copy_from_slice(&reply);
        if expected == *after {
            Ok(())
        } else {
            Err(format!("{result} with {answer:?} wrote what it may not"))
        }
    }
}

/// An answer of find that is within bounds: 0 and a position up to R, or a number up to R and a position below R.
fn found_within(before: &Lent, after: &Lent) -> Option<Vec<u32>> {
    let (number, position, r) = (after.reply[0], after.reply[1], before.r());
    let within = number <= r && if number == 0 { position <= r } else { position < r };
    within.then(|| vec![number, position])
}

/// A listing that is within bounds: a total up to R, and any numbers in as many words of the list.
fn listed_within(before: &Lent, after: &Lent, expected: &mut Lent) -> Option<Vec<u32>> {
    let total = after.reply[0];
    let filled = before.numbers.len().min(total as usize);
    expected.numbers[..filled].copy_from_slice(&after.numbers[..filled]);
    (total <= before.r()).then(|| vec![total])
}

/// An answer of enter that is within bounds: a number up to R; or 3 or R + 1, by the room there is for the name without the string ending.
/// Only an answer of R + 1 writes: the index, record R + 1, text from B on, and the counters.
fn entered_within(name: &[u8], before: &Lent, result: u32, after: &Lent, expected: &mut Lent) -> Option<Vec<u32>> {
    let (answer, room) = (after.reply[0], before.room_for_name(name.len()));
    match result {
        3 if !room => Some(vec![0]),
        0 if before.is_resource(answer) => Some(vec![answer]),
        0 if room && answer == before.r() + 1 => {
            let (r, b) = (before.r() as usize, before.b() as usize);
            expected.counters[0] += 1;
            expected.counters[2] += name.len() as u32 + 1;
            expected.index = after.index.clone();
            let record = r * RESOURCE_WORDS..(r + 1) * RESOURCE_WORDS;
            expected.resources[record.clone()].copy_from_slice(&after.resources[record]);
            expected.text[b..].copy_from_slice(&after.text[b..]);
            Some(vec![answer])
        }
        _ => None,
    }
}

fn put_line(lent: &mut Lent, text: &[u8], at: usize) -> u32 {
    let (line, after) = read_line(text, at);
    let mut words = [0; LINE_WORDS];
    words[1] = after as u64;
    let result = match line {
        Line::End => 0,
        Line::Nothing => {
            words[0] = 1;
            0
        }
        Line::Triple(parts) => {
            words[0] = 2;
            for (k, (start, length)) in parts.into_iter().enumerate() {
                words[2 + 2 * k] = start as u64;
                words[3 + 2 * k] = length as u64;
            }
            0
        }
        Line::Broken { offset } => {
            words[2] = offset as u64;
            10
        }
    };
    lent.line_reply[..LINE_WORDS].copy_from_slice(&words);
    result
}

/// The first places where a slice is not what it was, for a report.
fn changed<T: PartialEq + Display>(name: &str, now: &[T], then: &[T]) -> String {
    const TOLD: usize = 300;
    let places: Vec<usize> = (0..now.len()).filter(|&k| now[k] != then[k]).collect();
    let mut told: String = places.iter().take(TOLD).map(|&k| format!(", {name}[{k}] {} to {}", then[k], now[k])).collect();
    if places.len() > TOLD {
        told += &format!(", and {} more", places.len() - TOLD);
    }
    told
}

impl Lent {
    /// The reply, and which words differ from those before, for a report.
    pub fn changes(&self, before: &Lent) -> String {
        let mut told = format!("reply {:?} {:?}", self.reply, self.line_reply);
        let slices = [
            ("counters", &self.counters, &before.counters),
            ("resources", &self.resources, &before.resources),
            ("statements", &self.statements, &before.statements),
            ("index", &self.index, &before.index),
            ("cursor", &self.cursor, &before.cursor),
            ("numbers", &self.numbers, &before.numbers),
            ("work", &self.work, &before.work),
        ];
        slices.into_iter().for_each(|(name, now, then)| told += &changed(name, now, then));
        told += &changed("text", &self.text, &before.text);
        told += &changed("out", &self.out, &before.out);
        told
    }
}
