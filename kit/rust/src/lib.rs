//! The Lemontiller store for Rust, `std` only. A [`Store`] holds the five slices that the caller lends, so the borrow checker sees to it
//! that one table is not lent twice, that nothing is written while a scan or a solution is read through an iterator, and that a name
//! does not outlive its text. Refusals are values of [`Error`], slices that are too short among them. Cursors are plain arrays, which the
//! caller may keep while the store changes, up to the next [`Store::reclaim`]; the header says what they see then.
//!
//! A name is looked up by [`Store::find`], which answers where it is not there, and by [`Store::number`], which refuses that. A place of a
//! scan's pattern is a [`Place`]: any is spelled out, and a name that is not there cannot turn into it.
//!
//! A literal that has the string ending, `^^<http://www.w3.org/2001/XMLSchema#string>`, is the literal without it: entering, finding and
//! reading a line drop it. The 255 bytes that a name may have are those of the name as spelled.
//!
//! `include/lemontiller.h` has the layout of the tables and what each refusal means.

#![deny(missing_docs, missing_debug_implementations)]

use std::{fmt, mem, slice};

pub mod ffi;

#[cfg(test)]
mod tests;

/// The number of this wrapper's version, as [`version`] gives the library's: the two belong together where they are equal.
pub const VERSION_NUMBER: u32 = 2_000;

/// Words of the counters.
pub const COUNTER_WORDS: usize = 4;
/// Words of a resource's record.
pub const RESOURCE_WORDS: usize = 11;
/// Words of a statement's record.
pub const STATEMENT_WORDS: usize = 7;

/// Where in a resource's record the live counts begin, in the order of [`Position`].
const LIVE: usize = 8;

/// The most patterns of a question.
pub const MAX_PATTERNS: usize = 6;
/// The variables of a question: 0 to 15.
pub const VARIABLES: usize = 16;
const FIRST_VARIABLE: u32 = 1 << 31;

/// The most statements of any store.
pub const MAX_STATEMENTS: usize = 65_535;

/// The most bytes of a statement's line in a file: three names of 255 bytes, three blanks, a dot, LF.
pub const MAX_LINE: usize = 3 * 255 + 5;

/// The most reclaims of a store.
pub const MAX_RECLAIMS: u32 = 65_535;

/// Words of a scan's cursor.
pub const SCAN_CURSOR_WORDS: usize = 6;
/// Words of a question's cursor.
pub const QUERY_CURSOR_WORDS: usize = 3 + 2 * MAX_PATTERNS;
const QUERY_REPLY_WORDS: usize = 2 + VARIABLES;
const LINE_WORDS: usize = 8;

/// Where a scan stands, with the store's number of reclaims at the opening: with any other it is [`Error::StaleCursor`].
pub type ScanCursor = [u32; SCAN_CURSOR_WORDS];
/// Where a question stands, with the number of reclaims as for a [`ScanCursor`]. So its start is what [`Store::query_open`] gives, and
/// zeros are no start once the store has been reclaimed.
pub type QueryCursor = [u32; QUERY_CURSOR_WORDS];

/// A refusal. Nothing is written where one is given, lent words for numbers and memory for a file included. More may come with a later
/// version: [`Error::number`] and the text tell of each.
#[derive(Clone, Copy, Debug, PartialEq, Eq)]
#[non_exhaustive]
pub enum Error {
    /// A counter exceeds its capacity, or the reclaims [`MAX_RECLAIMS`].
    Capacity,
    /// A name that is not well formed, or over 255 bytes; a name's beginning over 255 bytes.
    Malformed,
    /// No room for one more.
    Full,
    /// A number that names nothing; for [`Store::number`] a name that is not there.
    UnknownNumber,
    /// A literal as subject, or a predicate that is no IRI.
    KindNotPermitted,
    /// A cursor that does not fit the store, the pattern or the question.
    BadCursor,
    /// A budget of 0.
    NoBudget,
    /// Words that are no question: over [`MAX_PATTERNS`] patterns, or a number that names nothing.
    BadQuery,
    /// A word that a step needs is out of range; for [`Store::reclaim`] the store is not sound.
    Damaged,
    /// Bytes that are no line.
    BadLine {
        /// That of the first byte in the line that fits no line.
        offset: usize,
    },
    /// Bytes or working words too few for the file of the statements.
    ExportSpace,
    /// No match carries a time; nothing gives it yet, nor those on paths and groups.
    NoTimes,
    /// The cursor has another number of reclaims than the store: open it again.
    StaleCursor,
    /// A reclaim after [`MAX_RECLAIMS`] of them.
    ReclaimLimit,
    /// A text that is no property path.
    BadPath,
    /// Working memory or answer space shorter than a path needs.
    PathSpace,
    /// No group of scans, or an allowance below the number not ended.
    BadGroup,
    /// Counters or a cursor with fewer words than they have.
    TooShort,
}

/// Every refusal: the number that the paper and the C header give to it, and its text.
const REFUSALS: [(Error, u32, &str); 18] = [
    (Error::Capacity, 1, "a counter exceeds its capacity"),
    (Error::Malformed, 2, "the name is not well formed or too long"),
    (Error::Full, 3, "no room for one more"),
    (Error::UnknownNumber, 4, "no such name or number"),
    (Error::KindNotPermitted, 5, "a literal as subject, or a predicate that is no IRI"),
    (Error::BadCursor, 6, "the cursor does not fit the store or the pattern"),
    (Error::NoBudget, 7, "a budget of 0"),
    (Error::BadQuery, 8, "the words are no query"),
    (Error::Damaged, 9, "the tables are damaged"),
    (Error::BadLine { offset: 0 }, 10, "the line cannot be read"),
    (Error::ExportSpace, 11, "the memory is too short for the file"),
    (Error::NoTimes, 12, "no match carries a time"),
    (Error::StaleCursor, 13, "the cursor has another number of reclaims than the store"),
    (Error::ReclaimLimit, 14, "no more reclaims"),
    (Error::BadPath, 15, "the text is no path"),
    (Error::PathSpace, 16, "the memory is too short for the path"),
    (Error::BadGroup, 17, "the scans are no group, or the allowance is below their number"),
    (Error::TooShort, 100, "a lent slice is too short"),
];

impl Error {
    fn row(self) -> &'static (Error, u32, &'static str) {
        let same = |row: &&(Error, u32, &str)| mem::discriminant(&row.0) == mem::discriminant(&self);
        REFUSALS.iter().find(same).expect("every refusal has a row")
    }

    /// The number that the paper and the C header give to this refusal.
    #[must_use]
    pub fn number(self) -> u32 {
        self.row().1
    }

    /// What a function of the store gave back. `offset` matters to 10 alone.
    fn result_of(number: u32, offset: usize) -> Result<(), Error> {
        if number == 0 {
            return Ok(());
        }
        match REFUSALS.iter().find(|row| row.1 == number) {
            Some((Error::BadLine { .. }, ..)) => Err(Error::BadLine { offset }),
            Some((refusal, ..)) => Err(*refusal),
            None => unreachable!("the store gives no result {number}"),
        }
    }
}

impl fmt::Display for Error {
    fn fmt(&self, f: &mut fmt::Formatter<'_>) -> fmt::Result {
        f.write_str(self.row().2)?;
        match self {
            Error::BadLine { offset } => write!(f, ", byte {offset}"),
            _ => Ok(()),
        }
    }
}

impl std::error::Error for Error {}

/// A resource's number, never taken for a statement's. Those of a store are from 1 on; reclaims leave them.
#[derive(Clone, Copy, Debug, PartialEq, Eq, PartialOrd, Ord, Hash)]
pub struct ResourceId(pub u32);
/// A statement's number, never taken for a resource's. Those of a store are from 1 on; a reclaim may give another one.
#[derive(Clone, Copy, Debug, PartialEq, Eq, PartialOrd, Ord, Hash)]
pub struct StatementId(pub u32);

/// What a name names.
#[derive(Clone, Copy, Debug, PartialEq, Eq)]
pub enum Kind {
    /// `<r:21>`.
    Iri,
    /// `_:ct`. One label is one node in all that is entered into a store, also from several files.
    Blank,
    /// `"open"`, `"Nord"@de` or `"18400"^^<t:us>`.
    Literal,
}

/// A place of a triple.
#[derive(Clone, Copy, Debug, PartialEq, Eq)]
pub enum Position {
    /// The first place: an IRI or a blank node.
    Subject,
    /// The second place: an IRI.
    Predicate,
    /// The third place.
    Object,
}

/// A place of a scan's pattern. It is no `Option`, so that what a [`Lookup`] has for a name that is not there is not taken for any:
///
/// ```compile_fail,E0308
/// # fn contacts(store: &lemontiller::Store<'_>) -> Result<usize, lemontiller::Error> {
/// let relay = store.find(b"<r:21>")?.number;
/// Ok(store.scan([relay, None, None])?.count())
/// # }
/// ```
///
/// [`Store::number`] is what a pattern takes:
///
/// ```
/// # use lemontiller::Place;
/// # fn contacts(store: &lemontiller::Store<'_>) -> Result<usize, lemontiller::Error> {
/// let relay = store.number(b"<r:21>")?;
/// Ok(store.scan([Place::Is(relay), Place::Any, Place::Any])?.count())
/// # }
/// ```
#[derive(Clone, Copy, Debug, PartialEq, Eq)]
pub enum Place {
    /// Any resource.
    Any,
    /// This resource. A number of 0 names nothing here too, and is not any.
    Is(ResourceId),
}

/// How much of the tables is in use, and how often the store was reclaimed.
#[derive(Clone, Copy, Debug, PartialEq, Eq)]
pub struct Counters {
    /// R, the resources.
    pub resources: u32,
    /// T, the statements, retracted ones too.
    pub statements: u32,
    /// B, the bytes of the names, a closing zero for each included.
    pub text: u32,
    /// The reclaims so far.
    pub reclaims: u32,
}

/// Where a name stands in the index, or would stand, and its number, if it is there.
#[derive(Clone, Copy, Debug, PartialEq, Eq)]
#[must_use]
pub struct Lookup {
    /// None for a name that is not there. For a pattern take [`Store::number`].
    pub number: Option<ResourceId>,
    /// From 0, so how many names are below it.
    pub position: u32,
}

/// A statement's resources, and whether it is retracted.
#[derive(Clone, Copy, Debug, PartialEq, Eq)]
#[must_use]
pub struct Statement {
    /// What it is about.
    pub subject: ResourceId,
    /// What is said.
    pub predicate: ResourceId,
    /// Of what.
    pub object: ResourceId,
    /// Struck out: no scan and no question finds it.
    pub retracted: bool,
}

/// What became of a triple that was asserted, with its statement's number.
#[derive(Clone, Copy, Debug, PartialEq, Eq)]
pub enum Asserted {
    /// It was not there.
    New(StatementId),
    /// It was live before.
    Already(StatementId),
    /// It was retracted, and has its old number.
    Revived(StatementId),
}

/// What one next call did, within its budget of visits. What it found is not found again.
#[derive(Clone, Copy, Debug, PartialEq, Eq)]
#[must_use = "what was found is not found again"]
pub struct Step<T> {
    /// What it came to.
    pub outcome: Outcome<T>,
    /// The records visited, at most the budget.
    pub visits: u32,
}

/// What one next call came to.
#[derive(Clone, Copy, Debug, PartialEq, Eq)]
#[must_use = "what was found is not found again"]
pub enum Outcome<T> {
    /// The next one: call again with the same cursor for what follows.
    Found(T),
    /// No record remains.
    Ended,
    /// The budget is gone and a record remains: call again with the same cursor.
    Spent,
}

impl<T> Step<T> {
    fn of(status: u32, found: T, visits: u32) -> Step<T> {
        let outcome = match status {
            1 => Outcome::Found(found),
            2 => Outcome::Ended,
            3 => Outcome::Spent,
            _ => unreachable!("the store answers no status {status}"),
        };
        Step { outcome, visits }
    }
}

/// A place of a question's pattern: a resource, or a variable below [`VARIABLES`].
#[derive(Clone, Copy, Debug, PartialEq, Eq)]
pub enum Term {
    /// This resource.
    Resource(ResourceId),
    /// Any resource, the same wherever the variable stands.
    Variable(u8),
}

/// A question: triples that must all be live statements, one resource standing for each variable throughout.
#[derive(Clone, Debug, PartialEq, Eq)]
#[must_use]
pub struct Question {
    words: Vec<u32>,
}

impl Question {
    /// A question of these patterns. What is none is refused where it is asked, [`Error::BadQuery`].
    pub fn new(patterns: &[[Term; 3]]) -> Question {
        let word = |term: &Term| match *term {
            // A number among the variables' words names nothing; 0 is refused, as any number that names nothing is.
            Term::Resource(ResourceId(FIRST_VARIABLE..)) => 0,
            Term::Resource(ResourceId(number)) => number,
            Term::Variable(v) => FIRST_VARIABLE + u32::from(v),
        };
        Question { words: patterns.iter().flatten().map(word).collect() }
    }

    /// A question of raw words, as the C interface has it.
    pub fn from_words(words: &[u32]) -> Question {
        Question { words: words.to_vec() }
    }
}

/// The resource that stands for each variable in one answer to a question.
#[derive(Clone, Copy, Debug, PartialEq, Eq)]
#[must_use]
pub struct Solution {
    numbers: [u32; VARIABLES],
}

impl Solution {
    /// None for a variable that the question does not use.
    #[must_use]
    pub fn get(&self, variable: u8) -> Option<ResourceId> {
        self.numbers.get(usize::from(variable)).and_then(|&number| resource(number))
    }
}

fn resource(number: u32) -> Option<ResourceId> {
    (number != 0).then_some(ResourceId(number))
}

/// The word for a place of a scan's pattern, 0 for any. A resource's number of 0 names nothing and is not to mean any: it goes over as a
/// number that no store has.
fn number_or_any(place: Place) -> u32 {
    match place {
        Place::Any => 0,
        Place::Is(ResourceId(0)) => u32::MAX,
        Place::Is(ResourceId(number)) => number,
    }
}

/// The version of the library that is linked, major * 1,000,000 + minor * 1,000 + patch.
#[must_use]
pub fn version() -> u32 {
    // SAFETY: it takes nothing and gives a number.
    unsafe { ffi::lt_version() }
}

/// The kind of a name, which goes by the name as spelled, or [`Error::Malformed`].
pub fn name_kind(name: &[u8]) -> Result<Kind, Error> {
    let mut reply = [0u32; 1];
    // SAFETY: both slices are whole and live, and they are two.
    let result = unsafe { ffi::lt_name_kind(name.as_ptr(), name.len(), reply.as_mut_ptr(), reply.len()) };
    Error::result_of(result, 0)?;
    Ok(match reply[0] {
        1 => Kind::Iri,
        2 => Kind::Blank,
        _ => Kind::Literal,
    })
}

/// Reads N-Triples, line by line. It carries the text and how far it has read, and moves past a line that it refuses too. What it reads is
/// ASCII, comments too (bytes 32 to 126, and tabs outside of names), with the escapes `\"`, `\\`, `\n` and `\r` alone, labels without a
/// colon and names of at most 255 bytes; `docs/PROGRAMS.md` has the subset exactly, but for the 1,024 bytes that a line may have there.
#[derive(Clone, Debug)]
#[must_use = "lines are read as they are taken"]
pub struct Lines<'t> {
    text: &'t [u8],
    at: usize,
}

/// A line that could be read.
#[derive(Clone, Copy, Debug, PartialEq, Eq)]
pub enum Line<'t> {
    /// A blank line or a comment.
    Nothing,
    /// Subject, predicate, object, the last without the string ending.
    Triple([&'t [u8]; 3]),
}

impl<'t> Lines<'t> {
    /// The lines of a text, from its first.
    pub fn new(text: &'t [u8]) -> Lines<'t> {
        Lines { text, at: 0 }
    }

    /// The position after what has been read.
    #[must_use]
    pub fn position(&self) -> usize {
        self.at
    }
}

impl<'t> Iterator for Lines<'t> {
    type Item = Result<Line<'t>, Error>;

    fn next(&mut self) -> Option<Self::Item> {
        let mut reply = [0u64; LINE_WORDS];
        // SAFETY: both slices are whole and live, and they are two.
        let result = unsafe { ffi::lt_read_line(self.text.as_ptr(), self.text.len(), self.at, reply.as_mut_ptr(), reply.len()) };
        self.at = reply[1] as usize;
        if let Err(error) = Error::result_of(result, reply[2] as usize) {
            return Some(Err(error));
        }
        let part = |k: usize| &self.text[reply[2 + 2 * k] as usize..][..reply[3 + 2 * k] as usize];
        match reply[0] {
            0 => None,
            1 => Some(Ok(Line::Nothing)),
            _ => Some(Ok(Line::Triple([part(0), part(1), part(2)]))),
        }
    }
}

/// Calls a store function with the five slices lent for reading, then the arguments given.
macro_rules! reading {
    ($function:ident, $store:expr $(, $arg:expr)* $(,)?) => {
        // SAFETY: the five slices are held by the store and are whole; what is written is a slice of its own.
        Error::result_of(unsafe {
            ffi::$function(
                $store.counters.as_ptr(), $store.counters.len(),
                $store.resources.as_ptr(), $store.resources.len(),
                $store.statements.as_ptr(), $store.statements.len(),
                $store.index.as_ptr(), $store.index.len(),
                $store.text.as_ptr(), $store.text.len(),
                $($arg),*
            )
        }, 0)
    };
}

/// The same, with the five slices lent for writing: the store is borrowed for it alone.
macro_rules! writing {
    ($function:ident, $store:expr $(, $arg:expr)* $(,)?) => {
        // SAFETY: the five slices are held by the store, borrowed for this call alone, whole and apart from each other.
        Error::result_of(unsafe {
            ffi::$function(
                $store.counters.as_mut_ptr(), $store.counters.len(),
                $store.resources.as_mut_ptr(), $store.resources.len(),
                $store.statements.as_mut_ptr(), $store.statements.len(),
                $store.index.as_mut_ptr(), $store.index.len(),
                $store.text.as_mut_ptr(), $store.text.len(),
                $($arg),*
            )
        }, 0)
    };
}

/// A store over lent tables. With counters of 0 it is fresh, and the tables may hold anything.
///
/// One table cannot be lent twice:
///
/// ```compile_fail,E0499
/// let (mut counters, mut words, mut text) = ([0; lemontiller::COUNTER_WORDS], [0; 64], [0; 64]);
/// lemontiller::Store::new(&mut counters, &mut words, &mut words, &mut [0; 8], &mut text);
/// ```
pub struct Store<'a> {
    counters: &'a mut [u32],
    resources: &'a mut [u32],
    statements: &'a mut [u32],
    index: &'a mut [u32],
    text: &'a mut [u8],
}

/// The counters and the tables' lengths, for the tables may be long.
impl fmt::Debug for Store<'_> {
    fn fmt(&self, f: &mut fmt::Formatter<'_>) -> fmt::Result {
        f.debug_struct("Store")
            .field("counters", &self.counters())
            .field("resource_words", &self.resources.len())
            .field("statement_words", &self.statements.len())
            .field("index_words", &self.index.len())
            .field("text_bytes", &self.text.len())
            .finish()
    }
}

impl<'a> Store<'a> {
    /// Lends the tables. Counters of fewer than [`COUNTER_WORDS`] words are [`Error::TooShort`]; the other slices may have any length.
    pub fn new(
        counters: &'a mut [u32],
        resources: &'a mut [u32],
        statements: &'a mut [u32],
        index: &'a mut [u32],
        text: &'a mut [u8],
    ) -> Result<Store<'a>, Error> {
        if counters.len() < COUNTER_WORDS {
            return Err(Error::TooShort);
        }
        Ok(Store { counters, resources, statements, index, text })
    }

    /// How much of the tables is in use.
    #[must_use]
    pub fn counters(&self) -> Counters {
        let [resources, statements, text, reclaims] = [0, 1, 2, 3].map(|word| self.counters[word]);
        Counters { resources, statements, text, reclaims }
    }

    /// Whether every word of the store is as entering, asserting, retracting and reclaiming leave it. So no name in it has the string ending.
    #[must_use]
    pub fn is_sound(&self) -> bool {
        let mut reply = [0u32; 1];
        reading!(lt_check, self, reply.as_mut_ptr(), reply.len()).is_ok() && reply[0] == 1
    }

    /// The number of a name, or none, and its position in the index: entering the name puts its number there. A literal is sought without
    /// the string ending.
    pub fn find(&self, name: &[u8]) -> Result<Lookup, Error> {
        let mut reply = [0u32; 2];
        reading!(lt_find, self, name.as_ptr(), name.len(), reply.as_mut_ptr(), reply.len())?;
        Ok(Lookup { number: resource(reply[0]), position: reply[1] })
    }

    /// The number of a name that must be there, as for a [`Place`] or a [`Term`]: one that is not is [`Error::UnknownNumber`].
    pub fn number(&self, name: &[u8]) -> Result<ResourceId, Error> {
        self.find(name)?.number.ok_or(Error::UnknownNumber)
    }

    /// Lists the resources whose names begin with `prefix`, up to 255 bytes of any value, in byte order of name: the total. As many of the
    /// first numbers as fit stand in `numbers`; its words past the list keep their values. A longer beginning is [`Error::Malformed`].
    /// On a store that is not sound the total may be any number up to R, and the numbers any words.
    pub fn names_with_prefix(&self, prefix: &[u8], numbers: &mut [u32]) -> Result<u32, Error> {
        let mut reply = [0u32; 1];
        reading!(
            lt_names_with_prefix,
            self,
            prefix.as_ptr(),
            prefix.len(),
            numbers.as_mut_ptr(),
            numbers.len(),
            reply.as_mut_ptr(),
            reply.len(),
        )?;
        Ok(reply[0])
    }

    /// The resources whose names begin with `prefix`, in byte order of name. Nothing is lent for them: on a sound store they stand side by
    /// side in the index, from the position of the first one on. So those of the empty beginning, with as many skipped as a [`Lookup`] has
    /// for its position, are the names from there on. A store that is not sound may give any numbers, or [`Error::Damaged`].
    pub fn with_prefix(&self, prefix: &[u8]) -> Result<WithPrefix<'_>, Error> {
        let mut first = [0];
        let total = self.names_with_prefix(prefix, &mut first)? as usize;
        if total == 0 {
            return Ok(WithPrefix { numbers: [].iter() });
        }
        let [first] = first.map(ResourceId);
        let index = &self.index[..self.counters[0] as usize];
        let found = self.name(first).and_then(|name| self.find(name)).ok().filter(|found| found.number == Some(first));
        let run = found.and_then(|found| index.get(found.position as usize..)?.get(..total));
        Ok(WithPrefix { numbers: run.ok_or(Error::Damaged)?.iter() })
    }

    /// Finds a name, or gives it the next number. A literal is stored without the string ending, and takes no more room than that.
    pub fn enter(&mut self, name: &[u8]) -> Result<ResourceId, Error> {
        let mut reply = [0u32; 1];
        writing!(lt_enter, self, name.as_ptr(), name.len(), reply.as_mut_ptr(), reply.len())?;
        Ok(ResourceId(reply[0]))
    }

    /// The name of a number, a part of the lent text.
    pub fn name(&self, id: ResourceId) -> Result<&[u8], Error> {
        let mut reply = [0u32; 2];
        reading!(lt_name, self, id.0, reply.as_mut_ptr(), reply.len())?;
        Ok(&self.text[reply[0] as usize..][..reply[1] as usize])
    }

    /// How many live statements have a resource at a position, as its record says: nothing is walked. On a sound store it is their number;
    /// on any other it is what the word holds.
    pub fn live(&self, id: ResourceId, position: Position) -> Result<u32, Error> {
        // Opening a question of no patterns tests the counters and nothing else.
        self.query_open(&Question { words: vec![] })?;
        if id.0 == 0 || id.0 > self.counters[0] {
            return Err(Error::UnknownNumber);
        }
        Ok(self.resources[RESOURCE_WORDS * (id.0 as usize - 1) + LIVE + position as usize])
    }

    /// Reads a statement, a retracted one too.
    pub fn statement(&self, id: StatementId) -> Result<Statement, Error> {
        let mut reply = [0u32; 4];
        reading!(lt_statement, self, id.0, reply.as_mut_ptr(), reply.len())?;
        let [subject, predicate, object] = [reply[0], reply[1], reply[2]].map(ResourceId);
        Ok(Statement { subject, predicate, object, retracted: reply[3] == 1 })
    }

    /// Asserts a triple: it is live from now on, and what it was before is told. A retracted one is revived and keeps its old number, but
    /// after a reclaim it is new.
    pub fn assert(&mut self, subject: ResourceId, predicate: ResourceId, object: ResourceId) -> Result<Asserted, Error> {
        let mut reply = [0u32; 2];
        writing!(lt_assert, self, subject.0, predicate.0, object.0, reply.as_mut_ptr(), reply.len())?;
        let id = StatementId(reply[1]);
        Ok(match reply[0] {
            1 => Asserted::New(id),
            2 => Asserted::Already(id),
            3 => Asserted::Revived(id),
            status => unreachable!("the store answers no status {status}"),
        })
    }

    /// The statement that was live until now, or none.
    pub fn retract(
        &mut self,
        subject: ResourceId,
        predicate: ResourceId,
        object: ResourceId,
    ) -> Result<Option<StatementId>, Error> {
        let mut reply = [0u32; 1];
        writing!(lt_retract, self, subject.0, predicate.0, object.0, reply.as_mut_ptr(), reply.len())?;
        Ok((reply[0] != 0).then_some(StatementId(reply[0])))
    }

    /// Gives back the room of retracted statements: the live ones move down in their order and are numbered from 1, names stay. Every
    /// [`StatementId`] from before may name another statement or none, and every cursor is [`Error::StaleCursor`]. A store that is not
    /// sound is [`Error::Damaged`]; after [`MAX_RECLAIMS`] it is [`Error::ReclaimLimit`].
    pub fn reclaim(&mut self) -> Result<(), Error> {
        writing!(lt_reclaim, self)
    }

    /// Opens a scan of the live statements with these resources as subject, predicate and object; a number that names nothing, 0 too, is
    /// [`Error::UnknownNumber`].
    pub fn scan_open(&self, pattern: [Place; 3]) -> Result<ScanCursor, Error> {
        let [subject, predicate, object] = pattern.map(number_or_any);
        let mut cursor = [0; SCAN_CURSOR_WORDS];
        reading!(lt_scan_open, self, subject, predicate, object, cursor.as_mut_ptr(), cursor.len())?;
        Ok(cursor)
    }

    /// Next of a scan, the statement of the highest number first, of those there at its opening and live now. The cursor may be any slice
    /// that holds one; a short one is [`Error::TooShort`].
    pub fn scan_next(&self, cursor: &mut [u32], budget: u32) -> Result<Step<StatementId>, Error> {
        let mut reply = [0u32; 3];
        reading!(lt_scan_next, self, cursor.as_mut_ptr(), cursor.len(), budget, reply.as_mut_ptr(), reply.len())?;
        Ok(Step::of(reply[0], StatementId(reply[1]), reply[2]))
    }

    /// Opens a question of up to [`MAX_PATTERNS`] patterns: the start.
    pub fn query_open(&self, question: &Question) -> Result<QueryCursor, Error> {
        let words = &question.words;
        let mut cursor = [0; QUERY_CURSOR_WORDS];
        reading!(lt_query_open, self, words.as_ptr(), words.len(), cursor.as_mut_ptr(), cursor.len())?;
        Ok(cursor)
    }

    /// Next of a question. The cursor may be any slice that holds one; a short one is [`Error::TooShort`].
    pub fn query_next(&self, question: &Question, cursor: &mut [u32], budget: u32) -> Result<Step<Solution>, Error> {
        let words = &question.words;
        let mut reply = [0u32; QUERY_REPLY_WORDS];
        reading!(
            lt_query_next,
            self,
            words.as_ptr(),
            words.len(),
            cursor.as_mut_ptr(),
            cursor.len(),
            budget,
            reply.as_mut_ptr(),
            reply.len(),
        )?;
        let mut numbers = [0; VARIABLES];
        numbers.copy_from_slice(&reply[2..]);
        Ok(Step::of(reply[0], Solution { numbers }, reply[1]))
    }

    /// Writes the live statements as a file of N-Triples in canonical form, lines in rising byte order: the file's length. Two sound stores
    /// with the same graph give equal files, and loading one into a fresh store of the same capacities gives the graph again. The file
    /// stands at the front of `out`, and as many words at the front of `work` as there are statements, retracted ones too, are 0; what is
    /// lent beyond keeps its values. In this order [`Error::Capacity`], [`Error::Damaged`] if a statement or one of its names cannot be
    /// read, a retracted one's too, [`Error::ExportSpace`] if either is shorter than that. [`MAX_LINE`] bytes a statement are always enough.
    pub fn export(&self, out: &mut [u8], work: &mut [u32]) -> Result<usize, Error> {
        let mut reply = [0u32; 1];
        reading!(lt_export, self, out.as_mut_ptr(), out.len(), work.as_mut_ptr(), work.len(), reply.as_mut_ptr(), reply.len(),)?;
        Ok(reply[0] as usize)
    }

    /// The same file as bytes of its own. This alone asks for memory: at most [`MAX_LINE`] bytes and a word for each statement.
    pub fn export_to_vec(&self) -> Result<Vec<u8>, Error> {
        // More statements than the table holds, or than any table may, are refused, whatever is lent.
        let statements = (self.counters[1] as usize).min(self.statements.len() / STATEMENT_WORDS).min(MAX_STATEMENTS);
        let mut file = vec![0; MAX_LINE * statements];
        let length = self.export(&mut file, &mut vec![0; statements])?;
        file.truncate(length);
        file.shrink_to_fit();
        Ok(file)
    }

    /// All statements of a scan. The store cannot change meanwhile; for that, keep a cursor.
    pub fn scan(&self, pattern: [Place; 3]) -> Result<Scan<'_, 'a>, Error> {
        Ok(Scan { store: self, cursor: self.scan_open(pattern)?, refused: false })
    }

    /// All solutions of a question. The store cannot change meanwhile; for that, keep a cursor.
    pub fn ask<'s>(&'s self, question: &'s Question) -> Result<Solutions<'s, 'a>, Error> {
        Ok(Solutions { store: self, question, cursor: self.query_open(question)?, refused: false })
    }
}

/// The resources whose names begin alike.
#[derive(Clone, Debug)]
#[must_use = "names are listed as they are taken"]
pub struct WithPrefix<'s> {
    numbers: slice::Iter<'s, u32>,
}

impl Iterator for WithPrefix<'_> {
    type Item = ResourceId;

    fn next(&mut self) -> Option<ResourceId> {
        self.numbers.next().copied().map(ResourceId)
    }

    fn nth(&mut self, n: usize) -> Option<ResourceId> {
        self.numbers.nth(n).copied().map(ResourceId)
    }

    fn size_hint(&self) -> (usize, Option<usize>) {
        self.numbers.size_hint()
    }
}

impl ExactSizeIterator for WithPrefix<'_> {}

/// The statements of a scan; a refusal is given once and ends it.
#[derive(Debug)]
#[must_use = "statements are found as they are taken"]
pub struct Scan<'s, 'a> {
    store: &'s Store<'a>,
    cursor: ScanCursor,
    refused: bool,
}

impl Iterator for Scan<'_, '_> {
    type Item = Result<StatementId, Error>;

    fn next(&mut self) -> Option<Self::Item> {
        while !self.refused {
            match self.store.scan_next(&mut self.cursor, u32::MAX).map(|step| step.outcome) {
                Ok(Outcome::Found(id)) => return Some(Ok(id)),
                Ok(Outcome::Ended) => return None,
                Ok(Outcome::Spent) => continue,
                Err(error) => {
                    self.refused = true;
                    return Some(Err(error));
                }
            }
        }
        None
    }
}

/// The solutions of a question; a refusal is given once and ends them.
#[derive(Debug)]
#[must_use = "solutions are found as they are taken"]
pub struct Solutions<'s, 'a> {
    store: &'s Store<'a>,
    question: &'s Question,
    cursor: QueryCursor,
    refused: bool,
}

impl Iterator for Solutions<'_, '_> {
    type Item = Result<Solution, Error>;

    fn next(&mut self) -> Option<Self::Item> {
        while !self.refused {
            match self.store.query_next(self.question, &mut self.cursor, u32::MAX).map(|step| step.outcome) {
                Ok(Outcome::Found(solution)) => return Some(Ok(solution)),
                Ok(Outcome::Ended) => return None,
                Ok(Outcome::Spent) => continue,
                Err(error) => {
                    self.refused = true;
                    return Some(Err(error));
                }
            }
        }
        None
    }
}
