//! A call through the C interface, of a function itself or by the structs of its header. Everything lent stands between guard words, so
//! that a write outside of it shows; names, their beginnings, lines and questions are lent as copies, and must be as they were afterwards.

use crate::plain::{Call, Lent};
use crate::structs;
use lemontiller::ffi;
use std::ptr;

const GUARDS: usize = 16;

/// A slice between guards.
struct Guarded<T> {
    all: Vec<T>,
    guard: T,
}

impl<T: Copy + PartialEq> Guarded<T> {
    fn new(contents: &[T], guard: T) -> Guarded<T> {
        let mut all = Vec::with_capacity(contents.len() + 2 * GUARDS);
        all.resize(GUARDS, guard);
        all.extend_from_slice(contents);
        all.resize(contents.len() + 2 * GUARDS, guard);
        Guarded { all, guard }
    }

    /// The slice as it is lent, or null for none at all.
    fn lend(&mut self, or_null: bool) -> (*mut T, usize) {
        let length = self.all.len() - 2 * GUARDS;
        if or_null && length == 0 {
            return (ptr::null_mut(), 0);
        }
        (self.all[GUARDS..].as_mut_ptr(), length)
    }

    /// What the slice holds, if its guards are as they were.
    fn unguarded(self, name: &str) -> Result<Vec<T>, String> {
        let end = self.all.len() - GUARDS;
        if self.all[..GUARDS].iter().chain(&self.all[end..]).any(|&word| word != self.guard) {
            return Err(format!("the library wrote outside of {name}"));
        }
        Ok(self.all[GUARDS..end].to_vec())
    }
}

/// How a call is made.
#[derive(Clone, Copy, Debug, PartialEq)]
pub enum Way {
    /// The library's function.
    Slices,
    /// The header's function on structs, for which counters, cursor and reply must have their words.
    Structs,
    /// The same, with null for every slice that is empty.
    StructsOrNull,
}

/// Makes the call on a copy of what is lent: its result, and what the copy holds afterwards.
pub fn make(call: &Call, lent: &Lent, way: Way) -> Result<(u32, Lent), String> {
    assert!(if way == Way::Slices { !call.of_the_header() } else { !call.lacks_words(lent) });
    const WORD: u32 = 0xA5A5_5A5A;
    let mut counters = Guarded::new(&lent.counters, WORD);
    let mut resources = Guarded::new(&lent.resources, WORD);
    let mut statements = Guarded::new(&lent.statements, WORD);
    let mut index = Guarded::new(&lent.index, WORD);
    let mut text = Guarded::new(&lent.text, 0xA5);
    let mut cursor = Guarded::new(&lent.cursor, WORD);
    let mut numbers = Guarded::new(&lent.numbers, WORD);
    let mut file = Guarded::new(&lent.out, 0xA5);
    let mut work = Guarded::new(&lent.work, WORD);
    let mut reply = Guarded::new(&lent.reply, WORD);
    let mut line_reply = Guarded::new(&lent.line_reply, 0xA5A5_5A5A_A5A5_5A5A);

    let mut bytes = Guarded::new(call.bytes(), 0xA5);
    let mut question = Guarded::new(call.words(), WORD);

    let or_null = way == Way::StructsOrNull;
    let (c, c_len) = counters.lend(or_null);
    let (r, r_len) = resources.lend(or_null);
    let (s, s_len) = statements.lend(or_null);
    let (i, i_len) = index.lend(or_null);
    let (t, t_len) = text.lend(or_null);
    let (at, at_len) = cursor.lend(or_null);
    let (list, list_len) = numbers.lend(or_null);
    let (f, f_len) = file.lend(or_null);
    let (w, w_len) = work.lend(or_null);
    let (out, out_len) = reply.lend(or_null);
    let (line, line_len) = line_reply.lend(or_null);
    let (name, name_len) = bytes.lend(or_null);
    let (words, words_len) = question.lend(or_null);
    macro_rules! store {
        ($function:ident $(, $arg:expr)*) => {
            ffi::$function(c, c_len, r, r_len, s, s_len, i, i_len, t, t_len $(, $arg)*)
        };
    }
    macro_rules! by_structs {
        ($function:ident $(, $arg:expr)*) => {
            structs::$function(c, r, r_len, s, s_len, i, i_len, t, t_len $(, $arg)*)
        };
    }
    // SAFETY: every pointer and length is that of a live slice, but for null at length 0, which the structs take; and those that are
    // written are apart from each other. What is lent without a length has all its words.
    let result = unsafe {
        match way {
            Way::Slices => match call {
                Call::NameKind { .. } => ffi::lt_name_kind(name, name_len, out, out_len),
                Call::ReadLine { at, .. } => ffi::lt_read_line(name, name_len, *at, line, line_len),
                Call::Check => store!(lt_check, out, out_len),
                Call::Find { .. } => store!(lt_find, name, name_len, out, out_len),
                Call::NamesWithPrefix { .. } => store!(lt_names_with_prefix, name, name_len, list, list_len, out, out_len),
                Call::Enter { .. } => store!(lt_enter, name, name_len, out, out_len),
                Call::Name { number } => store!(lt_name, *number, out, out_len),
                Call::Statement { number } => store!(lt_statement, *number, out, out_len),
                Call::Assert { triple: [a, b, o] } => store!(lt_assert, *a, *b, *o, out, out_len),
                Call::Retract { triple: [a, b, o] } => store!(lt_retract, *a, *b, *o, out, out_len),
                Call::Reclaim => store!(lt_reclaim),
                Call::ScanOpen { pattern: [a, b, o] } => store!(lt_scan_open, *a, *b, *o, at, at_len),
                Call::ScanNext { budget } => store!(lt_scan_next, at, at_len, *budget, out, out_len),
                Call::QueryOpen { .. } => store!(lt_query_open, words, words_len, at, at_len),
                Call::QueryNext { budget, .. } => store!(lt_query_next, words, words_len, at, at_len, *budget, out, out_len),
                Call::Export => store!(lt_export, f, f_len, w, w_len, out, out_len),
                Call::Number { .. } | Call::Live { .. } => unreachable!("the library has no such function"),
            },
            Way::Structs | Way::StructsOrNull => match call {
                Call::NameKind { .. } => structs::structs_name_kind(name, name_len, out),
                Call::ReadLine { at, .. } => structs::structs_read_line(name, name_len, *at, line),
                Call::Check => by_structs!(structs_check, out),
                Call::Find { .. } => by_structs!(structs_find, name, name_len, out),
                Call::Number { .. } => by_structs!(structs_number, name, name_len, out),
                Call::NamesWithPrefix { .. } => by_structs!(structs_names_with_prefix, name, name_len, list, list_len, out),
                Call::Enter { .. } => by_structs!(structs_enter, name, name_len, out),
                Call::Name { number } => by_structs!(structs_name, *number, out),
                Call::Live { number, position } => by_structs!(structs_live, *number, *position, out),
                Call::Statement { number } => by_structs!(structs_statement, *number, out),
                Call::Assert { triple: [a, b, o] } => by_structs!(structs_assert, *a, *b, *o, out),
                Call::Retract { triple: [a, b, o] } => by_structs!(structs_retract, *a, *b, *o, out),
                Call::Reclaim => by_structs!(structs_reclaim),
                Call::ScanOpen { pattern: [a, b, o] } => by_structs!(structs_scan_open, *a, *b, *o, at),
                Call::ScanNext { budget } => by_structs!(structs_scan_next, at, *budget, out),
                Call::QueryOpen { .. } => by_structs!(structs_query_open, words, words_len, at),
                Call::QueryNext { budget, .. } => by_structs!(structs_query_next, words, words_len, at, *budget, out),
                Call::Export => by_structs!(structs_export, f, f_len, w, w_len, out),
            },
        }
    };
    if bytes.unguarded("the name or line")? != call.bytes() || question.unguarded("the question")? != call.words() {
        return Err("the library wrote into a name, a line or a question".to_string());
    }
    let after = Lent {
        counters: counters.unguarded("counters")?,
        resources: resources.unguarded("resources")?,
        statements: statements.unguarded("statements")?,
        index: index.unguarded("index")?,
        text: text.unguarded("text")?,
        cursor: cursor.unguarded("cursor")?,
        numbers: numbers.unguarded("numbers")?,
        out: file.unguarded("the output")?,
        work: work.unguarded("the working words")?,
        reply: reply.unguarded("reply")?,
        line_reply: line_reply.unguarded("reply")?,
    };
    Ok((result, after))
}
