//! The seventeen functions of `include/lemontiller.h` as they are: pointers, lengths in elements, and a result. The header has a sentence
//! for each. Pointers may not be null, also at length 0 (those of a slice never are), and slices that are written may not overlap others.

/// Declares store functions, each after the five slices with which it begins. `mut` marks the slices that the function writes.
macro_rules! store_functions {
    ($(#[$doc:meta] $name:ident($counters:tt $resources:tt $statements:tt $index:tt $text:tt; $($arg:ident: $ty:ty),* $(,)?);)*) => {
        extern "C" {
            $(#[$doc] pub fn $name(
                counters: *$counters u32, counters_len: usize,
                resources: *$resources u32, resources_len: usize,
                statements: *$statements u32, statements_len: usize,
                index: *$index u32, index_len: usize,
                text: *$text u8, text_len: usize,
                $($arg: $ty),*
            ) -> u32;)*
        }
    };
}

extern "C" {
    /// The version of the library as a number.
    pub fn lt_version() -> u32;
    /// The kind of a name.
    pub fn lt_name_kind(name: *const u8, name_len: usize, reply: *mut u32, reply_len: usize) -> u32;
    /// Reads the line at a position of a text.
    pub fn lt_read_line(text: *const u8, text_len: usize, at: usize, reply: *mut u64, reply_len: usize) -> u32;
}

store_functions! {
    /// Whether the store is sound.
    lt_check(const const const const const; reply: *mut u32, reply_len: usize);
    /// Finds a name: its number or 0, and its position.
    lt_find(const const const const const; name: *const u8, name_len: usize, reply: *mut u32, reply_len: usize);
    /// Lists the resources whose names begin with given bytes.
    lt_names_with_prefix(
        const const const const const;
        prefix: *const u8, prefix_len: usize, numbers: *mut u32, numbers_len: usize, reply: *mut u32, reply_len: usize,
    );
    /// Enters a name.
    lt_enter(mut mut const mut mut; name: *const u8, name_len: usize, reply: *mut u32, reply_len: usize);
    /// The name of a number, as a part of the text.
    lt_name(const const const const const; number: u32, reply: *mut u32, reply_len: usize);
    /// Reads a statement.
    lt_statement(const const const const const; number: u32, reply: *mut u32, reply_len: usize);
    /// Asserts a triple.
    lt_assert(mut mut mut const const; subject: u32, predicate: u32, object: u32, reply: *mut u32, reply_len: usize);
    /// Retracts a triple.
    lt_retract(const mut mut const const; subject: u32, predicate: u32, object: u32, reply: *mut u32, reply_len: usize);
    /// Gives back the room of retracted statements.
    lt_reclaim(mut mut mut const const;);
    /// Opens a scan, 0 for any.
    lt_scan_open(const const const const const; subject: u32, predicate: u32, object: u32, cursor: *mut u32, cursor_len: usize);
    /// Next of a scan.
    lt_scan_next(const const const const const; cursor: *mut u32, cursor_len: usize, budget: u32, reply: *mut u32, reply_len: usize);
    /// Opens a question.
    lt_query_open(const const const const const; words: *const u32, words_len: usize, cursor: *mut u32, cursor_len: usize);
    /// Next of a question.
    lt_query_next(
        const const const const const;
        words: *const u32, words_len: usize, cursor: *mut u32, cursor_len: usize, budget: u32, reply: *mut u32, reply_len: usize,
    );
    /// Writes the live statements as a file.
    lt_export(
        const const const const const;
        out: *mut u8, out_len: usize, work: *mut u32, work_len: usize, reply: *mut u32, reply_len: usize,
    );
}
