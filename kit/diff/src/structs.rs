//! The functions of `c/structs.c`, which go through the structs of the header. Each takes what the library's function takes whose name it
//! has; counters, cursor and reply have all their words and come without a length, and an empty slice may come as null. Number and live
//! are the header's own.

/// Declares store functions, each after the five slices with which it begins.
macro_rules! store_functions {
    ($($name:ident($($arg:ident: $ty:ty),*);)*) => {
        extern "C" {
            $(pub fn $name(
                counters: *mut u32,
                resources: *mut u32, resources_len: usize,
                statements: *mut u32, statements_len: usize,
                index: *mut u32, index_len: usize,
                text: *mut u8, text_len: usize,
                $($arg: $ty),*
            ) -> u32;)*
        }
    };
}

extern "C" {
    pub fn structs_name_kind(name: *const u8, name_len: usize, reply: *mut u32) -> u32;
    pub fn structs_read_line(text: *const u8, text_len: usize, at: usize, reply: *mut u64) -> u32;
}

store_functions! {
    structs_check(reply: *mut u32);
    structs_find(name: *const u8, name_len: usize, reply: *mut u32);
    structs_number(name: *const u8, name_len: usize, reply: *mut u32);
    structs_names_with_prefix(prefix: *const u8, prefix_len: usize, numbers: *mut u32, numbers_len: usize, reply: *mut u32);
    structs_enter(name: *const u8, name_len: usize, reply: *mut u32);
    structs_name(number: u32, reply: *mut u32);
    structs_live(number: u32, position: u32, reply: *mut u32);
    structs_statement(number: u32, reply: *mut u32);
    structs_assert(subject: u32, predicate: u32, object: u32, reply: *mut u32);
    structs_retract(subject: u32, predicate: u32, object: u32, reply: *mut u32);
    structs_reclaim();
    structs_scan_open(subject: u32, predicate: u32, object: u32, cursor: *mut u32);
    structs_scan_next(cursor: *mut u32, budget: u32, reply: *mut u32);
    structs_query_open(words: *const u32, words_len: usize, cursor: *mut u32);
    structs_query_next(words: *const u32, words_len: usize, cursor: *mut u32, budget: u32, reply: *mut u32);
    structs_export(out: *mut u8, out_len: usize, work: *mut u32, work_len: usize, reply: *mut u32);
}
