//! The relays by the beginning of their names, a relay's live count, its contacts by name, a question, a rewired relay, and the bay's file:
//! the Rust twin of `kit/c/contacts.c`, with the same output.
//!
//!     contacts FILE
//!
//! reads a file of N-Triples into tables of its own, lists the names that begin with <r:, tells how many live statements relay <r:21> is
//! the subject of, lists what it trips, and asks which breakers are tripped by a relay that trips <b:4>. Then it rewires the relay from
//! <b:4> to <b:9>, gets the room of the retracted statement back and lists again, the names that begin with <b: too. Last it writes the
//! statements as a file. Refused lines are told and passed over; any other refusal ends the program with status 1.

use lemontiller::{Error, Line, Lines, Outcome, Place, Position, Question, ResourceId, Store, Term};
use lemontiller::{COUNTER_WORDS, RESOURCE_WORDS, STATEMENT_WORDS};
use std::{env, fs, process::ExitCode};

const RESOURCES: usize = 512;
const STATEMENTS: usize = 1024;
const TEXT_BYTES: usize = 16384;

/// The records that one call may visit. A screen picks what its frame allows and comes back with the cursor for more.
const BUDGET: u32 = 1;

/// The names that a screen has lines for.
const LINES: usize = 20;

/// Enters the three names of a line and asserts their triple. Names are entered one by one: those before a refusal remain.
fn load_triple(store: &mut Store, parts: [&[u8]; 3]) -> Result<(), Error> {
    let subject = store.enter(parts[0])?;
    let predicate = store.enter(parts[1])?;
    let object = store.enter(parts[2])?;
    store.assert(subject, predicate, object)?;
    Ok(())
}

fn load(store: &mut Store, input: &[u8]) {
    for (line, read) in Lines::new(input).enumerate() {
        let loaded = match read {
            Ok(Line::Triple(parts)) => load_triple(store, parts),
            Ok(Line::Nothing) => Ok(()),
            Err(error) => Err(error),
        };
        if let Err(error) = loaded {
            println!("line {}: {error}", line + 1);
        }
    }
}

fn number_of(store: &Store, name: &str) -> Result<ResourceId, String> {
    store.number(name.as_bytes()).map_err(|error| format!("{name}: {error}"))
}

fn name_of(store: &Store, id: ResourceId) -> Result<String, Error> {
    Ok(String::from_utf8_lossy(store.name(id)?).into_owned())
}

/// Lists the names with a beginning in byte order, as many as there are lines, and tells how many there are. Nothing is walked for it, so a
/// screen may ask at every key that is typed. `store.names_with_prefix` would put their numbers into lent words, as C has it.
fn list_names(store: &Store, beginning: &str) -> Result<(), String> {
    let named = store.with_prefix(beginning.as_bytes()).map_err(|error| format!("{beginning}: {error}"))?;
    println!("names that begin with {beginning}, {} in all", named.len());
    for id in named.take(LINES) {
        println!("  {}", name_of(store, id).map_err(|error| error.to_string())?);
    }
    Ok(())
}

/// Tells how many live statements a relay is the subject of: a word of its record, so a screen may ask as often as it draws.
fn tell_live(store: &Store, relay: &str) -> Result<(), String> {
    let live = store.live(number_of(store, relay)?, Position::Subject).map_err(|error| error.to_string())?;
    println!("live statements of {relay}: {live}");
    Ok(())
}

/// Lists the objects of a relay's statements, the highest number first, a few visits at a time. `store.scan` would give them all as an iterator.
fn list_contacts(store: &Store, relay: &str, trips: &str) -> Result<(), String> {
    let pattern = [Place::Is(number_of(store, relay)?), Place::Is(number_of(store, trips)?), Place::Any];
    let mut cursor = store.scan_open(pattern).map_err(|error| error.to_string())?;
    println!("contacts of {relay}");
    loop {
        match store.scan_next(&mut cursor, BUDGET).map_err(|error| error.to_string())?.outcome {
            Outcome::Ended => return Ok(()),
            Outcome::Spent => continue, // records remain: here a screen would draw, then go on
            Outcome::Found(id) => {
                let object = store.statement(id).map_err(|error| error.to_string())?.object;
                println!("  {}", name_of(store, object).map_err(|error| error.to_string())?);
            }
        }
    }
}

/// Asks for every relay ?0 that trips the breaker, and every ?1 that this relay trips.
fn ask_tripped_with(store: &Store, breaker: &str, trips: &str) -> Result<(), String> {
    let (relay, with) = (0, 1);
    let trips = Term::Resource(number_of(store, trips)?);
    let question = Question::new(&[
        [Term::Variable(relay), trips, Term::Resource(number_of(store, breaker)?)],
        [Term::Variable(relay), trips, Term::Variable(with)],
    ]);
    println!("tripped together with {breaker}");
    for solution in store.ask(&question).map_err(|error| error.to_string())? {
        let solution = solution.map_err(|error| error.to_string())?;
        let name = |variable| match solution.get(variable) {
            Some(id) => name_of(store, id).map_err(|error| error.to_string()),
            None => Ok("nothing".to_string()),
        };
        println!("  {} by {}", name(with)?, name(relay)?);
    }
    Ok(())
}

/// Rewires a relay from one breaker to another. The retracted statement keeps its room until the store is reclaimed; a set does that when a
/// table is full. From then on cursors are to be opened again, and a statement's number from before names another one or none.
fn rewire(store: &mut Store, relay: &str, trips: &str, from: &str, to: &str) -> Result<(), String> {
    let (relay, trips, breaker) = (number_of(store, relay)?, number_of(store, trips)?, number_of(store, from)?);
    let before = store.counters().statements;
    store.retract(relay, trips, breaker).map_err(|error| error.to_string())?;
    store.reclaim().map_err(|error| error.to_string())?;
    println!("rewired from {from} to {to}, statements given back: {}", before - store.counters().statements);
    let breaker = store.enter(to.as_bytes()).map_err(|error| format!("{to}: {error}"))?;
    store.assert(relay, trips, breaker).map_err(|error| error.to_string())?;
    Ok(())
}

/// Writes the statements as a file for other software. `store.export` would put it into lent bytes, as C has it.
fn write_file(store: &Store) -> Result<(), String> {
    let file = store.export_to_vec().map_err(|error| error.to_string())?;
    print!("file of {} bytes\n{}", file.len(), String::from_utf8_lossy(&file));
    Ok(())
}

fn run(path: &str) -> Result<(), String> {
    if lemontiller::version() != lemontiller::VERSION_NUMBER {
        return Err("the library has another version than the wrapper".to_string());
    }
    let input = fs::read(path).map_err(|error| format!("{path}: {error}"))?;
    let mut counters = [0; COUNTER_WORDS];
    let mut resources = vec![0; RESOURCES * RESOURCE_WORDS];
    let mut statements = vec![0; STATEMENTS * STATEMENT_WORDS];
    let mut index = vec![0; RESOURCES];
    let mut text = vec![0; TEXT_BYTES];
    let mut store =
        Store::new(&mut counters, &mut resources, &mut statements, &mut index, &mut text).map_err(|error| error.to_string())?;

    load(&mut store, &input);
    println!("{} resources, {} statements", store.counters().resources, store.counters().statements);
    list_names(&store, "<r:")?;
    tell_live(&store, "<r:21>")?;
    list_contacts(&store, "<r:21>", "<p:trips>")?;
    ask_tripped_with(&store, "<b:4>", "<p:trips>")?;
    rewire(&mut store, "<r:21>", "<p:trips>", "<b:4>", "<b:9>")?;
    list_contacts(&store, "<r:21>", "<p:trips>")?;
    list_names(&store, "<b:")?;
    write_file(&store)?;

    // A store that comes from a file or a wire is checked once; one made by this library's own calls is sound.
    println!("{}", if store.is_sound() { "sound" } else { "not sound" });
    Ok(())
}

fn main() -> ExitCode {
    let arguments: Vec<String> = env::args().collect();
    let [_, path] = arguments.as_slice() else {
        eprintln!("usage: contacts FILE");
        return ExitCode::FAILURE;
    };
    match run(path) {
        Ok(()) => ExitCode::SUCCESS,
        Err(message) => {
            eprintln!("{message}");
            ExitCode::FAILURE
        }
    }
}
