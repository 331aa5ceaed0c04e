//! The wrapper's own tests: that values go over to the library and come back as they are, refusals and short slices among them. What the
//! library answers on any tables is the differential test's matter.
use super::*;

const LAST: u8 = VARIABLES as u8 - 1;

/// The pattern of all statements.
const ALL: [Place; 3] = [Place::Any; 3];

/// Tables of six resources and four statements, and a store over them, which the test body is given.
fn with_store(body: impl FnOnce(&mut Store)) {
    let (mut counters, mut resources, mut statements) = ([0; COUNTER_WORDS], [7; 6 * RESOURCE_WORDS], [7; 4 * STATEMENT_WORDS]);
    let (mut index, mut text) = ([7; 6], [7; 64]);
    let mut store = Store::new(&mut counters, &mut resources, &mut statements, &mut index, &mut text).unwrap();
    body(&mut store)
}

/// The paper's example: 1 `<r:21>`, 2 `<p:trips>`, 3 `<b:4>`, 4 `<b:7>`; statements (1,2,3) and (1,2,4).
fn with_bay(body: impl FnOnce(&mut Store, [ResourceId; 4])) {
    with_store(|store| {
        let ids = ["<r:21>", "<p:trips>", "<b:4>", "<b:7>"].map(|name| store.enter(name.as_bytes()).unwrap());
        assert_eq!(ids, [1, 2, 3, 4].map(ResourceId));
        assert_eq!(store.assert(ids[0], ids[1], ids[2]), Ok(Asserted::New(StatementId(1))));
        assert_eq!(store.assert(ids[0], ids[1], ids[3]), Ok(Asserted::New(StatementId(2))));
        body(store, ids)
    })
}

/// What find answers for a name that is there, and for one that is not.
fn at(number: ResourceId, position: u32) -> Result<Lookup, Error> {
    Ok(Lookup { number: Some(number), position })
}
fn absent(position: u32) -> Result<Lookup, Error> {
    Ok(Lookup { number: None, position })
}

/// What a scan or a question answers, none of it a refusal.
fn answers<T>(asked: Result<impl Iterator<Item = Result<T, Error>>, Error>) -> Vec<T> {
    asked.unwrap().map(Result::unwrap).collect()
}

#[test]
fn names_come_back() {
    with_bay(|store, ids| {
        assert_eq!(store.find(b"<b:7>"), at(ids[3], 1));
        assert_eq!(store.find(b"<b:8>"), absent(2));
        assert_eq!(store.name(ids[3]), Ok(&b"<b:7>"[..]));
        assert_eq!(store.counters(), Counters { resources: 4, statements: 2, text: 7 + 10 + 6 + 6, reclaims: 0 });
        assert!(store.is_sound());
    })
}

/// The number as find has it, and refused where find has none, after all that find refuses.
#[test]
fn a_number_is_that_of_a_name_that_is_there() {
    with_bay(|store, ids| {
        for (name, id) in ["<r:21>", "<p:trips>", "<b:4>", "<b:7>"].into_iter().zip(ids) {
            assert_eq!(store.number(name.as_bytes()), Ok(id));
        }
        assert_eq!(store.number(b"<b:9>"), Err(Error::UnknownNumber));
        assert_eq!((store.number(b"b:9"), store.number(b"")), (Err(Error::Malformed), Err(Error::Malformed)));
        let label = store.enter(b"\"A\"").unwrap();
        assert_eq!(store.number(b"\"A\"^^<http://www.w3.org/2001/XMLSchema#string>"), Ok(label));
        store.index.fill(9);
        assert_eq!(store.number(b"<b:4>"), Err(Error::Damaged));
    });
    let (mut counters, mut over) = ([0; COUNTER_WORDS], [1, 0, 0, 0]);
    let store = Store::new(&mut counters, &mut [], &mut [], &mut [], &mut []).unwrap();
    assert_eq!(store.number(b"<a>"), Err(Error::UnknownNumber));
    let store = Store::new(&mut over, &mut [], &mut [], &mut [], &mut []).unwrap();
    assert_eq!(store.number(b"a"), Err(Error::Capacity));
}

/// A relay that is not there lists nothing, where any would list all.
#[test]
fn a_miss_is_not_any() {
    with_bay(|store, _| {
        let contacts = |relay: &[u8]| Ok(answers(store.scan([Place::Is(store.number(relay)?), Place::Any, Place::Any])).len());
        assert_eq!((contacts(b"<r:21>"), contacts(b"<r:22>")), (Ok(2), Err(Error::UnknownNumber)));
        assert_eq!(answers(store.scan(ALL)).len(), 2);
    })
}

/// The library's version is the wrapper's, and that is the package's.
#[test]
fn one_version() {
    let part = |digits: &str| digits.parse::<u32>().unwrap();
    let [major, minor, patch] =
        [env!("CARGO_PKG_VERSION_MAJOR"), env!("CARGO_PKG_VERSION_MINOR"), env!("CARGO_PKG_VERSION_PATCH")].map(part);
    assert_eq!(VERSION_NUMBER, major * 1_000_000 + minor * 1_000 + patch);
    assert_eq!(version(), VERSION_NUMBER);
}

/// A store is told by its counters and lengths, whatever its tables hold.
#[test]
fn everything_has_a_debug_form() {
    with_bay(|store, _| {
        let told = "Store { counters: Counters { resources: 4, statements: 2, text: 29, reclaims: 0 }, resource_words: 66, \
                    statement_words: 28, index_words: 6, text_bytes: 64 }";
        assert_eq!(format!("{store:?}"), told);
        let question = Question::new(&[[Term::Variable(0), Term::Variable(1), Term::Variable(2)]]);
        let (scan, solutions) = (store.scan(ALL).unwrap(), store.ask(&question).unwrap());
        assert!([format!("{scan:?}"), format!("{solutions:?}")].iter().all(|form| form.contains(told)));
    })
}

/// In byte order `<b:4>`, `<b:7>`, `<p:trips>`, `<r:21>`: below all of them, between any two, above all, and each of them.
#[test]
fn a_name_is_found_where_it_stands() {
    with_bay(|store, [relay, trips, b4, b7]| {
        for (name, position) in [("\"\"", 0), ("<b:39>", 0), ("<b:5>", 1), ("<p:trip>", 2), ("<r:2>", 4), ("_:a", 4)] {
            assert_eq!(store.find(name.as_bytes()), absent(position), "{name}");
        }
        for (name, number, position) in [("<b:4>", b4, 0), ("<b:7>", b7, 1), ("<p:trips>", trips, 2), ("<r:21>", relay, 3)] {
            assert_eq!(store.find(name.as_bytes()), at(number, position), "{name}");
            let from_there = store.with_prefix(b"").unwrap().skip(position as usize);
            assert_eq!(from_there.map(|id| id.0).collect::<Vec<_>>(), store.index[position as usize..4]);
            assert_eq!(store.with_prefix(b"").unwrap().nth(position as usize), Some(number));
        }
        assert_eq!(store.with_prefix(b"").unwrap().nth(4), None);
    });
    let mut counters = [0; COUNTER_WORDS];
    let store = Store::new(&mut counters, &mut [], &mut [], &mut [], &mut []).unwrap();
    assert_eq!(store.find(b"<a>"), absent(0));
}

/// A name entered stands where find told before, and those from there on move up. A literal is placed without the string ending.
#[test]
fn a_name_is_entered_where_find_tells() {
    let spelled = "\"A\"^^<http://www.w3.org/2001/XMLSchema#string>";
    for order in [[0, 1, 2, 3, 4, 5], [5, 4, 3, 2, 1, 0], [3, 0, 5, 1, 4, 2]] {
        with_store(|store| {
            let names = ["\"A \"", spelled, "<a/>", "<a>", "<b>", "_:a"];
            let mut sorted: Vec<u32> = vec![];
            for (number, name) in (1..).zip(order.map(|which| names[which].as_bytes())) {
                let position = store.find(name).unwrap().position;
                assert_eq!(store.find(name), absent(position));
                assert_eq!(store.enter(name), Ok(ResourceId(number)));
                assert_eq!(store.find(name), at(ResourceId(number), position));
                sorted.insert(position as usize, number);
                assert_eq!(store.index[..sorted.len()], sorted);
            }
            assert!(store.is_sound());
        })
    }
}

/// The listing of a beginning both ways, the words lent being as many as there are numbers.
fn beginning(store: &Store, prefix: &[u8]) -> Vec<u32> {
    let mut numbers = vec![0; store.names_with_prefix(prefix, &mut []).unwrap() as usize];
    assert_eq!(store.names_with_prefix(prefix, &mut numbers), Ok(numbers.len() as u32));
    let listed = store.with_prefix(prefix).unwrap();
    assert_eq!(listed.len(), numbers.len());
    assert_eq!(listed.map(|id| id.0).collect::<Vec<_>>(), numbers);
    numbers
}

/// 1 `<r:21>`, 2 `<p:trips>`, 3 `<b:4>`, 4 `<b:7>`, 5 `<r:2>`, 6 `<r:20>`.
#[test]
fn names_are_listed_by_their_beginning() {
    with_bay(|store, _| {
        assert_eq!((store.enter(b"<r:2>"), store.enter(b"<r:20>")), (Ok(ResourceId(5)), Ok(ResourceId(6))));
        let cases: [(&[u8], &[u32]); 19] = [
            (b"", &[3, 4, 2, 6, 1, 5]),
            (b"<", &[3, 4, 2, 6, 1, 5]),
            (b"<r:2", &[6, 1, 5]),
            (b"<r:21", &[1]),
            // A whole name, and a byte more.
            (b"<r:21>", &[1]),
            (b"<r:2>", &[5]),
            (b"<r:21>\0", &[]),
            (b"<r:21>>", &[]),
            (b"<b:", &[3, 4]),
            // Below all names, between them, above all.
            (b"\"", &[]),
            (b"<b:5", &[]),
            (b"<c", &[]),
            (b"_:", &[]),
            // A zero byte, also as the one that closes a name and what stands after it in the text; byte 255.
            (b"\0", &[]),
            (b"<b:4>\0<b:7>", &[]),
            (b"<b\0", &[]),
            (b"\xff", &[]),
            (b"<r:2\xff", &[]),
            (b"r:21", &[]),
        ];
        for (prefix, numbers) in cases {
            assert_eq!(beginning(store, prefix), numbers, "{:?}", String::from_utf8_lossy(prefix));
        }
    })
}

/// No words, fewer than there are numbers, as many, and more; a refusal writes none of them.
#[test]
fn words_past_the_list_keep_their_values() {
    with_bay(|store, _| {
        for (words, listed) in
            [(0, &[][..]), (1, &[3]), (3, &[3, 4, 2]), (4, &[3, 4, 2, 1]), (5, &[3, 4, 2, 1, 77]), (6, &[3, 4, 2, 1, 77, 77])]
        {
            let mut numbers = vec![77; words];
            assert_eq!(store.names_with_prefix(b"<", &mut numbers), Ok(4));
            assert_eq!(numbers, listed);
        }
        for (prefix, total) in [(&b"<b:5"[..], Ok(0)), (&[b'<'; 256], Err(Error::Malformed))] {
            let mut numbers = [77; 2];
            assert_eq!((store.names_with_prefix(prefix, &mut numbers), numbers), (total, [77; 2]));
        }
    })
}

/// A beginning has up to 255 bytes, and a name of that length begins with itself.
#[test]
fn a_beginning_has_up_to_255_bytes() {
    let longest = [b"<", [b'a'; 253].as_slice(), b">"].concat();
    let (mut counters, mut resources, mut index, mut text) = ([0; COUNTER_WORDS], [0; 2 * RESOURCE_WORDS], [0; 2], [0; 300]);
    let mut store = Store::new(&mut counters, &mut resources, &mut [], &mut index, &mut text).unwrap();
    assert_eq!((store.enter(b"<b>"), store.enter(&longest)), (Ok(ResourceId(1)), Ok(ResourceId(2))));
    assert_eq!(beginning(&store, &longest), [2]);
    assert_eq!(beginning(&store, &longest[..254]), [2]);
    assert_eq!(beginning(&store, &[b'a'; 255]), []);
    assert_eq!(beginning(&store, b""), [2, 1]);
    for beyond in [[&longest, &b"a"[..]].concat(), vec![0; 256], vec![b'a'; 1000]] {
        assert_eq!(store.names_with_prefix(&beyond, &mut [0; 9]), Err(Error::Malformed));
        assert_eq!(store.with_prefix(&beyond).err(), Some(Error::Malformed));
    }
}

/// No names; counters over their capacity, which come before a beginning that is too long; and a store that is not sound, on which the
/// iterator ends or is refused.
#[test]
fn beginnings_of_any_tables() {
    let (mut counters, mut over) = ([0; COUNTER_WORDS], [1, 0, 0, 0]);
    let store = Store::new(&mut counters, &mut [], &mut [], &mut [], &mut []).unwrap();
    for prefix in [&b""[..], b"<", b"\0", &[255; 255]] {
        assert_eq!(beginning(&store, prefix), []);
    }
    assert_eq!(store.names_with_prefix(&[0; 256], &mut []), Err(Error::Malformed));
    let store = Store::new(&mut over, &mut [], &mut [], &mut [], &mut []).unwrap();
    for prefix in [&b""[..], &[0; 256]] {
        let mut numbers = [77; 2];
        assert_eq!((store.names_with_prefix(prefix, &mut numbers), numbers), (Err(Error::Capacity), [77; 2]));
        assert_eq!(store.with_prefix(prefix).err(), Some(Error::Capacity));
    }
    with_bay(|store, _| {
        let index = store.index.to_vec();
        for (place, word) in (0..4).flat_map(|place| [0, 1, 2, 3, 4, 5, u32::MAX].map(|word| (place, word))) {
            store.index.copy_from_slice(&index);
            store.index[place] = word;
            for prefix in [&b""[..], b"<", b"<b", b"<b:7>", b"<r", b"_"] {
                let mut numbers = [77; 9];
                let total = store.names_with_prefix(prefix, &mut numbers);
                assert!(matches!(total, Ok(0..=4) | Err(Error::Damaged)), "{total:?}");
                assert!(numbers[total.unwrap_or(0) as usize..].iter().all(|&number| number == 77), "{numbers:?}");
                match store.with_prefix(prefix) {
                    Ok(listed) => assert_eq!(Ok(listed.count() as u32), total),
                    Err(error) => assert_eq!(error, Error::Damaged),
                }
            }
        }
        store.index.copy_from_slice(&index);
        assert!(store.is_sound());
    })
}

#[test]
fn statements_live_and_die() {
    with_bay(|store, [relay, trips, b4, b7]| {
        assert_eq!(store.assert(relay, trips, b4), Ok(Asserted::Already(StatementId(1))));
        assert_eq!(store.retract(relay, trips, b4), Ok(Some(StatementId(1))));
        assert_eq!(store.retract(relay, trips, b4), Ok(None));
        let read = Statement { subject: relay, predicate: trips, object: b4, retracted: true };
        assert_eq!(store.statement(StatementId(1)), Ok(read));
        assert_eq!(store.scan(ALL).unwrap().collect::<Vec<_>>(), [Ok(StatementId(2))]);
        assert_eq!(store.assert(relay, trips, b4), Ok(Asserted::Revived(StatementId(1))));
        let scan = store.scan([Place::Is(relay), Place::Any, Place::Any]).unwrap();
        assert_eq!(scan.collect::<Vec<_>>(), [Ok(StatementId(2)), Ok(StatementId(1))]);
        assert_eq!(answers(store.scan([Place::Any, Place::Any, Place::Is(b7)])).len(), 1);
    })
}

/// The live counts of a resource as subject, predicate and object.
fn live(store: &Store, id: ResourceId) -> [u32; 3] {
    [Position::Subject, Position::Predicate, Position::Object].map(|position| store.live(id, position).unwrap())
}

#[test]
fn live_counts_follow_the_statements() {
    with_bay(|store, [relay, trips, b4, b7]| {
        let all = |store: &Store| [relay, trips, b4, b7].map(|id| live(store, id));
        let both = [[2, 0, 0], [0, 2, 0], [0, 0, 1], [0, 0, 1]];
        let one = [[1, 0, 0], [0, 1, 0], [0, 0, 0], [0, 0, 1]];
        assert_eq!(all(store), both);
        assert_eq!(store.assert(relay, trips, b4), Ok(Asserted::Already(StatementId(1))));
        assert_eq!(all(store), both);
        assert_eq!(store.retract(relay, trips, b4), Ok(Some(StatementId(1))));
        assert_eq!(all(store), one);
        assert_eq!(store.retract(relay, trips, b4), Ok(None));
        assert_eq!(all(store), one);
        assert_eq!(store.assert(relay, trips, b4), Ok(Asserted::Revived(StatementId(1))));
        assert_eq!(all(store), both);

        // The same resource at two positions, then at all three: each has a count of its own.
        assert_eq!(store.assert(relay, trips, relay), Ok(Asserted::New(StatementId(3))));
        assert_eq!((live(store, relay), live(store, trips)), ([3, 0, 1], [0, 3, 0]));
        assert_eq!(store.assert(trips, trips, trips), Ok(Asserted::New(StatementId(4))));
        assert_eq!(live(store, trips), [1, 4, 1]);
        assert_eq!(store.retract(relay, trips, relay), Ok(Some(StatementId(3))));
        assert_eq!((live(store, relay), live(store, trips)), ([2, 0, 0], [1, 3, 1]));
        assert!(store.is_sound());
    })
}

#[test]
fn live_counts_of_any_tables() {
    with_bay(|store, _| {
        let entered = store.enter(b"\"A\"").unwrap();
        assert_eq!(live(store, entered), [0; 3]);
        for number in [0, 6, 7, u32::MAX] {
            assert_eq!(store.live(ResourceId(number), Position::Subject), Err(Error::UnknownNumber));
        }
    });
    // The word as it is, also where nothing else is right. One word less and the record is not there.
    let mut resources: [u32; RESOURCE_WORDS] = std::array::from_fn(|word| u32::MAX - word as u32);
    let (mut counters, mut index) = ([1, 0, 0, 0], [0; 2]);
    let store = Store::new(&mut counters, &mut resources, &mut [], &mut index, &mut []).unwrap();
    assert_eq!(live(&store, ResourceId(1)), [8, 9, 10].map(|word| u32::MAX - word));
    let short = &mut resources[..RESOURCE_WORDS - 1];
    let store = Store::new(&mut counters, short, &mut [], &mut index, &mut []).unwrap();
    for number in [0, 1, 2, u32::MAX] {
        assert_eq!(store.live(ResourceId(number), Position::Object), Err(Error::Capacity));
    }
    // Of the counters each one is tested.
    for over in [[2, 0, 0, 0], [u32::MAX, 0, 0, 0], [1, 1, 0, 0], [1, 0, 1, 0], [1, 0, 0, MAX_RECLAIMS + 1]] {
        let mut counters = over;
        let store = Store::new(&mut counters, &mut resources, &mut [], &mut index, &mut []).unwrap();
        assert_eq!(store.live(ResourceId(1), Position::Subject), Err(Error::Capacity));
    }
}

#[test]
fn a_cursor_outlives_a_change() {
    with_bay(|store, [relay, trips, b4, _]| {
        let mut cursor = store.scan_open([Place::Is(relay), Place::Is(trips), Place::Any]).unwrap();
        let found = Step { outcome: Outcome::Found(StatementId(2)), visits: 1 };
        assert_eq!(store.scan_next(&mut cursor, 1), Ok(found));
        store.retract(relay, trips, b4).unwrap();
        assert_eq!(store.scan_next(&mut cursor, 1), Ok(Step { outcome: Outcome::Ended, visits: 1 }));
        let mut opened = store.scan_open([Place::Is(relay), Place::Any, Place::Any]).unwrap();
        store.retract(relay, trips, ResourceId(4)).unwrap();
        assert_eq!(store.scan_next(&mut opened, 1), Ok(Step { outcome: Outcome::Spent, visits: 1 }));
    })
}

#[test]
fn a_reclaim_gives_room_back() {
    with_bay(|store, [relay, trips, b4, b7]| {
        // Statements 3 and 4, the room's last, then 1 and 3 retracted: 2 and 4 are 1 and 2 from now on.
        assert_eq!(store.assert(relay, trips, relay), Ok(Asserted::New(StatementId(3))));
        assert_eq!(store.assert(b4, trips, b7), Ok(Asserted::New(StatementId(4))));
        assert_eq!(store.assert(b7, trips, b4), Err(Error::Full));
        store.retract(relay, trips, b4).unwrap();
        store.retract(relay, trips, relay).unwrap();
        let before = store.counters();
        assert_eq!(store.reclaim(), Ok(()));
        assert_eq!(store.counters(), Counters { statements: 2, reclaims: 1, ..before });
        assert_eq!(store.scan(ALL).unwrap().collect::<Vec<_>>(), [Ok(StatementId(2)), Ok(StatementId(1))]);
        assert_eq!(store.statement(StatementId(1)).unwrap().object, b7);
        assert_eq!([relay, trips, b4, b7].map(|id| live(store, id)), [[1, 0, 0], [0, 2, 0], [1, 0, 0], [0, 0, 2]]);
        assert_eq!(store.statements[2 * STATEMENT_WORDS..], [0; 2 * STATEMENT_WORDS]);
        assert_eq!(store.find(b"<b:4>"), at(b4, 0));
        assert!(store.is_sound());

        // What had no room has it, and what was retracted is new.
        assert_eq!(store.assert(b7, trips, b4), Ok(Asserted::New(StatementId(3))));
        assert_eq!(store.assert(relay, trips, b4), Ok(Asserted::New(StatementId(4))));
        // Nothing to drop: it is a reclaim all the same.
        assert_eq!((store.reclaim(), store.counters().reclaims, store.counters().statements), (Ok(()), 2, 4));
    })
}

#[test]
fn cursors_end_with_a_reclaim() {
    with_bay(|store, [relay, _, _, _]| {
        let question = Question::new(&[[Term::Variable(0), Term::Variable(1), Term::Variable(2)]]);
        let (opened, mut scan) =
            (store.scan_open([Place::Is(relay), Place::Any, Place::Any]).unwrap(), store.scan_open(ALL).unwrap());
        let (start, mut query) = (store.query_open(&question).unwrap(), store.query_open(&question).unwrap());
        assert_eq!((opened[SCAN_CURSOR_WORDS - 1], start), (0, [0; QUERY_CURSOR_WORDS]));
        assert!(store.scan_next(&mut scan, 9).is_ok() && store.query_next(&question, &mut query, 9).is_ok());
        let (mut ended, mut end) = (scan, query);
        while store.scan_next(&mut ended, 9).unwrap().outcome != Outcome::Ended {}
        while store.query_next(&question, &mut end, 9).unwrap().outcome != Outcome::Ended {}
        store.reclaim().unwrap();
        for cursor in [opened, scan, ended] {
            for budget in [0, 9] {
                let mut kept = cursor;
                assert_eq!((store.scan_next(&mut kept, budget), kept), (Err(Error::StaleCursor), cursor));
            }
        }
        for cursor in [start, query, end] {
            for budget in [0, 9] {
                let mut kept = cursor;
                assert_eq!((store.query_next(&question, &mut kept, budget), kept), (Err(Error::StaleCursor), cursor));
            }
        }
        let mut again = store.query_open(&question).unwrap();
        assert_eq!(again[..4], [0, 0, 1, 0]);
        assert!(store.query_next(&question, &mut again, 9).is_ok());
        assert_eq!((answers(store.ask(&question)).len(), answers(store.scan(ALL)).len()), (2, 2));
    })
}

#[test]
fn a_reclaim_may_be_refused() {
    let (mut resources, mut statements) = ([1, 1, 1, 1, 1, 1, 0, 1, 0, 0, 0], [1, 1, 1, 0, 0, 0, 1]);
    let (mut index, mut text) = ([1], *b"<a>\0");
    for (reclaims, after, answer) in [
        (0, [1, 0, 4, 1], Ok(())),
        (MAX_RECLAIMS - 1, [1, 0, 4, MAX_RECLAIMS], Ok(())),
        (MAX_RECLAIMS, [1, 1, 4, MAX_RECLAIMS], Err(Error::ReclaimLimit)),
        (MAX_RECLAIMS + 1, [1, 1, 4, MAX_RECLAIMS + 1], Err(Error::Capacity)),
    ] {
        let (mut counters, mut resources, mut statements) = ([1, 1, 4, reclaims], resources, statements);
        let mut store = Store::new(&mut counters, &mut resources, &mut statements, &mut index, &mut text).unwrap();
        assert_eq!(store.reclaim(), answer);
        assert_eq!(counters, after);
        assert_eq!(statements, if answer.is_ok() { [0; STATEMENT_WORDS] } else { [1, 1, 1, 0, 0, 0, 1] });
    }
    // A live count of a retracted statement.
    resources[LIVE] = 1;
    let mut counters = [1, 1, 4, 0];
    let mut store = Store::new(&mut counters, &mut resources, &mut statements, &mut index, &mut text).unwrap();
    assert_eq!(store.reclaim(), Err(Error::Damaged));
    assert_eq!((counters, statements), ([1, 1, 4, 0], [1, 1, 1, 0, 0, 0, 1]));
}

#[test]
fn a_question_is_answered() {
    with_bay(|store, [_, trips, b4, b7]| {
        let trips = Term::Resource(trips);
        let question =
            Question::new(&[[Term::Variable(0), trips, Term::Resource(b4)], [Term::Variable(0), trips, Term::Variable(LAST)]]);
        let solutions = answers(store.ask(&question));
        assert_eq!(solutions.iter().map(|s| s.get(LAST)).collect::<Vec<_>>(), [Some(b7), Some(b4)]);
        assert_eq!(solutions[0].get(0), Some(ResourceId(1)));
        assert_eq!((solutions[0].get(1), solutions[0].get(LAST + 1)), (None, None));
        let empty = Question::new(&[]);
        assert_eq!(answers(store.ask(&empty)).len(), 1);
    })
}

#[test]
fn a_question_has_up_to_six_patterns() {
    with_bay(|store, [relay, trips, b4, _]| {
        let pattern = [relay, trips, b4].map(Term::Resource);
        assert_eq!(answers(store.ask(&Question::new(&[pattern; 6]))).len(), 1);
        assert_eq!(store.ask(&Question::new(&[pattern; 7])).err(), Some(Error::BadQuery));
    });
    assert_eq!((MAX_PATTERNS, QUERY_CURSOR_WORDS), (6, 15));
}

#[test]
fn refusals_are_values() {
    with_bay(|store, [relay, trips, b4, _]| {
        assert_eq!(store.find(b"trips"), Err(Error::Malformed));
        assert_eq!(store.enter(b""), Err(Error::Malformed));
        assert_eq!(store.name(ResourceId(5)), Err(Error::UnknownNumber));
        assert_eq!(store.statement(StatementId(0)), Err(Error::UnknownNumber));
        let literal = store.enter(b"\"A\"").unwrap();
        assert_eq!(store.assert(literal, trips, b4), Err(Error::KindNotPermitted));
        store.enter(b"_:x").unwrap();
        assert_eq!(store.enter(b"_:y"), Err(Error::Full));
        let mut cursor = store.scan_open([Place::Is(relay), Place::Any, Place::Any]).unwrap();
        assert_eq!(store.scan_next(&mut cursor, 0), Err(Error::NoBudget));
        cursor[4] = 9;
        assert_eq!(store.scan_next(&mut cursor, 1), Err(Error::BadCursor));
        let beyond = Question::new(&[[Term::Variable(LAST + 1); 3]]);
        assert_eq!(store.query_open(&beyond), Err(Error::BadQuery));
        assert_eq!(store.query_open(&Question::from_words(&[1, 2])), Err(Error::BadQuery));
        assert!(store.is_sound());
    })
}

#[test]
fn a_number_of_0_is_not_any() {
    with_bay(|store, [relay, trips, _, _]| {
        for place in 0..3 {
            let mut pattern = ALL;
            pattern[place] = Place::Is(ResourceId(0));
            assert_eq!(store.scan_open(pattern), Err(Error::UnknownNumber));
            assert_eq!(store.scan(pattern).err(), Some(Error::UnknownNumber));
        }
        assert_eq!(store.scan_open([Place::Is(relay), Place::Is(trips), Place::Is(ResourceId(0))]), Err(Error::UnknownNumber));
        assert_eq!(answers(store.scan([Place::Is(relay), Place::Is(trips), Place::Any])).len(), 2);
    });
    let mut over = [1, 0, 0, 0];
    let store = Store::new(&mut over, &mut [], &mut [], &mut [], &mut []).unwrap();
    assert_eq!(store.scan_open([Place::Is(ResourceId(0)), Place::Any, Place::Any]), Err(Error::Capacity));
}

#[test]
fn a_resource_is_not_a_variable() {
    with_bay(|store, [relay, trips, b4, _]| {
        let asked =
            |number: u32| Question::new(&[[Term::Resource(relay), Term::Resource(trips), Term::Resource(ResourceId(number))]]);
        for number in [
            0,
            5,
            FIRST_VARIABLE - 1,
            FIRST_VARIABLE,
            FIRST_VARIABLE + u32::from(LAST),
            FIRST_VARIABLE + u32::from(LAST) + 1,
            u32::MAX,
        ] {
            assert_eq!(store.query_open(&asked(number)), Err(Error::BadQuery));
            assert_eq!(store.query_next(&asked(number), &mut [0; QUERY_CURSOR_WORDS], 1), Err(Error::BadQuery));
        }
        assert_eq!(answers(store.ask(&asked(b4.0))).len(), 1);
    })
}

#[test]
fn damage_is_a_value_and_ends_an_iterator() {
    let (mut counters, mut resources, mut statements) = ([1, 1, 4, 0], [1, 1, 1, 1, 1, 1, 0, 1, 1, 1, 1], [1, 1, 1, 0, 0, 0, 2]);
    let (mut index, mut text) = ([1], *b"<a>\0");
    let store = Store::new(&mut counters, &mut resources, &mut statements, &mut index, &mut text).unwrap();
    assert!(!store.is_sound());
    assert_eq!(store.statement(StatementId(1)), Err(Error::Damaged));
    assert_eq!(store.scan(ALL).unwrap().collect::<Vec<_>>(), [Err(Error::Damaged)]);
}

#[test]
fn short_slices_are_values() {
    let mut three = [0; COUNTER_WORDS - 1];
    assert_eq!(Store::new(&mut three, &mut [], &mut [], &mut [], &mut []).err(), Some(Error::TooShort));
    with_bay(|store, _| {
        let cursor = store.scan_open(ALL).unwrap();
        let mut short = cursor[..SCAN_CURSOR_WORDS - 1].to_vec();
        assert_eq!(store.scan_next(&mut short, 1), Err(Error::TooShort));
        assert_eq!(short, cursor[..SCAN_CURSOR_WORDS - 1]);
        let question = Question::new(&[]);
        assert_eq!(store.query_next(&question, &mut [0; QUERY_CURSOR_WORDS - 1], 1), Err(Error::TooShort));
        let mut long = [cursor.as_slice(), &[77]].concat();
        assert!(store.scan_next(&mut long, 1).is_ok());
        assert_eq!(long[SCAN_CURSOR_WORDS], 77);
    })
}

#[test]
fn empty_tables_have_pointers() {
    let (mut counters, mut words, mut bytes) = ([0; COUNTER_WORDS], Vec::<u32>::new(), Vec::<u8>::new());
    assert!(words.as_ptr() as usize != 0 && bytes.as_ptr() as usize != 0);
    let (statements, index): (&mut [u32], &mut [u32]) = (&mut [], &mut []);
    assert!(statements.as_ptr() as usize != 0 && index.as_ptr() as usize != 0);
    let mut store = Store::new(&mut counters, &mut words, statements, index, &mut bytes).unwrap();
    assert!(store.is_sound());
    assert_eq!(store.enter(b"<a>"), Err(Error::Full));
    assert_eq!(store.find(&[]), Err(Error::Malformed));
    assert_eq!(answers(store.scan(ALL)).len(), 0);
    let mut over = [1, 0, 0, 0];
    let store = Store::new(&mut over, &mut [], &mut [], &mut [], &mut []).unwrap();
    assert_eq!(store.find(b"<a>"), Err(Error::Capacity));
    assert_eq!(Lines::new(&[]).next(), None);
}

#[test]
fn lines_are_parts_of_the_text() {
    let text = b"<a> <b> _:c.\n# nothing\r\n<a>\n\"a\"";
    let mut lines = Lines::new(text);
    assert_eq!(lines.next(), Some(Ok(Line::Triple([b"<a>", b"<b>", b"_:c"]))));
    assert_eq!(lines.next(), Some(Ok(Line::Nothing)));
    assert_eq!(lines.next(), Some(Err(Error::BadLine { offset: 3 })));
    assert_eq!(lines.next(), Some(Err(Error::BadLine { offset: 0 })));
    assert_eq!((lines.next(), lines.position()), (None, text.len()));
    assert_eq!(name_kind(b"<a>"), Ok(Kind::Iri));
    assert_eq!(name_kind(b"_:a"), Ok(Kind::Blank));
    assert_eq!(name_kind(b"\"a\"@en"), Ok(Kind::Literal));
    assert_eq!(name_kind(b"_:a."), Err(Error::Malformed));
}

#[test]
fn a_label_typed_two_ways_is_one() {
    let spelled = b"\"A\"^^<http://www.w3.org/2001/XMLSchema#string>";
    with_bay(|store, [relay, trips, _, _]| {
        let label = store.enter(spelled).unwrap();
        assert_eq!(store.enter(b"\"A\""), Ok(label));
        assert_eq!((store.find(spelled), store.find(b"\"A\"")), (at(label, 0), at(label, 0)));
        assert_eq!(store.name(label), Ok(&b"\"A\""[..]));
        // A beginning is taken as it is.
        assert_eq!((beginning(store, b"\"A\""), beginning(store, spelled)), (vec![label.0], vec![]));
        assert_eq!(store.counters(), Counters { resources: 5, statements: 2, text: 7 + 10 + 6 + 6 + 4, reclaims: 0 });
        assert_eq!(store.assert(relay, trips, label), Ok(Asserted::New(StatementId(3))));
        assert!(store.is_sound());
    });
    let text = b"<a> <b> \"A\"^^<http://www.w3.org/2001/XMLSchema#string>.\n<a> <b> \"A\" .\n";
    let triple = Some(Ok(Line::Triple([b"<a>", b"<b>", b"\"A\""])));
    let mut lines = Lines::new(text);
    assert_eq!((lines.next(), lines.next()), (triple, triple));
    assert_eq!((lines.next(), lines.position()), (None, text.len()));
    assert_eq!(name_kind(spelled), Ok(Kind::Literal));

    let (mut counters, mut resources, mut index, mut held) = ([1, 0, 47, 0], [0, 0, 0, 0, 0, 0, 0, 3, 0, 0, 0], [1], [0; 47]);
    held[..46].copy_from_slice(spelled);
    let store = Store::new(&mut counters, &mut resources, &mut [], &mut index, &mut held).unwrap();
    assert!(!store.is_sound());
}

const FILE: &[u8] = b"<r:21> <p:trips> <b:4> .\n<r:21> <p:trips> <b:7> .\n";

/// What a store writes into so many bytes and words that hold 77, and what these hold then.
fn exported(store: &Store, bytes: usize, words: usize) -> (Result<usize, Error>, Vec<u8>, Vec<u32>) {
    let (mut out, mut work) = (vec![77; bytes], vec![77; words]);
    (store.export(&mut out, &mut work), out, work)
}

/// Bytes and words that a refusal leaves.
fn no_space(error: Error, bytes: usize, words: usize) -> (Result<usize, Error>, Vec<u8>, Vec<u32>) {
    (Err(error), vec![77; bytes], vec![77; words])
}

/// Memory for the file and nothing else, and some more, which keeps its values; a byte less, a word less, and nothing.
#[test]
fn the_statements_are_written_as_a_file() {
    with_bay(|store, [relay, trips, b4, b7]| {
        assert_eq!(exported(store, 50, 2), (Ok(50), FILE.to_vec(), vec![0, 0]));
        assert_eq!(exported(store, 52, 3), (Ok(50), [FILE, &[77, 77]].concat(), vec![0, 0, 77]));
        for (bytes, words) in [(49, 2), (50, 1), (0, 2), (50, 0), (0, 0)] {
            assert_eq!(exported(store, bytes, words), no_space(Error::ExportSpace, bytes, words));
        }
        assert_eq!(store.export_to_vec(), Ok(FILE.to_vec()));

        // A retracted statement has no line, and a working word all the same. In byte order the new line is the first.
        store.retract(relay, trips, b4).unwrap();
        assert_eq!(exported(store, 25, 2), (Ok(25), FILE[25..].to_vec(), vec![0, 0]));
        assert_eq!(exported(store, 25, 1), no_space(Error::ExportSpace, 25, 1));
        store.assert(b4, trips, b7).unwrap();
        assert_eq!(store.export_to_vec(), Ok([b"<b:4> <p:trips> <b:7> .\n", &FILE[25..]].concat()));
        store.retract(b4, trips, b7).unwrap();
        store.retract(relay, trips, b7).unwrap();
        assert_eq!(exported(store, 1, 4), (Ok(0), vec![77], vec![0, 0, 0, 77]));
        store.reclaim().unwrap();
        assert_eq!(exported(store, 0, 0), (Ok(0), vec![], vec![]));
        assert!(store.is_sound());
    })
}

/// The same statements under other numbers, entered and asserted in another order; and a label in either spelling.
#[test]
fn equal_graphs_give_equal_files() {
    with_store(|store| {
        let [b7, b4, trips, relay] = ["<b:7>", "<b:4>", "<p:trips>", "<r:21>"].map(|name| store.enter(name.as_bytes()).unwrap());
        store.assert(relay, trips, b7).unwrap();
        store.assert(relay, trips, b4).unwrap();
        assert_eq!(store.export_to_vec(), Ok(FILE.to_vec()));
        let label = store.enter(b"\"A\"^^<http://www.w3.org/2001/XMLSchema#string>").unwrap();
        store.assert(relay, trips, label).unwrap();
        assert_eq!(store.export_to_vec(), Ok([b"<r:21> <p:trips> \"A\" .\n", FILE].concat()));
    })
}

/// Counters over their capacity, before anything else; a flag, a resource and a name that cannot be read, in a retracted statement too and
/// before the space; names that are no names are written as they are.
#[test]
fn files_of_any_tables() {
    for over in [[0, 1, 0, 0], [0, u32::MAX, 0, 0], [0, 0, 1, 0], [0, 0, 0, MAX_RECLAIMS + 1]] {
        let (mut counters, mut statements) = (over, [0; STATEMENT_WORDS - 1]);
        let store = Store::new(&mut counters, &mut [], &mut statements, &mut [], &mut []).unwrap();
        assert_eq!(exported(&store, 9, 9), no_space(Error::Capacity, 9, 9));
        assert_eq!(store.export_to_vec(), Err(Error::Capacity));
    }
    with_bay(|store, [relay, trips, b4, _]| {
        store.retract(relay, trips, b4).unwrap();
        let statements = store.statements.to_vec();
        for (place, word) in [(0, 0), (1, 5), (2, u32::MAX), (STATEMENT_WORDS - 1, 2)] {
            store.statements[place] = word;
            assert_eq!(
                (exported(store, 50, 2), exported(store, 0, 0)),
                (no_space(Error::Damaged, 50, 2), no_space(Error::Damaged, 0, 0))
            );
            assert_eq!(store.export_to_vec(), Err(Error::Damaged));
            store.statements.copy_from_slice(&statements);
        }
        // The name of <b:4>, which only the retracted statement has.
        let offset = 2 * RESOURCE_WORDS + LIVE - 2;
        assert_eq!(mem::replace(&mut store.resources[offset], 7 + 10 + 6 + 6), 7 + 10);
        assert_eq!(exported(store, 50, 2), no_space(Error::Damaged, 50, 2));
        store.resources[offset] = 7 + 10;
        store.text[1..6].copy_from_slice(b"\n\xff \0>");
        assert_eq!(store.export_to_vec(), Ok(b"<\n\xff  <p:trips> <b:7> .\n".to_vec()));
    })
}

/// `samples/substation.nt` in tables of the loading program's lengths. Its totals are counted from its lines, without a store.
#[test]
fn the_substation_fits() {
    let input = std::fs::read(concat!(env!("CARGO_MANIFEST_DIR"), "/../../samples/substation.nt")).unwrap();
    let (mut counters, mut resources, mut statements) =
        ([0; COUNTER_WORDS], [7; 512 * RESOURCE_WORDS], [7; 1024 * STATEMENT_WORDS]);
    let (mut index, mut text) = ([7; 512], [7; 16384]);
    let mut store = Store::new(&mut counters, &mut resources, &mut statements, &mut index, &mut text).unwrap();
    for line in Lines::new(&input) {
        if let Line::Triple(names) = line.unwrap() {
            let [subject, predicate, object] = names.map(|name| store.enter(name).unwrap());
            assert!(matches!(store.assert(subject, predicate, object), Ok(Asserted::New(_))));
        }
    }
    assert_eq!(store.counters(), Counters { resources: 298, statements: 641, text: 3566, reclaims: 0 });
    assert_eq!((store.with_prefix(b"").unwrap().len(), store.with_prefix(b"<r:").unwrap().len()), (298, 17));
    let relays: Vec<&[u8]> = store.with_prefix(b"<r:").unwrap().map(|id| store.name(id).unwrap()).collect();
    assert!(relays.windows(2).all(|two| two[0] < two[1]) && relays.iter().all(|name| name.starts_with(b"<r:")));
    assert!(store.is_sound());

    // Its file is its own triples, sorted; loaded into a fresh store it is written again.
    let file = store.export_to_vec().unwrap();
    let triples = Lines::new(&input).filter_map(|line| match line.unwrap() {
        Line::Triple([subject, predicate, object]) => Some([subject, b" ", predicate, b" ", object, b" .\n"].concat()),
        Line::Nothing => None,
    });
    let mut lines: Vec<Vec<u8>> = triples.collect();
    lines.sort();
    assert_eq!(file, lines.concat());
    counters = [0; COUNTER_WORDS];
    let mut store = Store::new(&mut counters, &mut resources, &mut statements, &mut index, &mut text).unwrap();
    for line in Lines::new(&file) {
        let Line::Triple(names) = line.unwrap() else { panic!("a file has triples alone") };
        let [subject, predicate, object] = names.map(|name| store.enter(name).unwrap());
        assert!(matches!(store.assert(subject, predicate, object), Ok(Asserted::New(_))));
    }
    assert_eq!(store.counters(), Counters { resources: 298, statements: 641, text: 3566, reclaims: 0 });
    assert_eq!(store.export_to_vec(), Ok(file));
}

#[test]
fn every_refusal_has_its_number_and_text() {
    let mut texts = Vec::new();
    for number in (1..=17).chain([100]) {
        let error = Error::result_of(number, 0).unwrap_err();
        assert_eq!(error.number(), number);
        texts.push(error.to_string());
    }
    texts.sort();
    texts.dedup();
    assert_eq!(texts.len(), 18);
    assert_eq!(Error::result_of(0, 0), Ok(()));
}
