//! Damages to a store: words that are wrong by themselves, and statements and names that are wrong although every link to them is right.

use crate::plain::{
    resource_at, statement_at, Lent, COUNT, COUNTER_WORDS, FIRST, FLAG, LEVELS, LIVE, NEXT, OFFSET, PLACES, RECLAIMS,
    RESOURCE_WORDS, STATEMENT_WORDS,
};
use crate::random::Random;

/// Damages a store in one to three places, mostly in the words of its records.
pub fn damage(random: &mut Random, lent: &mut Lent) {
    for _ in 0..random.from_to(1, 3) {
        match random.below(24) {
            0..=9 => word(random, lent),
            10 | 11 => index(random, lent),
            12 => text(random, lent),
            13 | 14 => counter(random, lent),
            15 => length(random, lent),
            16 | 17 => statement(random, lent),
            18 | 19 => live_counts(random, lent),
            20 | 21 => lent.counters[RECLAIMS] = random.late_reclaims(),
            _ => name(random, lent),
        }
    }
}

/// The words of the records in use.
fn used(words: &mut [u32], counter: u32, record: usize) -> &mut [u32] {
    let end = words.len().min(record * counter as usize);
    &mut words[..end]
}

fn word(random: &mut Random, lent: &mut Lent) {
    let counters = lent.counters[..COUNTER_WORDS].to_vec();
    let words = match random.below(2) {
        0 => used(&mut lent.resources, counters[0], RESOURCE_WORDS),
        _ => used(&mut lent.statements, counters[1], STATEMENT_WORDS),
    };
    random.damage(words, &counters, 1);
}

/// A word of the index, or two numbers that stand in each other's place.
fn index(random: &mut Random, lent: &mut Lent) {
    let counters = lent.counters[..COUNTER_WORDS].to_vec();
    let index = used(&mut lent.index, counters[0], 1);
    if index.len() > 1 && random.one_in(2) {
        index.swap(random.below(index.len()), random.below(index.len()));
    } else {
        random.damage(index, &counters, 1);
    }
}

fn text(random: &mut Random, lent: &mut Lent) {
    let end = lent.text.len().min(lent.counters[2] as usize);
    if end > 0 {
        lent.text[random.below(end)] = random.of(&[0, 0, b'a', b'>', b'<', b'"', 200]);
    }
}

fn counter(random: &mut Random, lent: &mut Lent) {
    let counters = lent.counters[..COUNTER_WORDS].to_vec();
    let which = random.below(COUNTER_WORDS);
    match random.below(3) {
        0 => random.damage(&mut lent.counters[..COUNTER_WORDS], &counters, 1),
        _ => lent.counters[which] = lent.counters[which].wrapping_add(random.of(&[1, 1, u32::MAX])),
    }
}

/// A table that is one word or byte too short for what it holds.
fn length(random: &mut Random, lent: &mut Lent) {
    let [r, t, b] = [0, 1, 2].map(|k| lent.counters[k] as usize);
    match random.below(4) {
        0 => lent.resources.truncate((RESOURCE_WORDS * r).saturating_sub(1)),
        1 => lent.statements.truncate((STATEMENT_WORDS * t).saturating_sub(1)),
        2 => lent.index.truncate(r.saturating_sub(1)),
        _ => lent.text.truncate(b.saturating_sub(1)),
    }
}

/// Live counts of one resource, often of one that a statement holds in that place: about their counts, about what they were, 0, or any
/// word; at one place or at several.
fn live_counts(random: &mut Random, lent: &mut Lent) {
    let (triple, here) = (random.triple(lent), random.below(PLACES));
    if !lent.within_capacity() || !lent.is_resource(triple[here]) {
        return;
    }
    let several = random.one_in(3);
    for place in 0..PLACES {
        if place == here || several && random.one_in(2) {
            let (count, live) = (lent.count(triple[here], place), lent.live(triple[here], place));
            let word = match random.below(8) {
                0 | 1 => count.wrapping_add(1),
                2 | 3 => 0,
                4 => count.wrapping_sub(random.below(2) as u32),
                5 => live.wrapping_add(1),
                6 => live.wrapping_sub(1),
                _ => random.wild(&lent.counters),
            };
            lent.resources[resource_at(triple[here]) + LIVE + place] = word;
        }
    }
}

/// Another triple in a statement's place, perhaps one that is there already or of kinds that are not permitted, with every chain and
/// count right.
fn statement(random: &mut Random, lent: &mut Lent) {
    let (r, t) = (lent.r(), lent.t());
    if t == 0 || !lent.within_capacity() {
        return;
    }
    let triple = random.triple(lent);
    let at = STATEMENT_WORDS * random.below(t as usize);
    lent.statements[at..at + PLACES].copy_from_slice(&triple);
    for y in 1..=r {
        let record = resource_at(y);
        lent.resources[record + FIRST..][..PLACES].fill(0);
        lent.resources[record + COUNT..][..PLACES].fill(0);
        lent.resources[record + LIVE..][..PLACES].fill(0);
    }
    for n in 1..=t {
        let at = statement_at(n);
        for place in 0..PLACES {
            let member = lent.statements[at + place];
            if 1 <= member && member <= r {
                let record = resource_at(member);
                lent.statements[at + NEXT + place] = lent.resources[record + FIRST + place];
                lent.resources[record + FIRST + place] = n;
                lent.resources[record + COUNT + place] += 1;
                lent.resources[record + LIVE + place] += (lent.flag(n) == 0) as u32;
            }
        }
    }
}

/// Other names: one changed, doubled, of no form or with the string ending, with every offset, kind and place in the index as its bytes
/// have it. The text grows where they need it, and at times there is room for a name more.
fn name(random: &mut Random, lent: &mut Lent) {
    let (r, b) = (lent.counters[0] as usize, lent.counters[2] as usize);
    if r == 0 || !lent.within_capacity() {
        return;
    }
    let mut names: Vec<Vec<u8>> = lent.text[..b].split(|&byte| byte == 0).map(|name| name.to_vec()).collect();
    names.resize(r, vec![]);
    let which = random.below(r);
    match random.below(4) {
        0 => names[which] = names[random.below(r)].clone(),
        1 => names[which] = random.name(),
        2 => {
            // In a literal's place, where there is one, the statements keep their permitted kinds.
            let literal = names.iter().position(|name| name.first() == Some(&b'"'));
            names[literal.unwrap_or(which)] = random.label();
        }
        _ => random.mutate(&mut names[which]),
    }
    let text: Vec<u8> = names.iter().flat_map(|name| name.iter().chain(&[0])).copied().collect();
    if text.len() > lent.text.len() {
        lent.text.resize(text.len() + random.below(6), 0);
    }
    if random.one_in(4) {
        lent.text.resize(lent.text.len().max(text.len() + 60), 0);
        lent.resources.resize(lent.resources.len() + RESOURCE_WORDS, 0);
        lent.index.resize(lent.resources.len() / RESOURCE_WORDS, 0);
    }
    lent.counters[2] = text.len() as u32;
    lent.text[..text.len()].copy_from_slice(&text);
    let mut offset = 0;
    for (k, name) in names.iter().enumerate() {
        let kind = match name.first() {
            Some(b'<') => 1,
            Some(b'_') => 2,
            _ => 3,
        };
        lent.resources[RESOURCE_WORDS * k + OFFSET..][..2].copy_from_slice(&[offset, kind]);
        offset += name.len() as u32 + 1;
    }
    let mut sorted: Vec<u32> = (1..=r as u32).collect();
    sorted.sort_by_key(|&n| &names[n as usize - 1]);
    lent.index[..r].copy_from_slice(&sorted);
}

/// Strikes out or damages records that a question's cursor has entered: flags, and the nexts on their chains.
pub fn entered_records(random: &mut Random, lent: &mut Lent, cursor: &[u32]) {
    let entered = cursor.get(1).map_or(0, |levels| levels.saturating_sub(1)) as usize;
    for level in cursor.get(LEVELS..).unwrap_or(&[]).chunks_exact(2).take(entered) {
        let (chain, n) = (level[0] as usize, level[1] as usize);
        if n == 0 || n > lent.statements.len() / STATEMENT_WORDS || random.one_in(2) {
            continue;
        }
        let record = &mut lent.statements[STATEMENT_WORDS * (n - 1)..STATEMENT_WORDS * n];
        match random.below(4) {
            0 | 1 => record[FLAG] = 1,
            2 => record[FLAG] = 2,
            _ if (1..=PLACES).contains(&chain) => record[NEXT + chain - 1] = n as u32 + random.below(2) as u32,
            _ => {}
        }
    }
}
