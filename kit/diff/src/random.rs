//! Random numbers from a seed (splitmix64), and the random values that calls are made of.

use crate::names::{quoted_and_suffix, MAX_NAME, STRING_ENDING};
use crate::plain::{Lent, FIRST_VARIABLE, MAX_PATTERNS, MAX_RECLAIMS, PLACES, RESOURCE_WORDS, STATEMENT_WORDS, VARIABLES};

pub struct Random {
    state: u64,
}

impl Random {
    pub fn new(seed: u64) -> Random {
        Random { state: seed }
    }

    pub fn any(&mut self) -> u64 {
        self.state = self.state.wrapping_add(0x9E37_79B9_7F4A_7C15);
        let mut z = self.state;
        z = (z ^ (z >> 30)).wrapping_mul(0xBF58_476D_1CE4_E5B9);
        z = (z ^ (z >> 27)).wrapping_mul(0x94D0_49BB_1331_11EB);
        z ^ (z >> 31)
    }

    /// A number from 0 to below `n`.
    pub fn below(&mut self, n: usize) -> usize {
        (self.any() % n as u64) as usize
    }

    /// A number from `low` to `high`, both included.
    pub fn from_to(&mut self, low: usize, high: usize) -> usize {
        low + self.below(high - low + 1)
    }

    pub fn one_in(&mut self, n: usize) -> bool {
        self.below(n) == 0
    }

    pub fn of<T: Copy>(&mut self, choices: &[T]) -> T {
        choices[self.below(choices.len())]
    }

    /// A word of the kind that damages: near 0, near a counter, near where variables begin and end, near the top, or any.
    pub fn wild(&mut self, counters: &[u32]) -> u32 {
        let near = match self.below(8) {
            0 | 1 => 1,
            2..=4 if !counters.is_empty() => self.of(counters),
            5 => FIRST_VARIABLE,
            6 => FIRST_VARIABLE + VARIABLES as u32,
            7 if self.one_in(4) => self.any() as u32,
            _ => 0,
        };
        near.wrapping_add(self.of(&[0, 0, 1, 2, u32::MAX, u32::MAX - 1]))
    }

    /// A resource's number, mostly one that exists.
    pub fn resource(&mut self, lent: &Lent) -> u32 {
        self.number(lent, 0)
    }

    /// A position of a triple, mostly.
    pub fn position(&mut self, lent: &Lent) -> u32 {
        if self.one_in(12) {
            self.wild(&lent.counters)
        } else {
            self.below(PLACES) as u32
        }
    }

    /// A statement's number, mostly one that exists.
    pub fn statement(&mut self, lent: &Lent) -> u32 {
        self.number(lent, 1)
    }

    fn number(&mut self, lent: &Lent, counter: usize) -> u32 {
        match lent.counters.get(counter) {
            Some(&count @ 1..=1000) if !self.one_in(20) => {
                // The low numbers more often, so that triples and patterns meet.
                let most = if self.one_in(2) { count.min(2) } else { count };
                self.from_to(1, most as usize) as u32
            }
            Some(&count) if count > 1000 && !self.one_in(4) => count - self.below(3) as u32,
            _ => self.wild(&lent.counters),
        }
    }

    /// The triple of a statement, if the table holds it.
    fn stated(&mut self, lent: &Lent) -> Option<[u32; 3]> {
        let at = STATEMENT_WORDS * (self.statement(lent) as usize).saturating_sub(1);
        lent.statements.get(at..at + PLACES).map(|words| [words[0], words[1], words[2]])
    }

    /// A triple, often that of a statement, so that it is met again.
    pub fn triple(&mut self, lent: &Lent) -> [u32; 3] {
        match self.stated(lent) {
            Some(triple) if self.one_in(2) => triple,
            _ => [0; 3].map(|_| self.resource(lent)),
        }
    }

    /// A listing's pattern: each place is any or a number.
    pub fn pattern(&mut self, lent: &Lent) -> [u32; 3] {
        let open = self.of(&[2, 2, 3, 6]);
        self.triple(lent).map(|number| if self.one_in(open) { 0 } else { number })
    }

    /// A budget for a listing, or for a question of some patterns.
    pub fn budget(&mut self, lent: &Lent, patterns: usize) -> u32 {
        match self.below(10) {
            0 => 0,
            1..=3 => 1,
            4..=6 => self.from_to(2, 4) as u32,
            7 | 8 => self.from_to(5, 60) as u32,
            // A question may take all records to the power of its patterns.
            _ if (u64::from(lent.t()) + 1).saturating_pow(patterns as u32) > 100_000 => 500,
            _ => u32::MAX,
        }
    }

    /// The words of a question, mostly right.
    pub fn words(&mut self, lent: &Lent) -> Vec<u32> {
        // A variable stands for one resource throughout at times, so that statements that are there make a solution; and at times every
        // pattern is such a statement, so that six of them have one too.
        let stated = self.one_in(3);
        let consistent = stated || self.one_in(2);
        let patterns = match self.below(10) {
            0 | 1 if stated => MAX_PATTERNS,
            0..=2 => self.from_to(0, MAX_PATTERNS),
            _ => self.from_to(1, 3),
        };
        let variables = if stated { VARIABLES } else { self.of(&[1, 2, 3, 4, VARIABLES]) };
        let sparse = self.of(&[2, 3, 4]);
        let mut words = vec![];
        for _ in 0..patterns {
            let triple = if stated { self.stated(lent) } else { None };
            for number in triple.unwrap_or_else(|| self.triple(lent)) {
                let variable = if consistent { number as usize % variables } else { self.below(variables) };
                let constant = self.one_in(sparse);
                words.push(if constant { number } else { FIRST_VARIABLE + variable as u32 });
            }
        }
        match self.below(40) {
            0 => words.push(FIRST_VARIABLE),
            1 => words.truncate(words.len().saturating_sub(1)),
            2 => words.resize(self.from_to(PLACES * MAX_PATTERNS - 1, PLACES * MAX_PATTERNS + 6), FIRST_VARIABLE),
            3 | 4 if !words.is_empty() => {
                let at = self.below(words.len());
                words[at] = self.wild(&lent.counters);
            }
            _ => {}
        }
        words
    }

    /// A number of reclaims about the limit of them.
    pub fn late_reclaims(&mut self) -> u32 {
        match self.below(8) {
            0..=2 => MAX_RECLAIMS - 1,
            3..=5 => MAX_RECLAIMS,
            6 => MAX_RECLAIMS + 1,
            _ => self.of(&[MAX_RECLAIMS + 2, FIRST_VARIABLE, u32::MAX]),
        }
    }

    /// A cursor's number of reclaims that is mostly another one than the store's.
    pub fn other_reclaims(&mut self, lent: &Lent) -> u32 {
        match self.below(8) {
            0..=2 => lent.reclaims().wrapping_add(1),
            3..=5 => lent.reclaims().wrapping_sub(1),
            6 => self.late_reclaims(),
            _ => self.wild(&lent.counters),
        }
    }

    /// The number of reclaims for a cursor that is made up.
    fn cursor_reclaims(&mut self, lent: &Lent) -> u32 {
        if self.one_in(10) {
            self.other_reclaims(lent)
        } else {
            lent.reclaims()
        }
    }

    pub fn scan_cursor(&mut self, lent: &Lent) -> Vec<u32> {
        let pattern = self.pattern(lent);
        let (chain, next) = (self.below(5) as u32, self.statement(lent));
        vec![pattern[0], pattern[1], pattern[2], chain, next, self.cursor_reclaims(lent)]
    }

    pub fn query_cursor(&mut self, lent: &Lent, patterns: usize) -> Vec<u32> {
        let levels = self.below(patterns + 2);
        let mut cursor = vec![self.of(&[0, 1, 1, 1, 1, 1, 1, 1, 2, 3]), levels as u32, self.cursor_reclaims(lent)];
        for level in 0..MAX_PATTERNS {
            // Mostly the chains that a question of variables takes: all records first, then any place.
            let chain = if level == 0 && self.one_in(2) { 0 } else { self.below(4) as u32 };
            let chain = if self.one_in(40) { self.wild(&lent.counters) } else { chain };
            let record = if self.one_in(6) { 0 } else { self.statement(lent) };
            cursor.extend([chain, record]);
        }
        if self.one_in(10) {
            cursor[self.below(2)] = self.wild(&lent.counters);
        }
        cursor
    }

    /// Alters a cursor that was kept, at times: one of its words, or its number of reclaims. Whether it did.
    pub fn alter_cursor(&mut self, cursor: &mut [u32], reclaims: usize, lent: &Lent) -> bool {
        let (word, number) = (self.one_in(6), self.one_in(16));
        if word {
            self.damage(cursor, &lent.counters, 1);
        }
        if number {
            cursor[reclaims] = self.other_reclaims(lent);
        }
        word || number
    }

    /// Damages some words of a slice.
    pub fn damage(&mut self, words: &mut [u32], counters: &[u32], times: usize) {
        for _ in 0..times {
            if !words.is_empty() {
                let at = self.below(words.len());
                words[at] = match self.below(3) {
                    0 => words[at] ^ (1 << self.below(32)),
                    1 => words[at].wrapping_add(self.of(&[1, u32::MAX])),
                    _ => self.wild(counters),
                };
            }
        }
    }

    // ---- names and lines

    /// A short name for a store, from few, so that many are met again; from more where the store has room for them.
    pub fn short_name(&mut self, lent: &Lent) -> Vec<u8> {
        const NAMES: [&str; 14] =
            ["<a>", "<b>", "<c>", "<d>", "<ab>", "<a/b>", "_:a", "_:b", "_:a.b", "\"\"", "\"a\"", "\"a\"@en", "\"b\"^^<a>", "<B>"];
        if self.one_in(150) {
            return vec![];
        }
        if self.one_in(60) {
            return self.name();
        }
        if self.one_in(6) {
            return self.label_of(lent);
        }
        if lent.resources.len() / RESOURCE_WORDS > NAMES.len() && !self.one_in(4) {
            let k = self.below(20);
            let mut name = self.of(&["<n#>", "<n#>", "<p#>", "<p#>", "_:n#", "\"#\""]).replace('#', &k.to_string()).into_bytes();
            if name[0] == b'"' && self.one_in(2) {
                name.extend_from_slice(STRING_ENDING);
            }
            return name;
        }
        let kinds = if self.one_in(3) { NAMES.len() } else { 6 };
        NAMES[self.below(kinds)].as_bytes().to_vec()
    }

    /// A label, without the string ending or with it, or something close to that.
    pub fn label(&mut self) -> Vec<u8> {
        // With the ending, 210 bytes between the quotes make a name of 255.
        let inner = match self.below(5) {
            0 => "a".repeat(self.of(&[208, 209, 210, 210, 210, 211, 211, 212])),
            _ => self.of(&["", "", "a", "a", "a", "b", "\\\\", "^^<a>"]).to_string(),
        };
        self.spelling(format!("\"{inner}\"").as_bytes())
    }

    fn spelling(&mut self, quoted: &[u8]) -> Vec<u8> {
        match self.below(8) {
            0..=2 => quoted.to_vec(),
            3..=5 => [quoted, STRING_ENDING].concat(),
            _ => self.near_ending(quoted),
        }
    }

    /// A label, often one of a store's literals as it stands there or in another spelling.
    fn label_of(&mut self, lent: &Lent) -> Vec<u8> {
        let literals: Vec<&[u8]> = lent.used_text().split(|&byte| byte == 0).filter(|name| name.first() == Some(&b'"')).collect();
        if literals.is_empty() || self.one_in(2) {
            return self.label();
        }
        let literal = self.of(&literals);
        match quoted_and_suffix(literal) {
            Some((quoted, _)) if !self.one_in(4) => self.spelling(quoted),
            _ => literal.to_vec(),
        }
    }

    /// What is close to a literal with the string ending: names that keep all their bytes, and bytes that are no name.
    fn near_ending(&mut self, quoted: &[u8]) -> Vec<u8> {
        let unclosed = &quoted[..quoted.len() - 1];
        let (open, datatype) = (&STRING_ENDING[..STRING_ENDING.len() - 1], &STRING_ENDING[2..]);
        match self.below(14) {
            0 => [quoted, b"^^<http://www.w3.org/2001/XMLSchema#String>"].concat(),
            1 => [unclosed, STRING_ENDING, b"\""].concat(),
            2 => [unclosed, STRING_ENDING].concat(),
            3 => [unclosed, b"\\\"", STRING_ENDING].concat(),
            4 => [quoted, open, self.of(&["", "s>", "/>"]).as_bytes()].concat(),
            5 => [quoted, STRING_ENDING, self.of(&["@en", ">", " ", "^^<a>", "s"]).as_bytes()].concat(),
            6 => [quoted, STRING_ENDING, STRING_ENDING].concat(),
            7 => [self.of(&["", "<a>", "_:a", "\"a\"@en", "\"a\"^^<a>"]).as_bytes(), STRING_ENDING].concat(),
            8 => datatype.to_vec(),
            // Shorter than the ending, and the same from the last byte back.
            9 => [b"<", &datatype[self.from_to(1, datatype.len() - 2)..]].concat(),
            10 => [quoted, self.of(&["^^<a", "^^<a:", "^^<", "^", "^<"]).as_bytes(), &datatype[1..]].concat(),
            _ => {
                let mut ending = STRING_ENDING.to_vec();
                ending[self.below(STRING_ENDING.len())] = self.of(b"gGs/#:.w<>^2");
                [quoted, &ending].concat()
            }
        }
    }

    /// The beginning of a name, mostly of one of a store's names: cut anywhere, whole, or with bytes that stand after it in the text; at
    /// times its last byte is another one or a byte follows, and at times its length is about the limit.
    pub fn beginning(&mut self, lent: &Lent) -> Vec<u8> {
        let used = lent.used_text();
        let starts: Vec<usize> = (0..used.len()).filter(|&at| at == 0 || used[at - 1] == 0).collect();
        let mut beginning = match self.below(16) {
            0 => vec![],
            1 => self.name(),
            2 => self.label(),
            3 | 4 => {
                let name = self.short_name(lent);
                name[..self.from_to(0, name.len())].to_vec()
            }
            _ if starts.is_empty() => self.of(&["<", "<a", "_:", "\"", "z"]).as_bytes().to_vec(),
            way => {
                let from = &used[self.of(&starts)..];
                let whole = from.iter().position(|&byte| byte == 0).unwrap_or(from.len());
                let end = match way {
                    5..=11 => self.from_to(0, whole),
                    12 | 13 => whole,
                    _ => from.len().min(whole + self.from_to(1, 6)),
                };
                from[..end].to_vec()
            }
        };
        match self.below(16) {
            0 => beginning.push(0),
            1 => beginning.push(255),
            2 => beginning.push(self.byte()),
            way @ 3..=7 => {
                if let Some(last) = beginning.last_mut() {
                    *last = [last.wrapping_add(1), last.wrapping_sub(1), 0, 255, self.byte()][way - 3];
                }
            }
            8 => beginning.resize(self.from_to(MAX_NAME - 1, MAX_NAME + 2), self.of(b"a>\x00\xff")),
            _ => {}
        }
        beginning
    }

    /// Words for a list of so many: none, fewer, as many, more.
    pub fn list_words(&mut self, total: usize) -> usize {
        match self.below(5) {
            0 => 0,
            1 => self.below(total + 1),
            2 => total.saturating_sub(1),
            3 => total,
            _ => total + self.from_to(1, 3),
        }
    }

    /// Bytes or words for a file that takes so many: mostly as many or more, else one fewer, any fewer, or none.
    pub fn space(&mut self, needed: usize) -> usize {
        match self.below(10) {
            0 => needed.saturating_sub(1),
            1 => self.below(needed + 1),
            2 => 0,
            3..=5 => needed + self.from_to(1, 9),
            _ => needed,
        }
    }

    fn bytes(&mut self, length: usize, alphabet: &[u8]) -> Vec<u8> {
        (0..length).map(|_| self.of(alphabet)).collect()
    }

    fn inner_length(&mut self) -> usize {
        match self.below(12) {
            0 => self.from_to(MAX_NAME - 12, MAX_NAME + 3),
            1 => self.from_to(5, 40),
            _ => self.from_to(0, 4),
        }
    }

    /// A name, mostly well formed, of any kind and of lengths around the limit too, or no bytes.
    pub fn name(&mut self) -> Vec<u8> {
        if self.one_in(100) {
            return vec![];
        }
        let length = self.inner_length();
        let mut name = match self.below(9) {
            0..=2 => [b"<".to_vec(), self.bytes(length.max(1), b"ab/#:._-~!"), b">".to_vec()].concat(),
            3 | 4 => {
                let dots = self.one_in(2);
                let label = self.bytes(length, if dots { b"a0_-." } else { b"aZ9_-" });
                [b"_:a".to_vec(), label].concat()
            }
            5..=7 => self.literal(length),
            _ => self.label(),
        };
        if self.one_in(4) {
            self.mutate(&mut name);
        }
        if self.one_in(8) && name.len() > MAX_NAME - 8 {
            // Cut or grown to lie at the limit, whatever that does to its form.
            let closing = name.pop();
            name.resize(self.from_to(MAX_NAME - 3, MAX_NAME + 1), b'a');
            name.extend(closing);
        }
        name
    }

    fn literal(&mut self, length: usize) -> Vec<u8> {
        let tails = ["", "", "", "@en", "@en-GB", "@a-1-b", "^^<t>", "^^<a:b#c>", "@", "@en-", "@1", "^^", "^<t>", "^^<>"];
        let tail = if self.one_in(5) { STRING_ENDING } else { self.of(&tails).as_bytes() };
        // About the limit it is the whole name, as it is spelled, that lies there.
        let length = if length > MAX_NAME / 2 { length - tail.len() } else { length };
        let mut name = vec![b'"'];
        while name.len() < length + 1 {
            let pair = self.of(&["a", "b", " ", "#", "<", ">", ".", "\\\"", "\\\\", "\\n", "\\r", "@", "^"]);
            name.extend_from_slice(pair.as_bytes());
        }
        name.push(b'"');
        name.extend_from_slice(tail);
        name
    }

    /// A byte that matters to names or lines, or any.
    fn byte(&mut self) -> u8 {
        if self.one_in(6) {
            return self.any() as u8;
        }
        self.of(b"<>\"_:.@^#\\ \t\r\n-aZ0nr{}|`\x00\x0b\x1f!~\x7f\x80,")
    }

    pub fn mutate(&mut self, bytes: &mut Vec<u8>) {
        for _ in 0..self.from_to(1, 2) {
            let at = self.below(bytes.len() + 1);
            let byte = self.byte();
            match self.below(4) {
                0 => bytes.insert(at, byte),
                1 if at < bytes.len() => {
                    bytes.remove(at);
                }
                2 if at < bytes.len() => bytes[at] = byte,
                _ if self.one_in(3) => bytes.truncate(at),
                _ => {}
            }
        }
    }

    fn gap(&mut self) -> &'static str {
        self.of(&["", " ", " ", " ", "\t", "  ", " \t "])
    }

    fn line(&mut self) -> Vec<u8> {
        let mut line = vec![];
        if self.one_in(8) {
            let length = self.below(8);
            line.extend(self.bytes(length, b" \t#<a"));
            return line;
        }
        for place in 0..3 {
            line.extend_from_slice(self.gap().as_bytes());
            let name = match self.below(10) {
                0 => self.name(),
                1..=4 if place == 2 => self.name(),
                5..=7 if place == 2 => self.label(),
                1 | 2 if place == 0 => {
                    let length = self.inner_length();
                    [b"_:a".to_vec(), self.bytes(length, b"ab.")].concat()
                }
                _ => {
                    let length = self.inner_length().max(1);
                    [b"<".to_vec(), self.bytes(length, b"ab:"), b">".to_vec()].concat()
                }
            };
            line.extend(name);
        }
        line.extend_from_slice(self.gap().as_bytes());
        if !self.one_in(20) {
            line.push(b'.');
        }
        line.extend_from_slice(self.gap().as_bytes());
        if self.one_in(4) {
            line.push(b'#');
            let length = self.below(6);
            line.extend(self.bytes(length, b"ab \t\".<~"));
        }
        if self.one_in(3) {
            self.mutate(&mut line);
        }
        line
    }

    /// A text of some lines, and a position, mostly its beginning or that of a line.
    pub fn line_text(&mut self) -> (Vec<u8>, usize) {
        let mut text = vec![];
        let mut starts = vec![0];
        for _ in 0..self.of(&[0, 1, 1, 1, 1, 2, 3]) {
            if self.one_in(12) {
                let length = self.below(12);
                text.extend((0..length).map(|_| self.byte()));
            } else {
                text.extend(self.line());
            }
            let ends = ["\n", "\n", "\n", "\r\n", "\r\n", "\r\r\n", "\n\n", "\r", ""];
            let end = self.of(&ends);
            text.extend_from_slice(end.as_bytes());
            starts.push(text.len());
        }
        let at = match self.below(12) {
            0 => self.below(text.len() + 3),
            1 => self.of(&[usize::MAX, usize::MAX - 1, 1 << 32, (1 << 32) - 1, 1 << 63]),
            2..=4 => self.of(&starts),
            _ => 0,
        };
        (text, at)
    }
}
