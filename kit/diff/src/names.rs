//! Names and lines, plainly: paper 01, "Names" and "Read a line", and paper 02 on the same label typed two ways. A line is read by
//! following every reading of it at once, byte by byte, so that the first byte that continues no line is the one after which no reading
//! is left.

pub const MAX_NAME: usize = 255;

/// The string ending: xsd:string, which a literal without tag and datatype has too, written out after the quotes.
pub const STRING_ENDING: &[u8] = b"^^<http://www.w3.org/2001/XMLSchema#string>";

fn iri_byte(b: u8) -> bool {
    (33..=126).contains(&b) && !b"<>\"{}|^\\`".contains(&b)
}

fn label_byte(b: u8) -> bool {
    b.is_ascii_alphanumeric() || b"_-.".contains(&b)
}

fn is_iri(s: &[u8]) -> bool {
    s.len() >= 3 && s[0] == b'<' && s[s.len() - 1] == b'>' && s[1..s.len() - 1].iter().all(|&b| iri_byte(b))
}

fn is_blank(s: &[u8]) -> bool {
    let Some(label) = s.strip_prefix(b"_:") else { return false };
    let (Some(&first), Some(&last)) = (label.first(), label.last()) else { return false };
    (first.is_ascii_alphanumeric() || first == b'_') && label.iter().all(|&b| label_byte(b)) && last != b'.'
}

fn is_tag(s: &[u8]) -> bool {
    s.split(|&b| b == b'-').enumerate().all(|(k, group)| {
        let fits = |b: &u8| if k == 0 { b.is_ascii_alphabetic() } else { b.is_ascii_alphanumeric() };
        !group.is_empty() && group.iter().all(fits)
    })
}

/// Bytes that begin as a literal does, taken apart: the quotes with what they hold, and what follows.
pub fn quoted_and_suffix(s: &[u8]) -> Option<(&[u8], &[u8])> {
    if s.first() != Some(&b'"') {
        return None;
    }
    let mut at = 1;
    loop {
        match s.get(at) {
            Some(b'"') => return Some(s.split_at(at + 1)),
            Some(b'\\') if matches!(s.get(at + 1), Some(b'"' | b'\\' | b'n' | b'r')) => at += 2,
            Some(&b) if (32..=126).contains(&b) && b != b'\\' => at += 1,
            _ => return None,
        }
    }
}

fn is_literal(s: &[u8]) -> bool {
    let Some((_, suffix)) = quoted_and_suffix(s) else { return false };
    match suffix {
        [] => true,
        [b'@', tag @ ..] => is_tag(tag),
        [b'^', b'^', iri @ ..] => is_iri(iri),
        _ => false,
    }
}

/// The kind of a well-formed name of at most 255 bytes, or none.
pub fn kind_of(name: &[u8]) -> Option<u32> {
    match name.first()? {
        _ if name.len() > MAX_NAME => None,
        b'<' if is_iri(name) => Some(1),
        b'_' if is_blank(name) => Some(2),
        b'"' if is_literal(name) => Some(3),
        _ => None,
    }
}

/// A well-formed name as it is compared and stored: without the string ending.
pub fn without_ending(name: &[u8]) -> &[u8] {
    match quoted_and_suffix(name) {
        Some((quoted, STRING_ENDING)) => quoted,
        _ => name,
    }
}

/// Whether a well-formed name is spelled with the string ending.
pub fn has_ending(name: &[u8]) -> bool {
    without_ending(name).len() < name.len()
}

/// What a line reader answers. Parts are start and length in the text, the object's without the string ending.
#[derive(Debug, PartialEq)]
pub enum Line {
    End,
    Nothing,
    Triple([(usize, usize); 3]),
    Broken { offset: usize },
}

/// Where one reading of a line stands, after some of its bytes.
#[derive(Clone, Copy, PartialEq)]
enum At {
    /// Before the term of this place, or, at 3, before the dot.
    Gap(usize),
    IriOpen,
    Iri,
    Underscore,
    Colon,
    Label,
    LabelDot,
    Literal,
    Pair,
    Quoted,
    TagOpen,
    Tag,
    TagDash,
    TagMore,
    Caret,
    Carets,
    DatatypeOpen,
    Datatype,
    /// After the dot.
    Done,
    Comment,
}

/// One reading: where it stands, the terms that it has completed, and where the current one starts.
#[derive(Clone, PartialEq)]
struct Reading {
    at: At,
    parts: Vec<(usize, usize)>,
    start: usize,
}

impl Reading {
    /// The readings after the term goes on with byte `b` at position `i`.
    fn go_on(&self, b: u8, i: usize) -> Option<Reading> {
        let alone = |at| Some(Reading { at, ..self.clone() });
        // The term's last byte is this one.
        let complete = || {
            let mut parts = self.parts.clone();
            parts.push((self.start, i + 1 - self.start));
            Some(Reading { at: At::Gap(parts.len()), parts, start: 0 })
        };
        match (self.at, b) {
            (At::Gap(_) | At::Done | At::Comment, _) => return None,
            _ if i - self.start >= MAX_NAME => return None,
            _ => {}
        }
        match (self.at, b) {
            (At::IriOpen | At::Iri, b) if iri_byte(b) => alone(At::Iri),
            (At::Iri, b'>') => complete(),
            (At::Underscore, b':') => alone(At::Colon),
            (At::Colon, b) if b.is_ascii_alphanumeric() || b == b'_' => alone(At::Label),
            (At::Label | At::LabelDot, b'.') => alone(At::LabelDot),
            (At::Label | At::LabelDot, b) if label_byte(b) => alone(At::Label),
            (At::Literal, b'"') => alone(At::Quoted),
            (At::Literal, b'\\') => alone(At::Pair),
            (At::Literal, 32..=126) => alone(At::Literal),
            (At::Pair, b'"' | b'\\' | b'n' | b'r') => alone(At::Literal),
            (At::Quoted, b'@') => alone(At::TagOpen),
            (At::TagOpen | At::Tag, b) if b.is_ascii_alphabetic() => alone(At::Tag),
            (At::Tag | At::TagMore, b'-') => alone(At::TagDash),
            (At::TagDash | At::TagMore, b) if b.is_ascii_alphanumeric() => alone(At::TagMore),
            (At::Quoted, b'^') => alone(At::Caret),
            (At::Caret, b'^') => alone(At::Carets),
            (At::Carets, b'<') => alone(At::DatatypeOpen),
            (At::DatatypeOpen | At::Datatype, b) if iri_byte(b) => alone(At::Datatype),
            (At::Datatype, b'>') => complete(),
            _ => None,
        }
    }

    /// The reading with the current term ended before position `i`, where it may end; outside a term, the reading itself.
    fn outside(&self, i: usize) -> Option<Reading> {
        match self.at {
            At::Gap(_) | At::Done | At::Comment => Some(self.clone()),
            At::Label | At::Quoted | At::Tag | At::TagMore => {
                let mut parts = self.parts.clone();
                parts.push((self.start, i - self.start));
                Some(Reading { at: At::Gap(parts.len()), parts, start: 0 })
            }
            _ => None,
        }
    }

    /// Outside a term: white space, a term's first byte, the dot, a comment.
    fn begin(&self, b: u8, i: usize) -> Option<Reading> {
        let at = match (self.at, b) {
            (At::Gap(_) | At::Done, b' ' | b'\t') => self.at,
            (At::Gap(0..=2), b'<') => At::IriOpen,
            (At::Gap(0 | 2), b'_') => At::Underscore,
            (At::Gap(2), b'"') => At::Literal,
            (At::Gap(3), b'.') => At::Done,
            (At::Gap(0) | At::Done, b'#') => At::Comment,
            (At::Comment, b'\t' | 32..=126) => At::Comment,
            _ => return None,
        };
        Some(Reading { at, parts: self.parts.clone(), start: i })
    }

    fn whole(&self) -> bool {
        matches!(self.at, At::Gap(0) | At::Done | At::Comment)
    }
}

/// Reads the line at a position, and gives the position after it.
pub fn read_line(text: &[u8], position: usize) -> (Line, usize) {
    if position >= text.len() {
        return (Line::End, position);
    }
    let (mut end, after) = match (position..text.len()).find(|&i| text[i] == b'\n') {
        Some(lf) => (lf, lf + 1),
        None => (text.len(), text.len()),
    };
    if after > end && end > position && text[end - 1] == b'\r' {
        end -= 1;
    }
    let mut readings = vec![Reading { at: At::Gap(0), parts: vec![], start: 0 }];
    for i in position..end {
        let mut left = vec![];
        for reading in &readings {
            left.extend(reading.go_on(text[i], i));
            left.extend(reading.outside(i).and_then(|reading| reading.begin(text[i], i)));
        }
        if left.is_empty() {
            return (Line::Broken { offset: i - position }, after);
        }
        readings = left;
    }
    match readings.iter().find(|reading| reading.whole()) {
        None => (Line::Broken { offset: end - position }, after),
        Some(reading) => match reading.parts[..] {
            [subject, predicate, (start, spelled)] => {
                let object = without_ending(&text[start..start + spelled]);
                (Line::Triple([subject, predicate, (start, object.len())]), after)
            }
            _ => (Line::Nothing, after),
        },
    }
}
