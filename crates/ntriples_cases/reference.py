#!/usr/bin/env python3
"""The cases and their expected results, from the papers alone ("Names", last paragraph, "Read a line", and the string ending).

A line is matched as a whole by a regular expression that spells the paper's grammar. A prefix of a line is viable if some
completion makes it a line in which no term has more than 255 bytes inside the prefix; an offset is the length of the longest
viable prefix. All this goes by the line as spelled; of an object with the string ending the part that is answered is what
stands before it. Nothing here follows the program's way of reading.

    reference.py            prints the expected output
    reference.py --cases    prints the program's input
"""
import re
import sys

LIMIT = 255


def one_of(pred):
    return "[" + "".join("\\x%02x" % b for b in range(256) if pred(b)) + "]"


IRI = "<" + one_of(lambda b: 33 <= b <= 126 and chr(b) not in '<>"{}|^\\`') + "+>"
BLANK = r"_:[A-Za-z0-9_](?:[A-Za-z0-9_.-]*[A-Za-z0-9_-])?"
QUOTED = '"(?:' + one_of(lambda b: 32 <= b <= 126 and chr(b) not in '"\\') + r'|\\["\\nr])*"'
LITERAL = QUOTED + r"(?:@[A-Za-z]+(?:-[A-Za-z0-9]+)*|\^\^" + IRI + ")?"
COMMENT = "(?:#" + one_of(lambda b: b == 9 or 32 <= b <= 126) + "*)?"
WS = r"[ \t]*"
TRIPLE = re.compile((WS + f"({IRI}|{BLANK})" + WS + f"({IRI})" + WS + f"({IRI}|{BLANK}|{LITERAL})" + WS + r"\." + WS + COMMENT)
                    .encode("latin-1"), re.S)
EMPTY = re.compile((WS + COMMENT).encode("latin-1"), re.S)
# the string ending, and a literal with it
STRING = b"^^<http://www.w3.org/2001/XMLSchema#string>"
TYPED_STRING = re.compile(f"({QUOTED})".encode("latin-1") + re.escape(STRING), re.S)

# what may finish a term that is begun, and what may finish a line after a term
TERM_ENDS = [b"", b"a", b"a>", b">", b":a", b'"', b'""', b"<a>", b"^<a>"]
LINE_ENDS = [b"", b".", b"<a>.", b"<a><a>.", b"<a><a><a>."]


def viable(prefix):
    for t in TERM_ENDS:
        for e in LINE_ENDS:
            line = prefix + t + e
            if EMPTY.fullmatch(line):
                return True
            m = TRIPLE.fullmatch(line)
            if m and all(min(m.end(k), len(prefix)) - m.start(k) <= LIMIT for k in (1, 2, 3)):
                return True
    return False


def object_end(line, m):
    """Where the object's part ends: before the string ending, if the object is a literal with it."""
    typed = TYPED_STRING.fullmatch(line, m.start(3), m.end(3))
    return typed.end(1) if typed else m.end(3)


def read_line(text, at):
    """The answer, and the position after."""
    if at >= len(text):
        return "end", at
    lf = text.find(b"\n", at)
    if lf < 0:
        line, after = text[at:], len(text)
    else:
        line, after = text[at:lf], lf + 1
        if line.endswith(b"\r"):
            line = line[:-1]
    if EMPTY.fullmatch(line):
        return "nothing", after
    m = TRIPLE.fullmatch(line)
    if m and all(m.end(k) - m.start(k) <= LIMIT for k in (1, 2, 3)):
        parts = [m.span(1), m.span(2), (m.start(3), object_end(line, m))]
        return "triple " + " ".join(f"{at + start}..{at + end}" for start, end in parts), after
    k = max(n for n in range(len(line) + 1) if viable(line[:n]))
    return f"refused 10 {k}", after


A, S = b"a", STRING
IRI_OF_S = STRING[2:]
# a case's name, its text, the position, and the answer that docs/DECISIONS.md gives by itself or that is counted by hand (None: neither)
CASES = [
    # DECISIONS 72: CR
    ("cr_at_the_end", b"#a\r", 0, "refused 10 2 next 3"),
    ("crlf_after_comment", b"#a\r\n", 0, "nothing next 4"),
    ("two_cr_before_lf", b"#a\r\r\n", 0, "refused 10 2 next 5"),
    ("cr_alone", b"\r", 0, "refused 10 0 next 1"),
    ("cr_ends_no_line", b"#a\r#b\n", 0, None),
    ("crlf_after_triple", b"<a> <b> <c> .\r\n", 0, None),
    ("cr_kept_after_triple", b"<a> <b> <c> .\r", 0, None),
    ("crlf_alone", b"\r\n", 0, None),
    # DECISIONS 73: end
    ("position_past_the_end", b"a", 9, "end next 9"),
    ("empty_text", b"", 0, "end next 0"),
    ("lf_alone", b"\n", 0, "nothing next 1"),
    ("after_the_last_lf", b"\n", 1, "end next 1"),
    ("position_at_the_end", b"#a", 2, None),
    ("no_empty_line_at_the_end", b"<a><b><c>.\n", 11, None),
    # DECISIONS 74: a position inside a line
    ("lf_after_cr_before", b"\r\n", 1, "nothing next 2"),
    ("second_line", b"#a\n<a> <b> <c> .\n", 3, None),
    ("inside_a_line", b"<a> <b> <c> <d> .", 4, None),
    ("inside_a_term", b"<a> <b> <c> .", 1, None),
    # DECISIONS 75: the offset is in the line
    ("offset_in_second_line", b"\n<a> x\n", 1, None),
    ("length_without_cr", b"<a>\r\n", 0, None),
    # DECISIONS 76: spaces and comments
    ("no_spaces", b'_:a<b>"c"@en.#x', 0, "triple 0..3 3..6 6..12 next 15"),
    ("comment_before_the_dot", b"<a> # c", 0, "refused 10 4 next 7"),
    ("space_before_the_tag", b'<a><b>"c" @en.', 0, "refused 10 10 next 14"),
    ("iris_without_spaces", b"<a><b><c>.", 0, None),
    ("spaces_everywhere", b" \t<a> \t<b>\t <c>\t \t. \t", 0, None),
    ("tab_before_the_comment", b"<a> <b> <c> .\t#x", 0, None),
    ("spaces_alone", b" \t \n", 0, None),
    ("spaces_and_comment", b"\t #x\n", 0, None),
    ("comment_of_its_mark_alone", b"#\n", 0, None),
    ("mark_in_an_iri", b"<a#x> <b> <c> .", 0, None),
    ("mark_in_a_literal", b'<a> <b> "#" .', 0, None),
    ("comment_after_subject", b"<a>#", 0, None),
    # DECISIONS 77: the dot after a blank object
    ("blank_and_dot", b"<a><b>_:c.", 0, "triple 0..3 3..6 6..9 next 10"),
    ("dot_in_a_label", b"<a><b>_:c.d.", 0, "triple 0..3 3..6 6..11 next 12"),
    ("second_dot_apart", b"<a><b>_:c. .", 0, "refused 10 11 next 12"),
    ("two_dots_at_the_end", b"<a><b>_:c..", 0, "refused 10 11 next 11"),
    ("two_dots_and_a_space", b"<a><b>_:c.. ", 0, "refused 10 11 next 12"),
    ("label_without_dot", b"<a><b>_:c.d", 0, "refused 10 11 next 11"),
    ("dot_after_blank_subject", b"_:a. <b>", 0, "refused 10 4 next 8"),
    ("dot_inside_blank_subject", b"_:a.b<c><d>.", 0, None),
    ("blank_dot_comment", b"<a><b>_:c.#x", 0, None),
    ("blank_space_dot", b"<a><b>_:c .", 0, None),
    ("three_dots_then_label", b"<a><b>_:c...d.", 0, None),
    ("dots_only_label", b"<a><b>_:.", 0, None),
    ("label_ends_in_hyphen", b"<a><b>_:c-.", 0, None),
    # DECISIONS 78: kinds by position
    ("literal_subject", b'"a"<b><c>.', 0, "refused 10 0 next 10"),
    ("blank_predicate", b"<a>_:b<c>.", 0, "refused 10 3 next 10"),
    ("literal_predicate", b'<a>"b"<c>.', 0, "refused 10 3 next 10"),
    ("dot_for_the_object", b"<a><b>.", 0, None),
    ("four_terms", b"<a><b><c><d>.", 0, None),
    # DECISIONS 79 and 80: 255 bytes
    ("iri_of_255_cut", b"<" + A * 254, 0, "refused 10 255 next 255"),
    ("iri_of_255_and_more", b"<" + A * 254 + b"a", 0, "refused 10 255 next 256"),
    ("iri_of_255_and_close", b"<" + A * 254 + b"><b><c>.", 0, "refused 10 255 next 263"),
    ("bad_byte_before_the_limit", b"<" + A * 100 + b" aaa", 0, "refused 10 101 next 105"),
    ("iri_of_255", b"<" + A * 253 + b"><b><c>.", 0, None),
    ("quote_at_255_then_tag", b'<a><b>"' + A * 253 + b'"@en.', 0, "refused 10 261 next 265"),
    ("quote_at_255_then_dot", b'<a><b>"' + A * 253 + b'".', 0, "triple 0..3 3..6 6..261 next 262"),
    ("quote_at_255_then_space", b'<a><b>"' + A * 253 + b'" .', 0, "triple 0..3 3..6 6..261 next 263"),
    ("predicate_of_256", b"<a><" + A * 254 + b"><c>.", 0, None),
    ("long_comment", b"#" + A * 400, 0, None),
    # DECISIONS 81: a dot at byte 256 of a blank object
    ("dot_at_256", b"<a><b>_:" + A * 253 + b".", 0, "triple 0..3 3..6 6..261 next 262"),
    ("dot_at_256_then_label", b"<a><b>_:" + A * 253 + b".b", 0, "refused 10 262 next 263"),
    ("dot_at_256_then_dot", b"<a><b>_:" + A * 253 + b"..", 0, "refused 10 262 next 263"),
    ("dot_at_256_then_word", b"<a><b>_:" + A * 253 + b". y", 0, "refused 10 263 next 264"),
    ("dot_at_256_then_comment", b"<a><b>_:" + A * 253 + b". #y", 0, None),
    ("label_at_256", b"<a><b>_:" + A * 253 + b"a", 0, "refused 10 261 next 262"),
    ("subject_dot_at_256", b"_:" + A * 253 + b".b", 0, "refused 10 255 next 257"),
    ("subject_of_255", b"_:" + A * 253 + b"<b><c>.", 0, None),
    # DECISIONS 82: a dot at byte 255
    ("dot_at_255", b"<a><b>_:" + A * 252 + b".", 0, "triple 0..3 3..6 6..260 next 261"),
    ("dots_at_255_and_256", b"<a><b>_:" + A * 252 + b"..", 0, "refused 10 261 next 262"),
    ("dot_at_255_then_label", b"<a><b>_:" + A * 252 + b".b", 0, "refused 10 261 next 262"),
    ("dot_at_255_then_space", b"<a><b>_:" + A * 252 + b". ", 0, None),
    # DECISIONS 83: comments
    ("delete_in_a_comment", b"<a> <b> <c> .#\x7f", 0, "refused 10 14 next 15"),
    ("byte_200_in_a_comment", b"<a> <b> <c> . #\xc8\n", 0, "refused 10 15 next 17"),
    ("tab_in_a_comment", b"#\t~\n", 0, None),
    ("byte_0_in_a_comment", b"# \x00\n", 0, None),
    # DECISIONS 84: white space is two bytes only
    ("byte_0", b"\x00", 0, "refused 10 0 next 1"),
    ("vertical_tab", b"<a>\x0b<b><c>.", 0, "refused 10 3 next 11"),
    ("form_feed", b"\x0c\n", 0, "refused 10 0 next 2"),
    ("byte_order_mark", b"\xef\xbb\xbf<a><b><c>.", 0, "refused 10 0 next 13"),
    ("byte_127", b"<a> \x7f", 0, None),
    ("byte_200", b"<a><b><c>.\xc8", 0, None),
    ("byte_200_in_an_iri", b"<a\xc8> <b> <c> .", 0, None),
    ("text_after_the_dot", b"<a><b><c>. <d>", 0, None),
    # Terms, each way in which one breaks
    ("empty_iri", b"<> <b> <c> .", 0, None),
    ("space_in_an_iri", b"<a b> <b> <c> .", 0, None),
    ("brace_in_an_iri", b"<a{> <b> <c> .", 0, None),
    ("escape_in_an_iri", b"<a\\u0041> <b> <c> .", 0, None),
    ("colon_in_a_label", b"_:a:b <b> <c> .", 0, None),
    ("label_from_a_digit", b"_:1 <b> <c> .", 0, None),
    ("label_from_a_hyphen", b"_:-a <b> <c> .", 0, None),
    ("label_without_colon", b"_a <b> <c> .", 0, None),
    ("empty_literal", b'<a> <b> "" .', 0, None),
    ("the_four_pairs", b'<a> <b> "\\"\\\\\\n\\r" .', 0, None),
    ("pair_of_t", b'<a> <b> "\\t" .', 0, None),
    ("tab_in_a_literal", b'<a> <b> "\t" .', 0, None),
    ("literal_not_closed", b'<a> <b> "c', 0, None),
    ("tag_of_groups", b'<a> <b> "c"@en-GB-1 .', 0, None),
    ("tag_from_a_digit", b'<a> <b> "c"@1 .', 0, None),
    ("tag_ends_in_hyphen", b'<a> <b> "c"@en- .', 0, None),
    ("datatype", b'<a> <b> "c"^^<d> .', 0, None),
    ("datatype_blank", b'<a> <b> "c"^^_:d .', 0, None),
    ("one_caret", b'<a> <b> "c"^<d> .', 0, None),
    # Lines that stop short
    ("subject_alone", b"<a>", 0, None),
    ("no_object", b"<a> <b> ", 0, None),
    ("no_dot", b"<a> <b> <c>", 0, None),
    ("no_dot_after_spaces", b"<a> <b> <c> \t", 0, None),
    ("papers_fifth_line", b'<r:21> <p:trips> "A"\n', 0, None),
    # DECISIONS 124: the string ending. The object's part is what stands before it, the rest goes by the line as spelled
    ("string_ending", b'<a> <b> "A"' + S + b" .\n", 0, "triple 0..3 4..7 8..11 next 57"),
    ("string_ending_then_dot", b'<a><b>"A"' + S + b".", 0, "triple 0..3 3..6 6..9 next 53"),
    ("string_ending_then_tab", b'<a><b>"A"' + S + b"\t.\r\n", 0, None),
    ("string_ending_then_comment", b'<a><b>"A"' + S + b'.#"B"' + S, 0, None),
    ("string_ending_of_empty", b'<a><b>""' + S + b".", 0, "triple 0..3 3..6 6..8 next 52"),
    ("string_ending_after_backslashes", b'<a><b>"\\\\"' + S + b".", 0, None),
    ("string_ending_second_line", b'<a><b>"A"' + S + b'.\n<a><b>"B"' + S + b".\n", 54, "triple 54..57 57..60 60..63 next 108"),
    ("string_ending_in_comment_only", b'<a><b>"A". # ' + S, 0, None),
    ("string_ending_without_dot", b'<a><b>"A"' + S, 0, "refused 10 52 next 52"),
    ("string_ending_then_bad_byte", b'<a><b>"A"' + S + b" x", 0, "refused 10 53 next 54"),
    ("bad_comment_after_string_ending", b'<a><b>"A"' + S + b".#\x7f", 0, "refused 10 54 next 55"),
    # DECISIONS 123: 255 bytes as spelled
    ("string_ending_at_255", b'<a><b>"' + A * 210 + b'"' + S + b".", 0, "triple 0..3 3..6 6..218 next 262"),
    ("string_ending_at_255_then_space", b'<a><b>"' + A * 210 + b'"' + S + b" .", 0, "triple 0..3 3..6 6..218 next 263"),
    ("string_ending_at_256", b'<a><b>"' + A * 211 + b'"' + S + b".", 0, "refused 10 261 next 263"),
    ("string_ending_at_256_cut", b'<a><b>"' + A * 211 + b'"' + S[:-1], 0, "refused 10 261 next 261"),
    # Not the string ending
    ("string_ending_with_capital", b'<a><b>"A"' + S.replace(b"#s", b"#S") + b".", 0, "triple 0..3 3..6 6..52 next 53"),
    ("string_ending_a_byte_more", b'<a><b>"A"' + S[:-1] + b"s>.", 0, None),
    ("string_ending_a_byte_less", b'<a><b>"A"' + S[:-2] + b">.", 0, None),
    ("string_ending_in_quotes", b'<a><b>"A' + S + b'".', 0, "triple 0..3 3..6 6..52 next 53"),
    ("string_ending_in_quotes_and_after", b'<a><b>"A' + S + b'"' + S + b".", 0, "triple 0..3 3..6 6..52 next 96"),
    ("string_ending_closed_by_quote", b'<a><b>"A' + S[:-1] + b'".', 0, "triple 0..3 3..6 6..51 next 52"),
    ("string_ending_after_pair", b'<a><b>"A\\"' + S + b".", 0, None),
    ("string_datatype_as_object", b"<a><b>" + IRI_OF_S + b".", 0, "triple 0..3 3..6 6..47 next 48"),
    ("string_datatype_as_subject", IRI_OF_S + b"<b><c>.", 0, "triple 0..41 41..44 44..47 next 48"),
    ("string_datatype_as_predicate", b"<a>" + IRI_OF_S + b"<c>.", 0, "triple 0..3 3..44 44..47 next 48"),
    # What breaks a line with it
    ("string_ending_as_subject", b'"A"' + S + b"<b><c>.", 0, "refused 10 0 next 53"),
    ("string_ending_as_predicate", b'<a>"A"' + S + b"<c>.", 0, "refused 10 3 next 53"),
    ("string_ending_alone", b"<a><b>" + S + b".", 0, "refused 10 6 next 50"),
    ("string_ending_after_iri", b"<a><b><c>" + S + b".", 0, "refused 10 9 next 53"),
    ("string_ending_after_label", b"<a><b>_:c" + S + b".", 0, "refused 10 9 next 53"),
    ("string_ending_twice", b'<a><b>"A"' + S + S + b".", 0, "refused 10 52 next 96"),
    ("string_ending_before_tag", b'<a><b>"A"' + S + b"@en.", 0, "refused 10 52 next 56"),
    ("string_ending_after_tag", b'<a><b>"A"@en' + S + b".", 0, "refused 10 12 next 56"),
    ("string_ending_not_closed", b'<a><b>"A"' + S[:-1] + b" .", 0, "refused 10 51 next 53"),
    ("string_ending_of_one_caret", b'<a><b>"A"' + S[1:] + b".", 0, "refused 10 10 next 52"),
    ("space_before_string_ending", b'<a><b>"A" ' + S + b".", 0, "refused 10 10 next 54"),
    ("space_in_string_ending", b'<a><b>"A"^^ ' + IRI_OF_S + b".", 0, "refused 10 11 next 54"),
    ("from_within_string_ending", b'<a><b>"A"' + S + b"<b><c>.", 11, "triple 11..52 52..55 55..58 next 59"),
]


def expected(text, at):
    answer, after = read_line(text, at)
    return f"{answer} next {after}"


def spelled(s):
    """The text of a case in the program's input: `\\n`, `\\r`, `\\\\`, `\\xNN`, and `\\{N}` for N letters a."""
    out = []
    for part in re.split(b"(a{50,})", s):
        if re.fullmatch(b"a{50,}", part):
            out.append("\\{%d}" % len(part))
            continue
        for b in part:
            c = chr(b)
            named = {"\n": "\\n", "\r": "\\r", "\\": "\\\\"}
            out.append(named.get(c) or (c if 32 <= b <= 126 else "\\x%02x" % b))
    return "".join(out)


def main():
    for number, (name, text, at, given) in enumerate(CASES, 1):
        result = expected(text, at)
        assert given in (None, result), (name, result, given)
        print(f"{name} {at} {spelled(text)}" if "--cases" in sys.argv else f"{number} {name} {result}")


main()
