#!/usr/bin/env python3
"""Places in crates/*/src where today's Rattle has a plainer form, by the points of docs/DESIGN-PASS.md.

    tools/places.py [POINT..] [--list] [--at COMMIT]

prints a count for each kind of place, with --list each place as FILE:LINE. It goes by text, so that a reader has to judge what it finds:
which of them are places, and which stay, stands in docs/DESIGN-PASS.md and beside the code.
"""

import os
import re
import subprocess
import sys
import tempfile
from collections import defaultdict

FAIL = {"Refused", "Damaged", "Broken", "Unreadable", "OutOfRange", "Malformed", "Absent"}


def sources(top):
    for crate in sorted(os.listdir(f"{top}/crates")):
        folder = f"{top}/crates/{crate}/src"
        for at, _, names in sorted(os.walk(folder)):
            for name in sorted(names):
                if name.endswith(".rt"):
                    path = f"{at}/{name}"
                    yield os.path.relpath(path, f"{top}/crates"), open(path).read()


def bare(text):
    """The text without comments, each line kept."""
    return re.sub(r"//[^\n]*", "", text)


def line_of(text, at):
    return text.count("\n", 0, at) + 1


def types(text):
    for m in re.finditer(r"(?:pub )?(struct|enum) (\w+)(?:<[^>]*>)? \{(.*?)\n\}", text, re.S):
        yield m.group(1), m.group(2), m.group(3), line_of(text, m.start())


def functions(text):
    """Each function: name, signature up to the body, body, line."""
    # The semicolon of an array's type ends no item.
    text = re.sub(r"\[[^\[\]{}\n;]*;", lambda m: m.group()[:-1] + "\0", text)
    for m in re.finditer(r"^ *(?:pub )?fn (\w+)", text, re.M):
        at = m.end()
        depth = 0
        # The parameters, then the clauses in braces of their own, then the body.
        while at < len(text) and not (depth == 0 and text[at] == ")"):
            depth += {"(": 1, ")": -1}.get(text[at], 0)
            at += 1
            if depth == 0 and text[at - 1] == ")":
                break
        rest = at
        body = None
        while rest < len(text):
            found = re.compile(r"[{;]").search(text, rest)
            if not found:
                break
            if found.group() == ";":
                break
            open_at = found.start()
            close = open_at
            level = 0
            while close < len(text):
                level += {"{": 1, "}": -1}.get(text[close], 0)
                close += 1
                if level == 0:
                    break
            before = text[rest:open_at]
            if re.search(r"\b(requires|ensures)\b[^{}]*$", before):
                rest = close
                continue
            body = text[open_at:close]
            rest = open_at
            break
        if body is not None:
            head = text[m.start() : rest].replace("\0", ";")
            yield m.group(1), head, body.replace("\0", ";"), line_of(text, m.start())


def tokens(text, loose):
    out = []
    for t in re.findall(r"b?'(?:\\.|[^'])'|b?\"(?:\\.|[^\"])*\"|\w+|[^\s\w]", text):
        if re.fullmatch(r"\d\w*|b?'.*'|b?\".*\"", t, re.S):
            t = "0"
        elif re.fullmatch(r"[A-Z]\w*|u8|u32|u64|usize|i32|true|false", t):
            t = "T"
        elif loose and re.fullmatch(r"[a-z_]\w*", t) and t not in ("if", "else", "match", "while", "for", "let", "mut", "return", "loop"):
            t = "i"
        out.append(t)
    return tuple(out)


def places(top):
    found = defaultdict(list)
    strict = defaultdict(list)
    clause = defaultdict(set)
    travel = defaultdict(list)
    for path, whole in sources(top):
        text = bare(whole)
        for kind, name, fields, line in types(text):
            where = f"{path}:{line} {name}"
            variants = set(re.findall(r"^\s{4}(\w+)", fields, re.M))
            if kind == "enum" and variants & FAIL and name != "Refusal":
                found["1 enums of the shape of Option or Result"].append(where)
            if kind == "struct" and "capi_calls" not in path:
                flags = re.findall(r"(\w+): (?:bool)\b|(refusal|status): u32", fields)
                if flags:
                    found["1 structs with a flag or a code beside values"].append(f"{where} {[a or b for a, b in flags]}")
            if kind == "struct" and re.search(r"\[.*; \w+\]", fields) and re.search(r"\b(len|used|count|variables|top|size)\b", fields):
                found["6 a buffer with a length beside it"].append(where)
        for m in re.finditer(r"^(?:pub )?const (\w+): (?:u32|i32) = \d+;", text, re.M):
            found["1 numbers that stand for kinds"].append(f"{path}:{line_of(text, m.start())} {m.group(1)}")
        for m in re.finditer(r"(?<![\w'])(while|loop)\b", text):
            found["3 loops by while or loop"].append(f"{path}:{line_of(text, m.start())}")
        for name, head, body, line in functions(text):
            where = f"{path}:{line} {name}"
            inner = body.strip()[1:-1].strip()
            one = re.fullmatch(r"match \w+ \{(.*)\}", inner, re.S)
            if one and set(re.findall(r"=> (\w+)", one.group(1))) <= {"true", "false"} and "b'" not in inner and ".." not in inner:
                found["4 a test for a variant by hand"].append(where)
            elif one and re.fullmatch(r"(?:\s*[\w:]+(?:\(_\))? => (?:\d+|\w+::\w+|b?\"[^\"]*\"),?)+\s*", one.group(1)):
                found["4 a conversion by hand"].append(where)
            if re.search(r"\b(while|for)\b", body) and re.search(r"\[\w+\] != \w+\[\w+\]|\[[\w +]+\] != \w+\[\w+\]", body):
                found["4 equality of byte strings by hand"].append(where)
            if len(tokens(body, False)) >= 14:
                strict[tokens(re.sub(r"\b%s\b" % name, "SELF", body), False)].append(where)
            names = re.findall(r"(\w+): &(?:mut )?\[", head.split(")")[0])
            if {"resources", "statements", "index", "text"} <= set(names):
                found["5 the four lent tables as parameters"].append(where)
            for c in re.findall(r"requires (?:\w+ )?\{ (.*?) \}\n", head, re.S):
                clause[" ".join(c.split())].add(where)
            if re.search(r"(?<=[(, ])\w+: (bool|Sought|Form|Side)\b", head.split("->")[0]):
                found["7 a parameter that says which step to run"].append(where)
    for group in strict.values():
        if len(group) > 1:
            found["2 functions alike but for types, numbers and constants"].append(" = ".join(group))
    for c, who in clause.items():
        if len(who) > 2:
            found["5 a fact asked in three or more contracts"].append(f"{len(who)} times {c}")
    return found


def main(args):
    top = os.path.dirname(os.path.dirname(os.path.abspath(__file__)))
    if "--at" in args:
        i = args.index("--at")
        commit = args[i + 1]
        del args[i : i + 2]
        folder = tempfile.mkdtemp()
        archive = subprocess.run(["git", "-C", top, "archive", commit, "crates"], check=True, stdout=subprocess.PIPE).stdout
        subprocess.run(["tar", "-x", "-C", folder], input=archive, check=True)
        top = folder
    listed = "--list" in args
    points = [a for a in args if a != "--list"]
    found = places(top)
    for kind in sorted(found):
        if points and kind[0] not in points:
            continue
        print(f"{kind}: {len(found[kind])}")
        if listed:
            for place in found[kind]:
                print(f"    {place}")


if __name__ == "__main__":
    main(sys.argv[1:])
