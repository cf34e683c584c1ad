#!/usr/bin/env python3
"""Lists the places in crates/*/src that might have a plainer form, by kind, and the size of the proofs.

    places.py [KIND ..]     all kinds without an argument; a line for each place, and a count for each kind

Kinds: 1 own enums, flags and number codes; 2 functions and implementations with the same body but for names and numbers;
3 loops; 4 equality, order, copies, conversions and printing by hand; 5 clauses, fields and parameters that occur
three times or more; 6 arrays, and numbers that say how much of one is in use; 7 function values; 8 proof files.
It goes by text and finds more than is worth changing: each place found has to be read.
"""

import collections
import glob
import re
import sys

FILES = sorted(glob.glob("crates/*/src/**/*.rt", recursive=True))
ITEM = re.compile(r"^\s*(?:pub(?:\([a-z]+\))? )?(?:extern \"C\" )?fn (\w+)")


def lines_of(path):
    with open(path, encoding="utf-8") as file:
        return file.read().split("\n")


def found(pattern, skip=None):
    for path in FILES:
        for number, line in enumerate(lines_of(path), 1):
            text = line.split("//")[0]
            if re.search(pattern, text) and not (skip and re.search(skip, text)):
                yield "%s:%d: %s" % (path, number, line.strip())


def functions():
    """Each function's place, signature, clauses and body."""
    for path in FILES:
        lines = lines_of(path)
        at = 0
        while at < len(lines):
            match = ITEM.match(lines[at])
            if not match:
                at += 1
                continue
            start, signature, clauses, body = at, [], [], []
            indent = len(lines[at]) - len(lines[at].lstrip())
            while at < len(lines) and not re.match(r"^\s*(requires|ensures)\b", lines[at]):
                signature.append(lines[at].strip())
                if lines[at].rstrip().endswith(("{", "{}", ";")):
                    break
                at += 1
            while at < len(lines) and re.match(r"^\s*(requires|ensures)\b", lines[at]):
                clauses.append(lines[at].strip().rstrip(";"))
                at += 1
            while at < len(lines) and lines[at].rstrip() != " " * indent + "}":
                if lines[at].rstrip() in (" " * indent + "{}",) or lines[at].rstrip().endswith(";") and not body:
                    break
                body.append(lines[at].strip())
                at += 1
            at += 1
            yield "%s:%d" % (path, start + 1), match.group(1), " ".join(signature), clauses, body


def same_bodies():
    bodies = collections.defaultdict(list)
    for place, name, _, _, body in functions():
        text = " ".join(line for line in body if line not in ("{", ""))
        shape = re.sub(r"\b[a-z_]\w*\b(?!\()|\b[A-Z]\w*\b|\d+", "_", text)
        if len(text) > 8:
            bodies[shape].append("%s: %s" % (place, name))
    for places in bodies.values():
        if len(places) > 1:
            yield "; ".join(places)


def repeated():
    clauses = collections.defaultdict(list)
    for place, name, _, own, _ in functions():
        for clause in own:
            bare = re.sub(r"^(requires|ensures)\s*\w*\s*", "", clause)
            clauses[bare].append("%s %s" % (place, name))
    for bare, places in sorted(clauses.items()):
        if len(places) >= 3:
            yield "clause %s in %d: %s" % (bare, len(places), "; ".join(places))
    heads = collections.defaultdict(list)
    for bare, places in clauses.items():
        word = re.match(r"^\{ \(?([\w-]+)", bare)
        if word and word.group(1) not in ("result", "self"):
            heads[word.group(1)] += places
    for word, places in sorted(heads.items()):
        if len(places) >= 3:
            yield "clauses that begin with %s in %d: %s" % (word, len(places), "; ".join(places))
    fields = collections.Counter()
    for path in FILES:
        for line in lines_of(path):
            match = re.match(r"^\s*ghost \w+: (\{.*\}),", line)
            if match:
                fields[match.group(1)] += 1
    for text, count in fields.items():
        if count >= 2:
            yield "ghost field %s in %d types" % (text, count)
    groups = collections.defaultdict(list)
    for place, name, signature, _, _ in functions():
        inside = signature[signature.find("(") + 1 : signature.rfind(")")]
        parts = [part.strip() for part in inside.split(",") if ":" in part]
        for one in range(len(parts)):
            for two in range(one + 1, len(parts)):
                groups[(parts[one], parts[two])].append("%s %s" % (place, name))
    for pair, places in groups.items():
        if len(places) >= 3:
            yield "parameters %s in %d: %s" % (", ".join(pair), len(places), "; ".join(places))


def proofs():
    answers = invariants = lemmas = size = 0
    for path in glob.glob("crates/*/proofs/**/*.antt", recursive=True):
        text = open(path, encoding="utf-8").read()
        size += text.count("\n")
        if path.endswith("Answers.antt"):
            answers += len(re.findall(r"^(?:abbrev )?pub \S+ :", text, re.M))
        elif path.endswith("Invariants.antt"):
            invariants += len(re.findall(r"^(?:abbrev )?pub \S+ :", text, re.M))
        else:
            lemmas += len(re.findall(r"^\s*(?:abbrev )?(?:pub )?[\w'≤+-]+ :", text, re.M))
    yield "answers %d, invariants and measures %d, lemmas in proofs/ %d, lines %d" % (answers, invariants, lemmas, size)


KINDS = {
    "1": lambda: found(r"\benum \w|-> \(bool|-> \w+ \{$.*\bok\b|fn (number|code|kind)\b|\.number\(\)|\bmatch .*number"),
    "2": same_bodies,
    "3": lambda: found(r"\b(while|loop)\b|\bfor\b .* \bin\b"),
    "4": lambda: found(
        r"impl.* (PartialEq|Eq|PartialOrd|Ord|Clone|Copy|Default|From|TryFrom|Display|Debug)\b.* for "
        r"|fn (eq|cmp|clone|copy|check|number|name|from|into|to|as|put|spell|write)(_\w+)?\b"
        r"|\bas (u8|u16|u32|u64|usize|char)\b|fn \w+_name\b"
    ),
    "5": repeated,
    "6": lambda: found(r"\[[\w:]+(\(\))?; [\w:]+\]|^\s*(count|len|at|size): usize,"),
    "7": lambda: found(r"\bfn\(|\bdyn\b|\b(step|stage|mode)\b"),
    "8": proofs,
}

for kind in sys.argv[1:] or KINDS:
    places = list(KINDS[kind]())
    print("## %s: %d" % (kind, len(places)))
    for place in places:
        print(place)
