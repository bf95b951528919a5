#!/usr/bin/env python3
"""Lists the places in src/ that the design pass looks at, a block for each of its points.

    python3 tools/places.py            counts
    python3 tools/places.py --list     counts and places
    python3 tools/places.py --list 3   one point

A place that is found is one to look at, not one that is wrong. docs/DESIGN-PASS.md says what became of each.
"""
import glob
import hashlib
import re
import sys
from collections import defaultdict


def sources():
    for path in sorted(glob.glob("crates/*/src/**/*.rt", recursive=True)):
        yield path, open(path, encoding="utf8").read().split("\n")


# What each point's places look like, line by line.
LINES = {
    "1 enums": r"^\s*(pub(\(crate\))? )?enum \w+",
    "1 numbers that stand for none or for a kind": r"//.*\b(0 if|or 0\b|0:? none|0 for|0 none|number 0|version 0)|\bstrike: u8|\bstop: u8|=> \d+,$",
    "1 a flag beside a value": r"\.is_none\(\) \|\||\.is_some\(\) &&|let mut (best|found|missing|top)\b",
    "3 while and loop": r"^\s*(while|loop)\b",
    "3 loops over a range": r"^\s*for \w+ in .*\.\.",
    "3 other for loops": r"^\s*for (?!.*\.\.).* in ",
    "4 matches that print or number": r"=> (\"[^\"]*\"|[\d_]+),$",
    "4 conversions by as": r"\bas (u8|u16|u32|u64|usize)\b",
    "4 bytes of numbers": r"% 256|\* 256\b|256 \*|65536|16777216",
    "4 options and results taken apart to be put together": r"^\s*(None => None|Err\(\w+\) => (return )?Err\(|Some\(\w+\) => Some\(|Ok\(\(\)\) => Ok\(\(\)\))",
    "6 arrays in fields, parameters and locals": r"(: |= |-> )\[\[?(Option<)?\w+.*; ",
    "6 counts beside them": r"^\s*(pub(\(crate\))? )?(count|reads|len|live): ",
    "7 switches on a step or a kind": r"^\s*match (step|under|answer|asked|command|\(state, asked\))\b",
    "7 function pointers, dyn": r"\bfn\(|\bdyn ",
}


def functions():
    """Each function's name, place and text, comments and clauses left out."""
    start = re.compile(r"^\s*(pub(\(crate\))? )?(const )?fn (\w+)")
    for path, lines in sources():
        at = 0
        while at < len(lines):
            head = start.match(lines[at])
            if not head:
                at += 1
                continue
            depth, body, i, opened = 0, [], at, False
            clause = 0
            while i < len(lines):
                line = re.sub(r"//.*", "", lines[i])
                if re.match(r"^\s*(requires|ensures)\b", line) or clause:
                    clause += line.count("{") - line.count("}")
                    i += 1
                    continue
                body.append(line)
                depth += line.count("{") - line.count("}")
                opened = opened or "{" in line
                i += 1
                if (opened and depth == 0) or (not opened and line.rstrip().endswith(";")):
                    break
            yield path, at + 1, head.group(4), "\n".join(body)
            at = i


def shape(text):
    """The text with each name and number replaced, so that twins have one shape."""
    words = {}
    keep = {"fn", "let", "mut", "if", "else", "for", "in", "match", "return", "while", "self", "pub", "crate", "Ok", "Err", "Some", "None"}

    def put(word):
        w = word.group(0)
        if w in keep:
            return w
        return words.setdefault(w, "n%d" % len(words))

    return re.sub(r"\s+", "", re.sub(r"\b\w+\b", put, text))


def twins():
    groups = defaultdict(list)
    for path, line, name, text in functions():
        if len(text.split("\n")) < 3:
            continue
        groups[hashlib.sha1(shape(text).encode()).hexdigest()].append("%s:%d: %s" % (path, line, name))
    return [g for g in groups.values() if len(g) > 1]


def repeated_facts():
    """Facts that stand in the requires of three or more functions of a crate."""
    facts = defaultdict(list)
    for path, lines in sources():
        crate = path.split("/")[1]
        for at, line in enumerate(lines, 1):
            found = re.match(r"^\s*requires( \w+)? \{ (.*) \}$", line)
            if not found:
                continue
            for fact in re.split(r" × ", found.group(2)):
                fact = re.sub(r"^\(+|\)+$", "", fact)
                fact = re.sub(r"\.(now|old|new)\b", "", fact)
                facts[crate, fact].append("%s:%d" % (path, at))
    return {k: v for k, v in facts.items() if len(v) >= 3}


def answers():
    count = defaultdict(int)
    proofs = glob.glob("crates/*/proofs/**/*.antt", recursive=True) + glob.glob("crates/*/specs/Laws/*.antt")
    for path in sorted(proofs):
        crate = path.split("/")[1]
        text = open(path, encoding="utf8").read()
        count[crate, "lines"] += text.count("\n")
        if path.endswith("Answers.antt"):
            count[crate, "answers"] += len(re.findall(r"^pub [\w-]+ : goal\.", text, re.M))
    return count


def main():
    listed = "--list" in sys.argv
    only = [a for a in sys.argv[1:] if a.isdigit()]

    def shown(title):
        return not only or title[0] in only

    for title, pattern in LINES.items():
        if not shown(title):
            continue
        places = [
            "%s:%d: %s" % (path, at, line.strip())
            for path, lines in sources()
            for at, line in enumerate(lines, 1)
            if re.search(pattern, line)
        ]
        tests = sum("_tests/" in p for p in places)
        print("%s: %d (%d in tests)" % (title, len(places), tests))
        if listed:
            for place in places:
                print("    " + place)
    if shown("2"):
        groups = twins()
        print("2 functions of one shape: %d groups, %d functions" % (len(groups), sum(map(len, groups))))
        if listed:
            for group in groups:
                print("    " + "\n    ".join(group) + "\n")
    if shown("5"):
        facts = repeated_facts()
        print("5 facts required by three functions of a crate or more: %d facts, %d clauses" % (len(facts), sum(map(len, facts.values()))))
        if listed:
            for (crate, fact), places in sorted(facts.items()):
                print("    %s: %s: %d" % (crate, fact, len(places)))
    if shown("8"):
        count = answers()
        crates = sorted({c for c, _ in count})
        print("8 lines of proofs/ and specs/Laws/: %d; answers: %d" % (sum(count[c, "lines"] for c in crates), sum(count[c, "answers"] for c in crates)))
        if listed:
            for crate in crates:
                print("    %s: %d lines, %d answers" % (crate, count[crate, "lines"], count[crate, "answers"]))


main()
