#!/usr/bin/env python3
"""Lists the places in crates/*/src that are written in an older form, by kind.

usage: tools/places.py [KIND..]     kinds: enums twins loops hand facts buffers switches answers
"""
import collections
import glob
import os
import re
import sys

os.chdir(os.path.join(os.path.dirname(os.path.abspath(__file__)), ".."))
FILES = sorted(glob.glob("crates/*/src/*.rt"))
TEXT = {f: open(f, encoding="utf-8").read() for f in FILES}


def lines_with(pattern):
    found = []
    for f in FILES:
        for i, line in enumerate(TEXT[f].split("\n"), 1):
            code = line.split("//")[0]
            if re.search(pattern, code):
                found.append(f"{f}:{i}: {line.strip()}")
    return found


def enums():
    """Enums of the shape of Option or Result, flags in structs, numbers that stand for a kind or a refusal."""
    found = []
    for f in FILES:
        for m in re.finditer(r"enum (\w+)[^{]*\{(.*?)\n\s*\}", TEXT[f], re.S):
            body = re.sub(r"//[^\n]*", "", m.group(2))
            variants = [v.strip() for v in re.split(r",\s*\n", body) if v.strip(" \n,")]
            shapes = sorted(
                "one" if re.fullmatch(r"\w+\([^,()]*(\([^()]*\))?[^,()]*\),?", v) else
                "none" if re.fullmatch(r"\w+,?", v) else "more"
                for v in variants
            )
            if shapes in (["none", "one"], ["one", "one"]):
                found.append(f"{f}: enum {m.group(1)} has the shape of {'Option' if 'none' in shapes else 'Result'}")
    found += ["flag " + p for p in lines_with(r"^\s*(pub )?(live|full|issued|default|some): bool,")]
    found += ["number " + p for p in lines_with(
        r"number: u8,$|\.number\(\) ==|<= number|Result<.*, (usize|u8)>|starts_with\(\"refused \d"
        r"|(supersonic|outside|route|close): u32,?")]
    return found


def shape(text):
    text = re.sub(r"//[^\n]*", "", text)
    text = re.sub(r"\b(requires|ensures)\b[^{]*\{[^\n]*\}\s*\n", "", text)
    text = re.sub(r"b?\"[^\"]*\"|b?'[^']*'|\b\d[\d_]*\b", "0", text)
    words = {"fn", "let", "mut", "if", "else", "match", "for", "in", "return", "Some", "None", "Ok", "Err", "self", "while", "loop", "as", "pub"}
    text = re.sub(r"\b(?:\w+::)*[A-Za-z_]\w*(?:::<[^>]*>)?\b", lambda m: m.group(0) if m.group(0) in words else "x", text)
    return re.sub(r"\s+", " ", text).strip()


def twins():
    """Functions of three statements or more lines whose bodies have one shape."""
    groups = collections.defaultdict(list)
    for f in FILES:
        for m in re.finditer(r"\n(\s*)(?:pub(?:\(crate\))? )?fn (\w+)(.*?)\n\1\{(.*?)\n\1\}", "\n" + TEXT[f], re.S):
            body = m.group(4)
            if len([l for l in body.split("\n") if l.strip()]) >= 4:
                groups[shape(body)].append(f"{f} {m.group(2)}")
    return [" = ".join(g) for g in groups.values() if len(g) > 1]


def loops():
    """Loops over a range of numbers, and loops by a test."""
    return lines_with(r"^\s*(for \w+ in [^{]*\.\.|while |loop )")


def hand():
    """Matches and tests on Option and Result that a method or `?` does, and comparison or text by hand."""
    return lines_with(
        r"^\s*None => (None|false|return None|return \w|Err|Ok)|Err\(\w+\) => Err\(\w+\)|Ok\(\(\)\) => Ok\(\(\)\)"
        r"|Ok\(_\) => (true|false)|Err\(_\) => (true|false|None)"
        r"|fn (is|same|with_letter|nth|nth_of|put|byte_at|until|lower|sooner|nearer|positive|digit|all_are|done|found|tell)\("
        r"|fn (nth|nth_of|put|with_letter|done|found)<"
        r"|fn \w*(_text|_word)\(\w+: \w+\) ->|fn text\(self\)|: _,$|: _, other: _")


def facts():
    """Clauses that stand in three or more contracts, and parameters that stand together in six or more functions."""
    pairs, clauses = collections.Counter(), collections.Counter()
    for f in FILES:
        for m in re.finditer(r"fn\s+\w+\s*(?:<[^>]*(?:<[^>]*>[^>]*)*>)?\s*\((.*?)\)\s*(?:->|where|requires|ensures|\{|;)", TEXT[f], re.S):
            names = []
            for p in re.split(r",(?![^<(\[]*[>)\]])", m.group(1)):
                q = re.match(r"(?:mut )?(\w+):\s*(.*)", p.strip(), re.S)
                if q:
                    t = re.sub(r"'\w+|\bmut\b|\s+", " ", q.group(2))
                    names.append(q.group(1) + ": " + re.sub(r"[^A-Za-z:]+", " ", t).strip())
            for i, a in enumerate(names):
                for b in names[i + 1:]:
                    pairs[tuple(sorted((a, b)))] += 1
        for m in re.finditer(r"(requires|ensures)\s+(?:\w+\s+)?\{(.*?)\}\s*(?=\n)", TEXT[f], re.S):
            clauses[re.sub(r"\s+", " ", m.group(2)).strip()] += 1
    found = [f"{n} contracts: {c}" for c, n in clauses.most_common() if n >= 3]
    return found + [f"{n} functions: {a}, {b}" for (a, b), n in pairs.most_common() if n >= 6]


def buffers():
    """Arrays of fixed length that are filled up to a count, and ones that are made where they are lent."""
    return lines_with(r"; (16|17|58|46|384)\]")


def switches():
    """Values that say which test or step is to run, and flags asked at each step."""
    return lines_with(r"\bSought\b|self\.live|sought: |whole_only")


def answers():
    """Answers to goals, and lemmas in proofs/, by crate."""
    count = collections.Counter()
    for f in glob.glob("crates/*/proofs/**/*.antt", recursive=True):
        crate = f.split("/")[1]
        text = open(f, encoding="utf-8").read()
        count[crate, "answers"] += len(re.findall(r"^pub \S+ : goal\.", text, re.M))
        count[crate, "lines"] += text.count("\n")
    crates = sorted({c for c, _ in count})
    return [f"{c}: {count[c, 'answers']} answers, {count[c, 'lines']} lines" for c in crates]


KINDS = {k.__name__: k for k in (enums, twins, loops, hand, facts, buffers, switches, answers)}

for kind in sys.argv[1:] or KINDS:
    places = KINDS[kind]()
    print(f"== {kind}: {len(places)}  {KINDS[kind].__doc__}")
    for place in places:
        print("  " + place)
