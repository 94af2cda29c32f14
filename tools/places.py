#!/usr/bin/env python3
"""Counts the places in src/ where an older form of the language may stand, point by point of docs/DESIGN-PASS.md.

usage: tools/places.py [-l] [POINT..]     at the top; -l lists the places, else each point has its number

A place is what a pattern finds; whether it is an older form is for a reader to say.

  1  enums of two variants of which one carries a value, or both one each; structs in which a bool or an answer stands
     beside values; groups of three constants or more of u8 that number kinds
  2  functions whose text is another's but for names, numbers and types
  3  `while` and `loop`
  4  functions that answer a bool by a match of bare true and false, or by `if .. { return true; }`; structs written out
     with two fields or more of one other value; functions that only cast; functions that only print a value's fields
  5  functions of six parameters or more; clauses of `requires` that three functions or more have word by word
  6  a slice, and a number of type usize that says how much of it is used, in one parameter list; arrays beside each
     other in one struct
  7  matches that run a function of the same arguments in each of four arms or more
"""

import collections
import os
import re
import sys

FUNCTION = re.compile(
    r"^( *)(?:pub(?:\([a-z]+\))? )?fn (\w+)((?:(?!\n\1\}).)*?)(?:\n\1\{| \{)\n(.*?)\n\1\}\n", re.M | re.S
)


def sources():
    for folder, dirs, names in os.walk("crates"):
        dirs[:] = sorted(d for d in dirs if d not in ("out", "specs", "proofs", "must-fail"))
        for name in sorted(names):
            if name.endswith(".rt"):
                path = os.path.join(folder, name)
                text = open(path, encoding="utf-8").read()
                yield path, re.sub(r"^ *//.*\n", "", text, flags=re.M)


def functions():
    for path, text in sources():
        for m in FUNCTION.finditer(text):
            head, body = m.group(3), m.group(4)
            clauses = re.split(r"\n *(?=requires|ensures)", head)
            yield path, m.group(2), clauses[0], clauses[1:], body


def parameters(head):
    inside = head[head.index("(") + 1 :]
    depth, out, word = 0, [], ""
    for c in inside:
        if c in "(<[":
            depth += 1
        if c in ")>]":
            if depth == 0:
                break
            depth -= 1
        if c == "," and depth == 0:
            out.append(word)
            word = ""
        else:
            word += c
    return [w.strip() for w in out + [word] if w.strip()]


def point1():
    for path, text in sources():
        for m in re.finditer(r"enum (\w+) \{\n(.*?)\n\}", text, re.S):
            variants = [v.strip() for v in re.findall(r"^    (\w[^\n]*?),?$", m.group(2), re.M)]
            if len(variants) == 2 and any("(" in v for v in variants):
                yield path, "enum " + m.group(1)
        for m in re.finditer(r"struct (\w+) \{\n(.*?)\n\}", text, re.S):
            fields = re.findall(r"(\w+): ([^\n,]+),", m.group(2))
            flags = [f for f, t in fields if t == "bool" or t == "Answer"]
            if flags and len(fields) > len(flags):
                yield path, "struct %s: %s" % (m.group(1), ", ".join(flags))
        codes = re.findall(r"^(?:pub )?const (\w+): u8 = \d+;", text, re.M)
        if len(codes) >= 3:
            yield path, "constants " + ", ".join(codes)


def shape(head, body):
    text = re.sub(r"\b\d[\d_]*\b", "0", head.split("(", 1)[1] + "{" + body)
    text = re.sub(r'b?"[^"]*"|b\'[^\']*\'', "s", text)
    names = {}
    keep = {"if", "else", "while", "return", "let", "mut", "match", "for", "in", "loop", "as"}
    return re.sub(r"[A-Za-z_]\w*", lambda m: m.group(0) if m.group(0) in keep else names.setdefault(m.group(0), "x%d" % len(names)), re.sub(r"\s+", " ", text))


def point2():
    groups = collections.defaultdict(list)
    for path, name, head, _, body in functions():
        if len(body.split()) >= 3:
            groups[shape(head, body)].append((path, name))
    for places in groups.values():
        if len(places) > 1:
            for path, name in places[1:]:
                yield path, "%s as %s of %s" % (name, places[0][1], places[0][0].split("/")[1])


def point3():
    for path, text in sources():
        for m in re.finditer(r"^ *(while .*|loop) \{$", text, re.M):
            yield path, m.group(1)


def point4():
    for path, name, head, _, body in functions():
        arms = re.findall(r"=> (.*?),?$", body, re.M)
        if "-> bool" in head and arms and all(a in ("true", "false") for a in arms):
            yield path, name + ": a match of true and false"
        elif "-> bool" in head and re.search(r"\{\n *return (true|false);\n", body):
            yield path, name + ": returns true or false by steps"
        if re.fullmatch(r" *\w+ as \w+", body):
            yield path, name + ": a cast"
        for s in re.finditer(r"\b([A-Z]\w+) \{\n((?:\s+\w+(?:: [^\n]+)?,\n)+)", body):
            taken = collections.Counter(re.findall(r"(\w+): (\w+)\.\1,", s.group(2)) and [v for f, v in re.findall(r"(\w+): (\w+)\.\1,", s.group(2))])
            if any(n >= 2 for n in taken.values()):
                yield path, name + ": " + s.group(1) + " copied field by field"
        if name.startswith("say_") and len(re.findall(r"\bsay_number\(|\bsay\(", body)) >= 3:
            yield path, name + ": printed piece by piece"


def point5():
    seen = collections.defaultdict(list)
    for path, name, head, clauses, _ in functions():
        if len(parameters(head)) >= 6:
            yield path, "%s: %d parameters" % (name, len(parameters(head)))
        for c in clauses:
            m = re.match(r"requires (?:\w+ )?\{ (.*) \}$", re.sub(r"\s+", " ", c))
            if m:
                for part in re.split(r" × (?![^(]*\))", m.group(1)):
                    seen[part].append((path, name))
    for part, places in sorted(seen.items()):
        if len(places) >= 3:
            yield places[0][0], "`%s` in %d: %s" % (part, len(places), ", ".join(n for _, n in places))


def point6():
    for path, name, head, _, _ in functions():
        ps = parameters(head)
        if any(re.search(r"&(?:'a )?(mut )?\[", p) for p in ps) and any(re.match(r"(used|len|held|n): usize", p) for p in ps):
            yield path, name
    for path, text in sources():
        for m in re.finditer(r"struct (\w+) \{\n(.*?)\n\}", text, re.S):
            sizes = collections.Counter(re.findall(r": \[\w+; ([^\]]+)\]", m.group(2)))
            if any(n > 1 for n in sizes.values()):
                yield path, "struct %s: arrays of one length" % m.group(1)


def point7():
    for path, name, head, _, body in functions():
        arms = re.findall(r"=> (\w[\w:]*)\((.*)\),?$", body, re.M)
        calls = collections.Counter(args for f, args in arms if f[0].islower())
        if calls and calls.most_common(1)[0][1] >= 4:
            yield path, name


def main():
    words = sys.argv[1:]
    listing = "-l" in words
    points = [w for w in words if w != "-l"] or list("1234567")
    for p in points:
        found = list(globals()["point" + p]())
        print("%s  %d" % (p, len(found)))
        if listing:
            for path, what in found:
                print("   %s: %s" % (path[7:], what))


if __name__ == "__main__":
    main()
