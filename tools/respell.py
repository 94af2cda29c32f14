#!/usr/bin/env python3
"""Brings the repository's own definitions and lemmas to today's spelling: words in snake case.

usage: tools/respell.py [--dry]     once, at the top, in a tree that port.py has turned

A name of a definition, a lemma, a field or a variable of specs/ and proofs/ that is written in camel case or with dashes
is respelled; types, modules and what comes from the sources of a crate keep theirs. A lemma that would have the name of
a definition gets `_lem`. Must-fail edits, README.md and docs/ follow. It prints names that would fall together in one
file all the same, and writes nothing then.
"""

import collections
import os
import re
import sys

NAME = re.compile(r"[^\s(){}\[\],;.:`\"|]+")
DECLARED = re.compile(r"^(\s*)((?:pub |abbrev |unfoldable |private )*)([^\s:(){}.,;]+) : ")
USES = re.compile(r"^(?:ghost )?use ([^\s{]+?)(?:\.\{([^}]*)\})?(?: as (\S+?))?;?$", re.M)

def files(top, ends):
    for folder, dirs, names in os.walk(top):
        dirs[:] = sorted(d for d in dirs if d != "out")
        for name in sorted(names):
            if name.endswith(ends):
                yield os.path.join(folder, name)


def by_hand(path):
    """A proof of one function: its goals have names that Rattle makes."""
    parts = path.split(os.sep)
    return parts[2] == "proofs" and len(parts) > 4


def read(path):
    with open(path, encoding="utf-8") as f:
        return f.read()


def snake(word):
    return re.sub(r"(?<=[a-z0-9])([A-Z])", lambda m: "_" + m.group(1).lower(), word)


def old(word):
    """Written in camel case, or with a dash."""
    return bool(re.match(r"[a-zμ]", word)) and bool(re.search(r"[a-z0-9][A-Z]|[a-z0-9]-[a-z0-9]", word)) and not re.search(r"[◌→≡≤<+]", word)


def imported(text, crates):
    """Names that a file takes from the library."""
    out = set()
    for m in USES.finditer(re.sub(r"\{\s+", "{", re.sub(r",\s+", ", ", text))):
        path = m.group(1).split(".")
        if not (path[0] == "Rattle" and path[1] in crates):
            out |= {n.strip() for n in (m.group(2) or "").split(",")}
    return out


def declared(paths):
    """Each name with how it is declared: as a definition or a field, or as a lemma."""
    defs, lemmas = set(), set()
    for path in paths:
        if by_hand(path):
            continue
        for line in read(path).split("\n"):
            m = DECLARED.match(line)
            if m:
                is_def = os.sep + "specs" + os.sep in path or "abbrev" in m.group(2) or "unfoldable" in m.group(2)
                (defs if is_def else lemmas).add(m.group(3))
    return defs, lemmas


def table(antt):
    defs, lemmas = declared(antt)
    words = defs | lemmas
    spelled = {w: snake(w.replace("-", "_")) if old(w) else w for w in words}
    is_def = {spelled[w] for w in defs}
    to = {}
    for w in sorted(words):
        to[w] = spelled[w]
        if w not in defs and spelled[w] in is_def and any(spelled[d] == spelled[w] and d != w for d in defs):
            to[w] = spelled[w] + "_lem"
    return {k: v for k, v in to.items() if k != v}, words


def local(text, to, crates):
    """Variables of one file: what is old in spelling and neither ours by name nor the library's."""
    taken = imported(text, crates)
    out = {}
    for line in text.split("\n"):
        code = re.split(r"(?:^|\s)--(?:\s|$)", line)[0]
        if re.match(r"(pub )?(use|mod) ", code):
            continue
        for m in re.finditer(r"(?<![\w.'-])" + NAME.pattern, code):
            w = m.group(0)
            if w not in to and w not in taken and old(w):
                out[w] = snake(w.replace("-", "_"))
    return out


def turn_antt(path, to, crates):
    text = read(path)
    taken = imported(text, crates)
    here = {k: v for k, v in to.items() if k not in taken}
    goals = set()
    if by_hand(path):
        for line in text.split("\n"):
            m = DECLARED.match(line)
            if m and ("tie." in line or "goal." in line or m.group(3).endswith("-spec")):
                goals.add(m.group(3))
        here = {k: v for k, v in here.items() if k not in goals}
    else:
        here.update(local(text, to, crates))

    def one(m):
        w = m.group(0)
        if by_hand(path) and m.start() and text[m.start() - 1] == ".":
            return w
        return here.get(w, w)

    return NAME.sub(one, text)


def turn_rt(text, to):
    camel = {k: v for k, v in to.items() if "-" not in k}
    return re.sub(r"(?<![\w\"'])[a-z][a-z0-9]*(?:[A-Z][a-z0-9]*)+(?![\w\"'])", lambda m: camel.get(m.group(0), m.group(0)), text)


def turn_edit(text, to):
    out = []
    for line in text.split("\n"):
        if re.match(r"(old|new): ", line):
            line = line[:5] + NAME.sub(lambda m: to.get(m.group(0), m.group(0)), line[5:])
        out.append(line)
    return "\n".join(out)


def turn_page(text, to):
    def quoted(m):
        return "`" + NAME.sub(lambda n: to.get(n.group(0), n.group(0)), m.group(1)) + "`"

    return re.sub(r"`([^`\n]*)`", quoted, text)


def clashes(antt, to, words, crates):
    said = []
    back = collections.defaultdict(set)
    for k, v in to.items():
        back[v].add(k)
    for path in antt:
        if by_hand(path):
            continue
        text = read(path)
        taken = imported(text, crates)
        seen = set(NAME.findall(re.sub(r"(?m)(^|\s)--( .*)?$", "", text)))
        here = dict(to)
        here.update(local(text, to, crates))
        for k in sorted(seen & set(here)):
            v = here[k]
            others = ({v} if v in seen and here.get(v, v) == v else set()) | {x for x in seen if x != k and here.get(x) == v}
            if others:
                said.append(f"{path}: {k} to {v}, beside {', '.join(sorted(others))}")
            if v in taken:
                said.append(f"{path}: {k} to {v}, which it takes from the library")
    return said


def main():
    top = "crates"
    crates = set(os.listdir(top))
    antt = list(files(top, ".antt"))
    to, words = table(antt)
    said = clashes(antt, to, words, crates)
    for line in said:
        print("clash:", line)
    print(f"respell: {len(to)} names")
    if "--list" in sys.argv:
        for k, v in sorted(to.items()):
            print(k, v)
    if said or "--dry" in sys.argv:
        return 1 if said else 0
    new = {}
    for path in antt:
        new[path] = turn_antt(path, to, crates)
    for path in files(top, ".rt"):
        new[path] = turn_rt(read(path), to)
    for path in files(top, ".edit"):
        new[path] = turn_edit(read(path), to)
    for path in ["README.md", *files("docs", ".md")]:
        new[path] = turn_page(read(path), to)
    for path, text in new.items():
        if text != read(path):
            with open(path, "w", encoding="utf-8") as f:
                f.write(text)
    return 0


if __name__ == "__main__":
    raise SystemExit(main())
