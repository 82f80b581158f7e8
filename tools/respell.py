#!/usr/bin/env python3
"""Brings this repository's own names to today's spelling, once, right after the kit's port.py and before its commit.

usage: python3 tools/respell.py [TABLE]     at the top of the repository; TABLE takes the old and the new names, tab-parted

A definition or a lemma of specs/ and proofs/ is written in snake case: `newCodes` is `new_codes`, `fetched-back` is `fetched_back`. Types, modules,
the stage tables' symbols (R, PC, CC, M₁, M₈, and F to W of records) and names that come from the library or from src/ stay. Where a lemma falls
together with a definition it ends in `_lem`. In comments and pages only camel case and what stands between backticks is turned.
"""
import collections
import os
import re
import subprocess
import sys

IDENT = re.compile(r"[^\W\d][\w'-]*", re.U)
USE = re.compile(r"^\s*(?:pub |ghost )*use\s+([\w.+'-]+)\.\{([^}]*)\}", re.M)
DECL = re.compile(r"^\s*(?:(?:abbrev|unfoldable|pub)\s+)*([^\W\d][^\s(){}:.,;]*)\s*:(?=\s)", re.M)
OWN = set(os.listdir("crates"))

# Names that need a word of their own: the rule alone would give two of them one name.
CHOSEN = {
    "asIn01": "as_in_01",
    "as-in-01": "as_in_01_lem",
    "A-to-F": "upper_a_to_f",
    "before-A": "before_upper_a",
    "late-D": "late_in_d",
    "plain-step": "plain_step_operation",
    "plain-start": "plain_start_operation",
    "plain-run": "plain_run_operation",
    "pipe-start": "pipe_start_operation",
    "pipe-clock": "pipe_clock_operation",
    "pipe-run": "pipe_run_operation",
    "pipe-run-unlogged": "pipe_run_unlogged_operation",
    "OPq": "opq",
    "P7": "p7",
}
# Lemmas that port.py had already turned, where a definition takes their name now.
TURNED = {w: w + "_lem" for w in ("due_in", "found_in", "goes_on", "is_digit", "no_register", "no_targets", "passed_on", "source_in", "targets_of")}
TURNED["plain_step"] = CHOSEN["plain-step"]
# Definitions that port.py had already turned, so that a lemma of that name is the one that ends in `_lem`.
DEFINED = {"no_part", "read_on", "step_of"}


def files(*ends):
    for folder, dirs, names in os.walk("."):
        dirs[:] = sorted(d for d in dirs if d not in ("out", ".git", "target", "log"))
        for n in sorted(names):
            if n.endswith(ends):
                yield os.path.join(folder, n)


def read(path):
    with open(path, encoding="utf-8") as f:
        return f.read()


def is_own(module):
    m = re.match(r"Rattle\.(\w+)\.", module)
    return bool(m) and m.group(1) in OWN


def foreign(text):
    """The names that a file takes from the library, which keep their spelling."""
    found = set()
    for module, names in USE.findall(text):
        if not is_own(module):
            found |= {n.strip().split(" as ")[0].strip() for n in names.split(",")}
    return found


def snake(word):
    word = re.sub(r"([a-z0-9])([A-Z])", r"\1_\2", word.replace("-", "_"))
    return word.lower()


def is_candidate(word):
    return "-" in word or bool(re.match(r"[a-z]\w*[A-Z]", word))


def without_comments(text, path):
    return re.sub(r"--[^\n]*" if path.endswith(".antt") else r"//[^\n]*", "", text)


def table():
    camel, dashed, plain = set(), set(), set()
    for path in files(".antt", ".rt"):
        if not path.startswith("./crates/"):
            continue
        text = read(path)
        body, library = without_comments(text, path), foreign(text)
        walk = path.endswith("/Proof.antt")
        for m in IDENT.finditer(body):
            w = m.group(0)
            if w in library or body[max(0, m.start() - 4):m.start()] == "tie.":
                continue
            if walk and m.start() and body[m.start() - 1] == ".":
                continue
            if is_candidate(w):
                (dashed if "-" in w else camel).add(w)
            elif path.endswith(".antt"):
                plain.add(w)
    names = {w: CHOSEN.get(w, snake(w)) for w in camel}
    taken = set(names.values()) | DEFINED
    for w in sorted(dashed):
        to = CHOSEN.get(w, snake(w))
        names[w] = to + "_lem" if w not in CHOSEN and to in taken else to
    for w in ("OPq", "P7"):
        names[w] = CHOSEN[w]
    return names, taken


def turn_code(text, path, names, lemmas):
    library = foreign(text)
    walk = path.endswith("/Proof.antt")
    mark = "--" if path.endswith(".antt") else "//"
    out = []
    for line in text.split("\n"):
        at = line.find(mark)
        code, remark = (line, "") if at < 0 else (line[:at], line[at:])

        def one(m):
            w = m.group(0)
            before = code[max(0, m.start() - 4):m.start()]
            if w in library or before == "tie.":
                return w
            if w in lemmas and (path.endswith(".antt") or "/promised/" in path and code.startswith(("ghost use", "    ensures"))):
                return w if before.endswith(".") and (walk or before.endswith("c.")) else lemmas[w]
            return names.get(w, w)

        parts = re.split(r'("(?:[^"\\]|\\.)*")', code)
        position = 0
        made = []
        for k, part in enumerate(parts):
            if k % 2:
                made.append(part)
            else:
                whole = code
                made.append(IDENT.sub(lambda m, o=position: one(Shifted(m, o)), part))
            position += len(part)
        out.append("".join(made) + turn_remark(remark, names, library))
    return "\n".join(out)


class Shifted:
    """A match in a part of a line, as one in the whole line."""

    def __init__(self, m, by):
        self.m, self.by = m, by

    def group(self, k):
        return self.m.group(k)

    def start(self):
        return self.m.start() + self.by


def turn_remark(text, names, library=frozenset()):
    def camel(m):
        w = m.group(0)
        return names[w] if "-" not in w and is_candidate(w) and w in names and w not in library else w

    def quoted(m):
        return "`" + IDENT.sub(lambda i: names.get(i.group(0), i.group(0)), m.group(1)) + "`"

    return IDENT.sub(camel, re.sub(r"`([^`\n]+)`", quoted, text))


def turn_edit(text, names):
    out = []
    for line in text.split("\n"):
        if line.startswith(("old:", "new:")):
            line = re.sub(r"[^\W\d][\w'-]*", lambda m: names.get(m.group(0), m.group(0)), line)
        out.append(line)
    return "\n".join(out)


def since_landed(names):
    """For pages: the names of the last commit, through what port.py made of them."""
    pairs = collections.defaultdict(collections.Counter)
    for path in files(".antt"):
        r = subprocess.run(["git", "show", "HEAD:" + path[2:]], capture_output=True, text=True)
        if r.returncode or path.endswith("/Proof.antt"):
            continue
        old, new = DECL.findall(r.stdout), DECL.findall(read(path))
        if len(old) == len(new):
            for a, b in zip(old, new):
                pairs[a][b] += 1
    return {a: names.get(c.most_common(1)[0][0], c.most_common(1)[0][0]) for a, c in pairs.items()}


def check(names, lemmas):
    """Names that fall together in one file: two old ones that would be one, or a new one that stands there already."""
    bad = 0
    for path in files(".antt", ".rt"):
        if not path.startswith("./crates/"):
            continue
        text = read(path)
        body, library = without_comments(text, path), foreign(text)
        here = set()
        for m in IDENT.finditer(body):
            w = m.group(0)
            if w in library or (m.start() and body[m.start() - 1] == "."):
                continue
            here.add(w)
        by = collections.defaultdict(set)
        for w in here:
            if w not in lemmas:
                by[names.get(w, w)].add(w)
        for to, olds in by.items():
            if len(olds) > 1 and path.endswith(".antt"):
                print(f"together: {path}: {to}: {sorted(olds)}")
                bad += 1
    return bad


def main():
    names, _ = table()
    lemmas = TURNED
    check(names, lemmas)
    pages = since_landed(names) | names
    for path in files(".antt", ".rt"):
        if path.startswith("./crates/"):
            text = read(path)
            new = turn_code(text, path, names, lemmas)
            if new != text:
                open(path, "w", encoding="utf-8").write(new)
    for path in files(".edit"):
        text = read(path)
        new = turn_edit(text, names)
        if new != text:
            open(path, "w", encoding="utf-8").write(new)
    for path in files(".md"):
        text = read(path)
        new = re.sub(r"`([^`\n]+)`", lambda m: "`" + IDENT.sub(lambda i: pages.get(i.group(0), i.group(0)), m.group(1)) + "`", text)
        if new != text:
            open(path, "w", encoding="utf-8").write(new)
    if len(sys.argv) > 1:
        with open(sys.argv[1], "w", encoding="utf-8") as f:
            for a, b in sorted((pages | lemmas).items()):
                if a != b:
                    f.write(f"{a}\t{b}\n")


if __name__ == "__main__":
    main()
