#!/usr/bin/env python3
"""Lists the places of src/ that older forms may hold, by the points of docs/DESIGN-PASS.md: a line for each place, a count for each point.

usage: python3 tools/places.py [POINT..]     at the top of the repository; without POINT all seven, and the proofs as point 8

It goes by text and knows nothing of meaning: docs/DESIGN-PASS.md says of what it finds what was changed, and why the rest stays.
"""
import collections
import glob
import re
import sys

FILES = {f: open(f).read() for f in sorted(glob.glob("crates/*/src/**/*.rt", recursive=True))}


def line_of(text, at):
    return text.count("\n", 0, at) + 1


def lines():
    """File, line number and line of all."""
    for f, text in FILES.items():
        for n, l in enumerate(text.split("\n"), 1):
            yield f, n, l


def block(text, at):
    """The text between the brace at or behind `at` and its partner."""
    first = text.index("{", at)
    depth = 0
    for k in range(first, len(text)):
        depth += {"{": 1, "}": -1}.get(text[k], 0)
        if depth == 0:
            return text[first + 1 : k]
    return text[first + 1 :]


def functions():
    """File, line, name, parameters, result, clauses and body of each function."""
    for f, text in FILES.items():
        for m in re.finditer(r"^[ \t]*(?:pub )?(?:extern \"C\" )?fn (\w+)", text, re.M):
            body = re.compile(r"\n[ \t]*\{\n|\{\n").search(text, m.end())
            head = text[m.end() : text.index("\n}", m.end()) if "\n}" in text[m.end() :] else len(text)]
            shut = re.search(r"^[ \t]*\{$|\) (?:-> [^\n{]*)?\{$", head, re.M)
            clauses = head[: shut.start()] if shut else head
            rest = head[shut.end() :] if shut else ""
            end = re.search(r"^\}|^    \}$", rest, re.M)
            yield f, line_of(text, m.start()), m.group(1), clauses, rest


def point_1():
    """Enums of the shape of Option or Result, numbers beside a value, refusals by number, groups of numbered kinds."""
    for f, text in FILES.items():
        for m in re.finditer(r"^(?:pub )?enum (\w+)", text, re.M):
            variants = [v.strip() for v in re.sub(r"//[^\n]*", "", block(text, m.end())).split("\n") if v.strip()]
            bare = [v for v in variants if re.fullmatch(r"\w+,", v)]
            if len(variants) == 2 or any(re.match(r"(No|Bubble|Free)", v) for v in bare):
                yield f, line_of(text, m.start()), "enum " + m.group(1)
        for m in re.finditer(r"^(?:pub )?struct (\w+)", text, re.M):
            if text[m.end() : m.end() + 20].lstrip().startswith("{"):
                fields = re.findall(r"(\w+): (u64|bool)", block(text, m.end()))
                for name, kind in fields:
                    if name in ("number", "kind", "failed", "writes"):
                        yield f, line_of(text, m.start()), f"struct {m.group(1)}, {name}: {kind}"
        group = []
        for n, l in enumerate(text.split("\n"), 1):
            c = re.match(r"(?:pub )?const (\w+): u8 = \d+;", l)
            if c:
                group.append((n, c.group(1)))
            elif l.strip() and group:
                yield f, group[0][0], "numbers " + ", ".join(g[1] for g in group)
                group = []
        if group:
            yield f, group[0][0], "numbers " + ", ".join(g[1] for g in group)
    for f, n, name, clauses, _ in functions():
        if re.search(r"refusal", name) and "-> u64" in clauses:
            yield f, n, "fn " + name
        elif re.search(r"_edge/|/edge/|/edge_c/", f) and re.search(r"^pub fn|^pub extern", FILES[f].split("\n")[n - 1]) and "-> u64" in clauses:
            yield f, n, "fn " + name


def point_2():
    """Functions of one file or of two whose bodies are the same but for names and numbers."""
    shapes = collections.defaultdict(list)
    for f, n, name, clauses, body in functions():
        tokens = re.findall(r"[A-Za-z_]\w*|\d+|\"[^\"]*\"|[^\s\w]", re.sub(r"//[^\n]*", "", body))
        shape = " ".join("n" if re.match(r"[A-Za-z_\d\"]", t) and t not in KEYWORDS else t for t in tokens)
        if len(tokens) >= 9:
            shapes[shape].append((f, n, name))
    for same in shapes.values():
        if len(same) > 1:
            for f, n, name in same:
                yield f, n, "fn " + name + " like " + ", ".join(s[2] for s in same if s[:2] != (f, n))[:90]


KEYWORDS = {"let", "mut", "if", "else", "match", "while", "for", "in", "return", "as", "fn", "ref", "break", "loop"}


def point_3():
    """Loops that are no `for`."""
    for f, n, l in lines():
        if re.match(r"\s*(while|loop)\b", l):
            yield f, n, l.strip()


def point_4():
    """Functions that do what a derive, From, TryFrom, Display or a method of the library does."""
    names = r"\w+_number|\w*codes_from|status_at|fault_at|wide|bit|is_bad|is_digit|lesser|afresh|held_d|still_kept|faulty|with_register|put_truth|begins|copy_over|clear|charge_of"
    for f, n, name, clauses, _ in functions():
        if re.fullmatch(names, name) and "put_number" != name:
            yield f, n, "fn " + name


def point_5():
    """Facts that three or more contracts ask, and pairs of parameters that five or more functions take together."""
    facts = collections.defaultdict(list)
    pairs = collections.defaultdict(list)
    for f, n, name, clauses, _ in functions():
        for fact in re.findall(r"requires \{(.*?)\}\n", clauses + "\n", re.S):
            for one in re.split(r" × ", fact):
                facts[re.sub(r"\b\d+\b", "N", re.sub(r"[()]|\s+", " ", one)).strip()].append((f, n, name))
        head = clauses[: clauses.index("\n    ensures")] if "\n    ensures" in clauses else clauses
        parameters = [p for p in re.findall(r"(\w+): (&?(?:mut )?[\[\w\]; ]+)", head)]
        for k in range(len(parameters) - 1):
            pairs[parameters[k] + parameters[k + 1]].append((f, n, name))
    for fact, at in facts.items():
        if len(at) >= 3:
            yield at[0][0], at[0][1], f"fact {fact[:70]}: {len(at)} functions"
    for pair, at in pairs.items():
        if len(at) >= 5:
            yield at[0][0], at[0][1], f"parameters {pair[0]}: {pair[1]}, {pair[2]}: {pair[3]}: {len(at)} functions"


def point_6():
    """Buffers with a length beside them, packed tables, parallel arrays."""
    for f, n, name, clauses, _ in functions():
        if re.search(r"buffer: &mut \[u8\],\s+at: usize", clauses):
            yield f, n, "fn " + name + ": buffer and place"
    for f, text in FILES.items():
        for m in re.finditer(r"^(?:pub )?const (\w+): \[\w+; (\w+)\] =", text, re.M):
            yield f, line_of(text, m.start()), f"table {m.group(1)} of {m.group(2)}"


def point_7():
    """Matches on a number that says which step to run."""
    for f, n, l in lines():
        if re.match(r"\s*match (kind|shape|byte|which|row|rule)\b", l):
            yield f, n, l.strip()


def point_8():
    """Answers that only say what the check finds, or only unfold a definition."""
    for f in sorted(glob.glob("crates/*/proofs/**/Answers.antt", recursive=True)):
        for n, l in enumerate(open(f).read().split("\n"), 1):
            if re.search(r"^\S+ c = (cc|refl|search rules|omega arith)$", l):
                yield f, n, l.strip()


def main():
    for k in sys.argv[1:] or "12345678":
        found = list(globals()["point_" + k]())
        print(f"point {k}: {len(found)}")
        for f, n, what in found:
            print(f"  {f}:{n}: {what}")


main()
