#!/usr/bin/env python3
"""Lists the places in crates/*/src that docs/DESIGN-PASS.md counts, point by point. With --short only the numbers."""
import collections
import pathlib
import re
import sys

ROOT = pathlib.Path(__file__).resolve().parent.parent
NONE_NAMES = {"None", "Nothing", "Nobody", "Nowhere", "NoMore", "NoRecord", "Unknown", "Unasked", "Never", "End", "Wrong", "Fine", "Fits", "Yes"}
FAILURES = re.compile(r"\b(Refusal|Fault|Error)\b|Wrong")


def sources():
    for path in sorted((ROOT / "crates").glob("*/src/*.rt")):
        text = path.read_text()
        yield str(path.relative_to(ROOT / "crates")), re.sub(r"//[^\n]*", "", text), text


def split_top(text):
    parts, depth, start = [], 0, 0
    for i, c in enumerate(text):
        depth += c in "({[<"
        depth -= c in ")}]>"
        if c == "," and depth == 0:
            parts.append(text[start:i])
            start = i + 1
    parts.append(text[start:])
    return [p.strip() for p in parts if p.strip()]


def block(text, at):
    """The text between the brace at or behind `at` and its partner."""
    start = text.index("{", at)
    depth = 0
    for i in range(start, len(text)):
        depth += text[i] == "{"
        depth -= text[i] == "}"
        if depth == 0:
            return text[start + 1:i], i
    raise ValueError("no end")


def functions(text):
    """Each function: its name, its parameters, its clauses, its body."""
    for m in re.finditer(r"(?m)^\s*(?:pub )?(?:extern \"C\" )?fn (\w+)", text):
        i = m.end()
        if text[i] == "<":
            depth = 0
            while True:
                depth += text[i] == "<"
                depth -= text[i] == ">" and text[i - 1] != "-"
                i += 1
                if depth == 0:
                    break
        depth, start = 0, i
        while True:
            depth += text[i] == "("
            depth -= text[i] == ")"
            i += 1
            if depth == 0:
                break
        params = split_top(text[start + 1:i - 1])
        rest = re.compile(r"\s*(?:->\s*[^{;]*?)?\s*(?=requires|ensures|\{|;)").match(text, i)
        at = rest.end() if rest else i
        clauses = []
        while (c := re.compile(r"\s*(requires|ensures)\s*(\w*)\s*(?=\{)").match(text, at)):
            inner, end = block(text, c.end())
            clauses.append((c.group(1), " ".join(inner.split())))
            at = end + 1
        if text[at:].lstrip().startswith(";"):
            continue
        body, _ = block(text, at)
        yield m.group(1), params, clauses, body, text.count("\n", 0, m.start(1)) + 1


def option_enums():
    for name, text, _ in sources():
        for m in re.finditer(r"(?m)^(?:pub )?enum (\w+)", text):
            variants = split_top(block(text, m.end())[0])
            names = [re.match(r"\w+", v).group() for v in variants]
            bare = [n for n, v in zip(names, variants) if n == v]
            two = len(variants) == 2 and (len(bare) == 1 or (not bare and any(FAILURES.search(v) for v in variants)))
            if two or set(bare) & (NONE_NAMES - {"Yes"}):
                yield f"{name}: enum {m.group(1)}"


def flags():
    for name, text, _ in sources():
        for m in re.finditer(r"(?m)^pub struct (\w+)[^{;]*\{", text):
            fields = split_top(block(text, m.start())[0])
            if any(re.search(r": bool$", f) for f in fields) and len(fields) > 1:
                yield f"{name}: struct {m.group(1)}"


def codes():
    for name, text, _ in sources():
        for f, params, clauses, body, line in functions(text):
            for p in params:
                if re.match(r"(kind|section|channel|clause|instrument|rule): (u8|u32|usize)$", p):
                    yield f"{name}:{line} {f}: {p}"


def sentinels():
    for name, _, text in sources():
        for i, line in enumerate(text.split("\n"), 1):
            if re.match(r"//.*(where (it has|there is) none|; (n|`to`) where|or the word's length)", line):
                yield f"{name}:{i} {line[3:]}"


def shape(params, body):
    seen = {}
    words = []
    for w in re.findall(r"\w+|\S", " , ".join(params) + " | " + body):
        if re.match(r"[0-9]", w):
            w = "N"
        elif re.match(r"\w", w) and w not in ("let", "mut", "if", "else", "match", "while", "for", "in", "return", "self", "loop"):
            w = seen.setdefault(w, f"v{len(seen)}")
        words.append(w)
    return " ".join(words)


def twins():
    groups = collections.defaultdict(list)
    for name, text, _ in sources():
        if name.startswith("sheet_loader_c/"):
            continue
        for f, params, clauses, body, line in functions(text):
            if len(body.split()) >= 6:
                groups[shape(params, body)].append(f"{name.split('/')[0]}::{f}")
    for group in groups.values():
        if len(group) > 1:
            yield " ~ ".join(group)


def index_loops():
    for name, text, _ in sources():
        for m in re.finditer(r"(?m)^\s*(while [^{]*|loop )\{", text):
            body, _ = block(text, m.end() - 1)
            if re.search(r"\b\w+ [+-]= 1;", body):
                yield f"{name}:{text.count(chr(10), 0, m.start()) + 2} {m.group(1).strip()}"


def by_hand():
    known = ("index wide short_of set_of both one_of instrument_of instrument_at at_most event_of number_in digit put_number put_text fewer whole_below "
             "same_owner of_method store first").split()
    for name, text, _ in sources():
        for f, params, clauses, body, line in functions(text):
            if f in known:
                yield f"{name}:{line} {f}"


def long_lists():
    for name, text, _ in sources():
        for f, params, clauses, body, line in functions(text):
            if len(params) >= 6:
                yield f"{name}:{line} {f}: {len(params)} parameters"


def repeated_facts():
    facts = collections.defaultdict(set)
    for name, text, _ in sources():
        for f, params, clauses, body, line in functions(text):
            for word, clause in clauses:
                if word == "requires":
                    for fact in re.split(r" × ", clause):
                        fact = re.sub(r"^\(S : Sheet\)$", "", fact.strip())
                        if fact:
                            facts[re.sub(r"\b[a-z]\w*\.(old|now)", r"_.\1", fact.strip("() "))].add(f"{name.split('/')[0]}::{f}")
    for fact, where in sorted(facts.items(), key=lambda x: -len(x[1])):
        if len(where) >= 3:
            yield f"{len(where)} functions: {fact}"


def arrays():
    for name, text, _ in sources():
        for f, params, clauses, body, line in functions(text):
            n = sum(bool(re.search(r": &(mut )?\[\w+; \w+\]$", p)) for p in params)
            if n > 1:
                yield f"{name}:{line} {f}: {n} arrays"


def switches():
    for name, text, _ in sources():
        for m in re.finditer(r"match (instrument|named|kind|k) \{", text):
            yield f"{name}:{text.count(chr(10), 0, m.start()) + 1} {m.group()[:-2]}"


def proof_lines():
    for crate in sorted((ROOT / "crates").iterdir()):
        if not any((crate / "src").glob("*.rt")) or sum(len(p.read_text().split("\n")) for p in (crate / "src").glob("*.rt")) < 5:
            continue
        lines = sum(p.read_text().count("\n") for p in (crate / "proofs").rglob("*.antt"))
        answers = len(list((crate / "proofs").rglob("Answers.antt"))) + len(list((crate / "proofs").rglob("Invariants.antt")))
        yield f"{crate.name}: {lines} lines, {answers} files of functions"


POINTS = [
    ("1 own enums of the shape of Option or Result", option_enums),
    ("1 flags with a value beside them", flags),
    ("1 numbers for kinds, sections, channels, rules, instruments", codes),
    ("1 numbers that stand for none", sentinels),
    ("2 functions of the same shape", twins),
    ("3 loops that count an index", index_loops),
    ("4 conversion, comparison and printing by hand", by_hand),
    ("5 functions of six parameters and more", long_lists),
    ("5 facts that three and more functions require", repeated_facts),
    ("6 functions of two arrays and more", arrays),
    ("7 switches", switches),
    ("8 proofs of crates with code", proof_lines),
]

if __name__ == "__main__":
    for title, places in POINTS:
        found = list(places())
        print(f"{title}: {len(found)}")
        if "--short" not in sys.argv:
            for place in found:
                print(f"    {place}")
