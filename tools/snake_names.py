#!/usr/bin/env python3
"""Spells this repository's own definitions, lemmas, fields and variables in snake case, in crates/.

usage: python3 tools/snake_names.py [--dry]     at the top, once, right after port.py

`twoBytes` and `in-turn-one` become `two_bytes` and `in_turn_one`; a lemma that would get its function's name gets `_lem` behind it. What a
file imports from the library, what Rattle makes of the source, functions of src/, strings and comments keep their names. Names that fall
together in a file are listed, and nothing is written while there are any.
"""

import glob
import os
import re
import sys

W = r"[^\s(){}.;,@\"«»\[\]\\]+"
TOKEN = re.compile(r"(--[^\n]*)|(\"(?:[^\"\\]|\\.)*\")|(«[^»]*»)|(" + W + r")|(\.)|(.)", re.S)
CRATES = {os.path.basename(p) for p in glob.glob("crates/*")}
OWN = re.compile(r"Rattle\.(" + "|".join(sorted(CRATES, key=len, reverse=True)) + r")\.(specs|proofs)\.")
MADE = re.compile(r"\.(declared|contracts)\.|\.(Goals|Given|Invariants|Answers|Tie|Lts[^\s.]*|Code|Met|Reads|Statement|Kinds|Proof)$")
# Lemmas that would get their function's name.
LEMMAS = """
every-below same-sort is-label label-field has-sort operand-field is-entry above-last is-annotated same-numbers is-listed query-of is-in
bitmap-of same-list same-node is-fault on-result is-roll label-shown held-as shown-as in-range reason-of is-above has-parent path-held
filter-held entry-bytes parent-at some-rule prelude-size axis-rows path-in filter-in
""".split()
APART = {it: it.replace("-", "_") + "_lem" for it in LEMMAS}
# The same in one file, where port.py spelled the lemma already.
APART_IN = {
    "cases/proofs/Accepted.antt": {"on_row": "on_row_lem"},
    "cases/proofs/Listing.antt": {"same_bytes": "same_bytes_lem"},
    "theorem/proofs/VisibleFilter.antt": {"some_of": "some_of_lem"},
    "Proof/Of_two.antt": {"entry_at": "entry_at_fn"},
    "Proof/Show.antt": {"entry_at": "entry_at_fn"},
}


def snake(name):
    """The name in snake case, or itself where it is one already, an operator or a type."""
    if name.startswith("-") or name.endswith("-") or "+" in name.replace("+", "", 0) and name.startswith("+"):
        return name
    if not re.match(r"^[a-zα-ωμ]", name):
        return name
    out = re.sub(r"(?<=[\w'₀-₉])-(?=[\w])", "_", name)
    if re.match(r"^[a-z][\w']*$", out):
        out = re.sub(r"(?<=[a-z0-9])([A-Z])", lambda m: "_" + m.group(1).lower(), out)
    return out


def split_uses(text):
    """Spans of `use` lines: (start, end, module, [(name, alias)])."""
    for m in re.finditer(r"(?m)^[ \t]*(?:pub )?use ([^\s{};]+?)(?:\.\{([^}]*)\}| as (\S+))?[ \t]*$", text):
        yield m


def files():
    return sorted(glob.glob("crates/*/specs/**/*.antt", recursive=True) + glob.glob("crates/*/proofs/**/*.antt", recursive=True))


def library(text):
    """What a file imports from outside the repository, and what Rattle makes: these names stay."""
    stay = set()
    for m in split_uses(text):
        if OWN.match(m.group(1) + ".") and not MADE.search(m.group(1)):
            continue
        for part in (m.group(2) or "").split(","):
            stay.add(part.strip().split(" as ")[0].strip())
    return stay


DECL = re.compile(r"(?m)^(\s*)((?:abbrev |unfoldable )?(?:pub )?(?:abbrev |unfoldable )?)(record |data )?(" + W + r")(?= *[:({]| where)")


def answers(text):
    """Names that Rattle asks for."""
    return set(re.findall(r"(?m)^\s*(?:abbrev )?(?:pub )?(" + W + r") : (?:\{[^}]*\} → )?(?:tie|lts|goal|statement|Closed)\b", text)) | set(re.findall(r"(?m)^\s*pub (\+?" + W + r"-spec) :", text))


def fields():
    """Fields of the repository's own records."""
    found = set()
    for f in files():
        inside = False
        for line in open(f, encoding="utf-8"):
            if re.match(r"\s*(pub )?(abbrev )?(pub )?record ", line):
                inside = True
            elif inside and re.match(r"  +(pub )?" + W + r" :", line):
                found.add(re.match(r" +(?:pub )?(" + W + ")", line).group(1))
            elif not line.strip().startswith("--"):
                inside = False
    return found


def turn(text, stay, field, clash, where):
    new, seen = [], {}
    asked = answers(text)
    here = next((v for k, v in APART_IN.items() if where.endswith(k)), {})
    last, before = "", ""
    keep_use = []
    for m in split_uses(text):
        if not (OWN.match(m.group(1) + ".") and not MADE.search(m.group(1))) and m.group(2):
            keep_use.append(m.span(2))
        keep_use.append(m.span(1))
    for m in TOKEN.finditer(text):
        comment, string, quoted, word, dot, other = m.groups()
        if word is None:
            new.append(m.group(0))
            before, last = last, m.group(0)
            continue
        kept = any(a <= m.start() < b for a, b in keep_use)
        if kept:
            back = text[max(0, m.start() - 4) : m.start()]
            if back.endswith(" as "):
                kept = False
        behind_dot = last == "."
        if behind_dot and m.start() >= 2 and text[m.start() - 2] in " \n":
            behind_dot = False
        out = word
        if not kept and word not in asked and word not in stay and (not behind_dot or word in field):
            out = here.get(word) or APART.get(word) or snake(word)
        if not behind_dot:
            seen.setdefault(out, set()).add(word)
        new.append(out)
        before, last = last, m.group(0)
    for out, words in seen.items():
        if len(words) > 1:
            clash.append((where, out, sorted(words)))
    return "".join(new)


def names():
    """Every name that is declared in the repository, by its new spelling."""
    out = {}
    for f in files():
        text = open(f, encoding="utf-8").read()
        asked = answers(text)
        for m in DECL.finditer(text):
            n = m.group(4)
            if n not in asked and (APART.get(n) or snake(n)) != n:
                out[n] = APART.get(n) or snake(n)
    return out


def main(argv):
    field, clash, wrote = fields(), [], {}
    for f in files():
        text = open(f, encoding="utf-8").read()
        wrote[f] = turn(text, library(text), field, clash, f)
    declared = names()
    # src: what `ghost use` brings in, in these lines and in clauses
    for f in sorted(glob.glob("crates/*/src/**/*.rt", recursive=True)):
        text = open(f, encoding="utf-8").read()
        mine = set()
        for m in re.finditer(r"ghost use ([^\s{};]+)\.\{([^}]*)\}", text):
            if OWN.match(m.group(1) + ".") and not MADE.search(m.group(1)):
                mine |= {p.strip().split(" as ")[0].strip() for p in m.group(2).split(",")}
        for n in sorted(mine, key=len, reverse=True):
            to = APART.get(n) or snake(n)
            if to != n:
                text = re.sub(r"(?<![\w'·-])" + re.escape(n) + r"(?![\w'·-])", to, text)
        wrote[f] = text
    # must-fail edits: the lines that they take and give
    for f in sorted(glob.glob("crates/*/must-fail/*.edit")):
        lines = []
        for line in open(f, encoding="utf-8"):
            if re.match(r"(old|new): ", line):
                line = re.sub(r"(?<![\w'·.-])(" + W + r")(?![\w'·-])", lambda m: declared.get(m.group(1), m.group(1)), line)
            lines.append(line)
        wrote[f] = "".join(lines)
    for where, out, words in clash:
        print(f"{where}: {', '.join(words)} -> {out}")
    if clash and "--dry" not in argv:
        print(f"{len(clash)} names fall together; nothing is written")
        return 1
    if "--dry" in argv:
        return 0
    changed = 0
    for f, text in wrote.items():
        if open(f, encoding="utf-8").read() != text:
            open(f, "w", encoding="utf-8").write(text)
            changed += 1
    print(f"{len(declared)} names, {changed} files")
    return 0


if __name__ == "__main__":
    raise SystemExit(main(sys.argv[1:]))
