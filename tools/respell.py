#!/usr/bin/env python3
"""Brings the names of this repository's own definitions and lemmas to the spelling of today's Rattle: words in snake
case (`gridOf` is `grid_of`, `least-start` is `least_start`), types and facts in camel case as they were.

usage: tools/respell.py [--list]     at the top of the repository, once, on what the kit's port.py left

A name is turned in each file that declares it or imports it from a module of the repository: in specs/, where what is
bound in a term goes with it, in proofs/, in the clauses of src/ and, in backquotes, in the pages of README and docs/. Names that the kit makes or the library has,
functions of src/, strings, inputs and outputs stay. The script stops, and writes nothing, where two names would fall
together that were two before; TURNED below says what such a name is called instead. --list prints each old name with
its new one.
"""
import glob
import re
import sys

# Names that would fall together with another: a lemma that would have its definition's name ends in `_lem`.
LEMMAS = """after-trade by-found by-verdict at-price opened-at lane-told none-valid one-or-two new-order worked-output can-end
    window-long as-judged fill-in added-from stored-at number-at row-trades by_way two_digits""".split()
TURNED = {n: n.replace("-", "_") + "_lem" for n in LEMMAS} | {
    "on-grid": "is_on_grid", "in-range": "is_in_range", "turn-cases": "TurnCases", "open-cases": "OpenCases"}

TOKEN = re.compile(r"[^\s(){}\[\];,.@`\"|«»]+")
OWN = re.compile(r"^Rattle\.(?!std\b)")
USE = re.compile(r"^( *(?:ghost |pub )*use )(\S+?)(\.\{([^}]*)\})?( as \S+?)?(;?)$", re.M)
DECLARED = re.compile(r"^\s*(?:(?:abbrev|unfoldable|pub|data|record|ruleset)\s+)*((?:[^\s:(){};,.=]+\s+)*?[^\s:(){};,.=]+)(?: *[({][^=]*?[)}])* :(?!=)")


def words(text):
    """The text with comments and strings blanked."""
    return re.sub(r"--[^\n]*", lambda m: " " * len(m.group(0)), text)


def shape(name):
    """Whether a name is to be turned: a word with an inner capital or a dash, and no type."""
    parts = name.strip("'′₀₁₂").split("-")
    if not all(re.fullmatch(r"[A-Za-z0-9_'≢]+", p) for p in parts):
        return False
    if not re.match(r"[a-z]", name):
        return False
    return len(parts) > 1 or bool(re.search(r"[A-Z]", name))


def snake(name):
    name = name.replace("getD", "get_or").replace("-", "_")
    return re.sub(r"(?<=[A-Za-z0-9])([A-Z])", lambda m: "_" + m.group(1).lower(), name)


def imports(text):
    """(the names imported from the repository's own modules, those imported from elsewhere)."""
    own, other = set(), set()
    for m in USE.finditer(text):
        if m.group(4) is None:
            continue
        for item in m.group(4).split(","):
            item = item.strip()
            if not item:
                continue
            pair = item.split(" as ")
            (own if OWN.match(m.group(2)) else other).add(pair[0].strip())
            if len(pair) == 2:
                (own if OWN.match(m.group(2)) else other).add(pair[1].strip())
    return own, other


def declared(text):
    """The names that a file of specs/ or proofs/ declares, those of its where clauses, fields and constructors too."""
    found = set()
    for line in words(text).split("\n"):
        m = DECLARED.match(line)
        if m and not line.lstrip().startswith(("use ", "ghost ", "let ", "→")):
            found.update(m.group(1).split())
    return found


def walked(text):
    """The names of a proof file that are the kit's: those of goals, invariants and measures."""
    return set(re.findall(r"^(?:abbrev |pub )*(\S+) : tie\.", text, re.M)) | set(re.findall(r"^pub (\S+-spec) : ", text, re.M))


def main():
    specs = sorted(glob.glob("crates/*/specs/**/*.antt", recursive=True))
    proofs = sorted(glob.glob("crates/*/proofs/**/*.antt", recursive=True))
    code = sorted(glob.glob("crates/*/src/**/*.rt", recursive=True))
    pages = sorted(glob.glob("*.md") + glob.glob("docs/**/*.md", recursive=True))
    texts = {f: open(f, encoding="utf8").read() for f in specs + proofs + code + pages}
    made = {}
    for f in specs + proofs:
        kept = walked(texts[f]) if f in proofs else set()
        for name in declared(texts[f]) - kept:
            made.setdefault(name, set()).add(f)
    turned = {n: TURNED.get(n, snake(n)) for n in made if shape(n) or n in TURNED}
    # what a file says and may turn
    trouble, new = [], {}
    fields = {n for n in turned}
    for f in specs + proofs + code:
        text = texts[f]
        own, other = imports(text)
        here = declared(text) - walked(text) if f not in code else set()
        visible = {n for n in turned if n in own or n in here}
        plain = words(text) if f not in code else re.sub(r"//[^\n]*", "", text)
        present = set(TOKEN.findall(plain))
        # what stands bare: not a part of a module's path, and no field
        bare = set(TOKEN.findall(re.sub(r"\.[^\s(){}\[\];,.]+", " ", USE.sub(lambda m: m.group(4) or "", plain))))
        # in specs/ all that the library does not give: what terms bind, fields, names of imports
        if f in specs:
            for n in present - other - visible:
                if shape(n):
                    turned.setdefault(n, TURNED.get(n, snake(n)))
                    visible.add(n)
        if f in code:
            for n in own:
                if shape(n):
                    turned.setdefault(n, TURNED.get(n, snake(n)))
                    visible.add(n)
        for n in list(turned):
            if n in present and n not in other and n not in visible and shape(n):
                made_here = f in specs or re.search(r"\." + re.escape(n) + r"(?![^\s(){}\[\];,.])", plain) or re.search(r"[{;]\s*" + re.escape(n) + r"\s*=", plain)
                if made_here:
                    visible.add(n)
        targets = {}
        for n in sorted(visible):
            t = turned[n]
            targets.setdefault(t, []).append(n)
            # in src/ a function may have the name of what it computes, but no parameter, field or local
            if f in code:
                stands = re.search(r"(?:\b" + re.escape(t) + r"\s*:(?!:)|let (?:mut )?" + re.escape(t) + r"\b)", plain)
            else:
                stands = t in bare and t not in visible
            if stands and t != n:
                trouble.append(f"{f}: {n} would be {t}, which stands there")
        for t, ns in targets.items():
            if len(ns) > 1:
                trouble.append(f"{f}: {' and '.join(ns)} would both be {t}")
        mapping = {n: turned[n] for n in visible}

        def turn(m):
            return mapping.get(m.group(0), m.group(0))

        def line_of(line):
            mark = "//" if f in code else "--"
            at = line.find(mark)
            if f in code and at > 0 and line[:at].count('"') % 2:
                at = -1
            front, back = (line, "") if at < 0 else (line[:at], line[at:])
            back = re.sub(r"`([^`]+)`", lambda m: "`" + TOKEN.sub(turn, m.group(1)) + "`", back)
            return TOKEN.sub(turn, front) + back

        new[f] = "\n".join(line_of(x) for x in text.split("\n"))
    final = {n for f in specs for n in declared(new[f])}

    def told(m):
        name = m.group(0)
        return turned[name] if name in turned else snake(name) if shape(name) and snake(name) in final else name

    for f in pages:
        new[f] = re.sub(r"`([^`\n]+)`", lambda m: "`" + TOKEN.sub(told, m.group(1)) + "`", texts[f])
    if "--list" in sys.argv:
        for n, t in sorted(turned.items()):
            print(n, t)
    for line in trouble:
        print("falls together:", line, file=sys.stderr)
    if trouble:
        print(f"{len(trouble)} names fall together: nothing written", file=sys.stderr)
        return 1
    if "--list" in sys.argv:
        return 0
    count = 0
    for f, text in new.items():
        if text != texts[f]:
            open(f, "w", encoding="utf8").write(text)
            count += 1
    print(f"{len(turned)} names, {count} files")
    return 0


sys.exit(main())
