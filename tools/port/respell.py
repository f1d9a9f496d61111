#!/usr/bin/env python3
"""Spells this repository's own definitions and lemmas in snake case, after port.py has turned the rest.

usage: tools/port/respell.py [--check]      at the top of the repository

A name that a file of specs/ or a lemma file of proofs/ declares turns wherever it stands as a whole word: 'daysOf' to 'days_of', 'day-true' to
'day_true', 'assignPaid-noEnd' to 'assign_paid_no_end'. A name that begins with a capital stays, and so does, in a file that imports it, a name of
the library. In a proof of a function the names that Rattle makes stay: there only what the file imports from this repository, what it declares
beside its goals, and fields of this repository's records turn. It says which names fall together in a file, and which would be hidden by a
parameter of the function whose clause cites them. --check writes nothing.
"""

import importlib.util
import os
import re
import subprocess
import sys

LEMMAS = """amend-lent block_refused double-by ends-at ends_by good-name held-size in-edition is-edition kind-of last-end last-of over-rows
pay-turn put-all read-script reading-in sum-tokens""".split()
OTHERS = "columnAt fittingRooms heldSize kindBy maxEntries maxNodes noneAt overRooms textEnd".split()
# a lemma's name that port.py left in the spelling that a definition now has, and where it stands
SPELLED = {"block_refused": "BodyLaws", "ends_by": "EndsBy", "in_order": "Certain"}
SNAKE = "port/notes/2026-11-18-names-are-in-snake-case/snake.py"  # in the toolchain's folder
WORD = re.compile(r"[^\s(){}.;,@\"«»]+")
QUIET = re.compile(r'"(?:[^"\\\n]|\\.)*"|(?<![^\s(){}.;,@"«»])--[^\n]*', re.S)
NAMES = r"[^\s(){}.;,@\"«»:=]+(?:[ \t]+[^\s(){}.;,@\"«»:=]+)*"
DECLARED = re.compile(
    r"^[ \t]*(?:(?:pub|abbrev|unfoldable|data|record|let|where)[ \t]+)*(" + NAMES + r")[ \t]*(?:\([^()\n]*(?:\([^()\n]*\)[^()\n]*)*\)[ \t]*|\{[^}\n]*\}[ \t]*)*:\s",
    re.M,
)
USE = re.compile(r"^\s*(?:ghost )?use ([^\s{;]+?)\.\{([^}]*)\}", re.M)
GOAL = re.compile(r"^(?:abbrev )?(?:pub )?(" + NAMES + r") : (?:tie|goal)\.", re.M)


def spelled(name):
    """The name in snake case; one that begins with a capital, an operator and a name of one sign stay."""
    if not re.match(r"[a-z⊎μ]", name) or "◌" in name or not re.search(r"[a-zA-Z]", name):
        return name
    name = re.sub(r"(?<=[a-z0-9])([A-Z])(?=[a-z])", lambda m: "_" + m[1].lower(), name)
    return re.sub(r"(?<=[\w'₀-₉])-(?=[\w₀-₉])", "_", name)


def files():
    for folder, folders, names in os.walk("crates"):
        folders[:] = sorted(f for f in folders if f != "out")
        for n in sorted(names):
            yield os.path.join(folder, n)


def of_function(path):
    """Whether a file of proofs/ stands in a folder of its own, for a function."""
    return path.endswith(".antt") and path.split("/")[2] == "proofs" and path.count("/") > 3


def declared(text):
    code = QUIET.sub(" ", text)
    return {n for m in DECLARED.finditer(code) for n in m[1].split()}


def fields(text):
    code, out, at = QUIET.sub(" ", text), set(), None
    for line in code.split("\n"):
        depth = len(line) - len(line.lstrip())
        if re.match(r"\s*(?:(?:pub|abbrev)\s+)*record\s", line):
            at = depth
        elif at is not None and line.strip():
            m = re.match(r"\s*(?:pub )?(" + NAMES + r") :", line)
            if depth <= at:
                at = None
            elif m:
                out |= set(m[1].split())
    return out


def imported(text, own):
    """The names that a file imports from this repository, or from the library."""
    out = set()
    for m in USE.finditer(text):
        made = re.search(r"\.(?:contracts|declared)\b|\.(?:Statement|Tie|Given|Goals|Lts|Reads)$|\.proofs\..*\.Kinds$", m[1])
        if (m[1].split(".")[:2] in OWN and not made) == own:
            out |= {n.split(" as ")[-1].strip() for n in m[2].split(",") if n.strip()}
            if own:
                out |= {n.split(" as ")[0].strip() for n in m[2].split(",") if n.strip()}
    return out


OWN = [["Rattle", c] for c in sorted(os.listdir("crates"))]


def main(check):
    guide = subprocess.run(["rt", "doc"], capture_output=True, text=True, check=True).stdout.strip()
    spec = importlib.util.spec_from_file_location("snake", os.path.join(os.path.dirname(guide), SNAKE))
    snake = importlib.util.module_from_spec(spec)
    spec.loader.exec_module(snake)
    texts = {}
    for p in files():
        if p.endswith((".antt", ".rt", ".edit")):
            with open(p, encoding="utf-8") as f:
                texts[p] = f.read()
    table, own_fields = {}, set()
    for p, t in texts.items():
        if p.endswith(".antt") and not of_function(p):
            table |= {n: spelled(n) for n in declared(t) if spelled(n) != n}
            own_fields |= fields(t)
    table |= {n: spelled(n) + "_lem" for n in LEMMAS if n not in SPELLED}
    table |= {n: spelled(n) for n in OTHERS}
    said = []
    turned = {}
    for p, t in texts.items():
        rows = dict(table)
        for n, home in SPELLED.items():
            if p.endswith("/" + home + ".antt") or re.search(r"\." + home + r"\.\{[^}]*(?<![\w-])" + n + r"(?![\w-])", t):
                rows[n] = n + "_lem"
        if of_function(p):
            goals = {n for m in GOAL.finditer(t) for n in m[1].split()}
            local = {n: spelled(n) for n in declared(t) - goals if spelled(n) != n}
            mine = (imported(t, True) | set(local)) - goals
            rows = {n: s for n, s in (rows | local).items() if n in mine}
            new = turn_function(t, rows, {n: table[n] for n in own_fields if n in table and n not in goals})
        else:
            for n in imported(t, False):
                if n in rows and p.endswith(".antt") and n not in declared(t):
                    del rows[n]
            turner = snake.Turner(rows, "file", set(), [])
            if p.endswith(".edit"):
                new = turner.turn(t)
            else:
                new = turner.rt(t, p) if p.endswith(".rt") else turner.antt(t, p)
                new = snake.realigned(t, new)[0]
            said += turner.said
        turned[p] = new
        said += together(p, t, new)
        if p.endswith(".rt"):
            said += hidden(p, t, new)
    docs = snake.Turner(table, "none", set(), [])
    pages = ["README.md"] + [os.path.join(d, f) for d, _, fs in os.walk("docs") for f in fs if f.endswith(".md")]
    for p in pages + [os.path.join(d, "README.md") for d in ("compare", "bench", "bindings", "tools/proof") if os.path.exists(d + "/README.md")]:
        with open(p, encoding="utf-8") as f:
            texts[p] = f.read()
        turned[p] = docs.md(texts[p], p)
    print("\n".join(said))
    print(f"respell: {len(table)} names; {sum(texts[p] != turned[p] for p in texts)} files")
    if not check:
        for p in texts:
            if texts[p] != turned[p]:
                with open(p, "w", encoding="utf-8") as f:
                    f.write(turned[p])


def turn_function(text, rows, own_fields):
    """A proof of a function: imported names and own fields turn; a name behind a dot turns only as a field or a qualified name."""

    def code(t):
        def one(m):
            dotted = m.start() and t[m.start() - 1] == "."
            if dotted:
                head = re.search(r"[^\s(){};,@\"«»]+\.$", t[: m.start()])
                if head and head[0][0].isupper():
                    return spelled(m[0]) if m[0] in ALL else m[0]
                return own_fields.get(m[0], m[0])
            return rows.get(m[0]) or (own_fields.get(m[0], m[0]) if re.match(r"\s+=\s", t[m.end() :]) else m[0])

        return WORD.sub(one, t)

    out, at = [], 0
    for m in QUIET.finditer(text):
        out += [code(text[at : m.start()]), m[0]]
        at = m.end()
    return "".join(out + [code(text[at:])])


ALL = set()


def words(text):
    return set(WORD.findall(QUIET.sub(" ", text)))


def together(path, old, new):
    a, b = QUIET.sub(" ", old), QUIET.sub(" ", new)
    pairs = {}
    for x, y in zip(WORD.findall(a), WORD.findall(b)):
        pairs.setdefault(y, set()).add(x)
    return [f"together: {path}: {y} was {sorted(xs)}" for y, xs in sorted(pairs.items()) if len(xs) > 1]


def hidden(path, old, new):
    out = []
    a, b = re.split(r"(?m)^\s*(?=(?:pub )?(?:const )?fn )", old)[1:], re.split(r"(?m)^\s*(?=(?:pub )?(?:const )?fn )", new)[1:]
    for x, y in zip(a, b):
        turned = words(y) - words(x)
        params = set(re.findall(r"(\w+):", y.split("{")[0].split(")")[0]))
        out += [f"hidden: {path}: {y.split('(')[0]}: {n}" for n in sorted(turned & params)]
    return out


if __name__ == "__main__":
    for p in files():
        if p.endswith(".antt") and not of_function(p):
            with open(p, encoding="utf-8") as f:
                ALL |= declared(f.read())
    main("--check" in sys.argv[1:])
