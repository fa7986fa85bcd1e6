#!/usr/bin/env python3
"""Brings the repository's own names in specs/, proofs/ and clauses to snake case, once, after the kit's port.py.

usage: python3 tools/respell.py [--dry]     at the top of the repository

A name that specs/ or proofs/ declares and that has a dash or a lower camel hump is respelled wherever it stands as a whole word outside
comments and strings. The names of goals, which the checker makes, stay; so do names that a library has too (they are listed).
OTHERWISE has the names that would fall together with another one.
"""
import collections
import os
import re
import sys

# names that do not become their plain snake case, since another name has it
OTHERWISE = {
    "all-of": "all_of_lem",
    "all-rows": "all_rows_lem",
    "is-named": "is_named_lem",
    "line-of": "line_of_lem",
    "with-entry": "with_entry_lem",
    "with-role": "with_role_lem",
}

# lemmas that port.py gave the name that the word they are about is to have
APART = [
    ("crates/cases/proofs/", "all_in", "all_in_lem"),
    ("crates/terms/proofs/Stated.antt", "with_entries", "with_entries_lem"),
]

WORD = r"[^\s(){}.,;:=⌜⌝\[\]|&\"`@]+"
DECLARED = re.compile(r"^\s*(?:(?:pub|abbrev|unfoldable|data|record|module)\s+)*(" + WORD + r")((?:\s+" + WORD + r")*)\s+(?:\(.*\)\s*|\{.*\}\s*)*:\s")
TOKEN = re.compile(r"(?<![\w'′≢≡-])[A-Za-z0-9](?:[\w'′≢]|-(?=[\w]))*")


def files():
    for folder, dirs, names in os.walk("crates"):
        dirs[:] = sorted(d for d in dirs if d != "out")
        for n in sorted(names):
            if n.endswith((".antt", ".rt")):
                yield os.path.join(folder, n)


def code_of(line, mark):
    """The line before its comment, and the comment."""
    in_string = False
    for i, c in enumerate(line):
        if c == '"' and (i == 0 or line[i - 1] != "\\"):
            in_string = not in_string
        if not in_string and line.startswith(mark, i) and (mark == "//" or i == 0 or line[i - 1] in " \t"):
            return line[:i], line[i:]
    return line, ""


def snake(name):
    if name in OTHERWISE:
        return OTHERWISE[name]
    spread = re.sub(r"(?<=[a-z0-9])(?=[A-Z])", "_", name) if name[0].islower() else name
    return (spread.lower() if name[0].islower() and not re.search(r"[^\x00-\x7f]", name) else spread).replace("-", "_")


def needs(name):
    return "-" in name or (name[0].islower() and re.search(r"[a-z0-9][A-Z]", name))


def main():
    declared, goals = collections.defaultdict(set), set()
    for p in files():
        with open(p, encoding="utf-8") as f:
            text = f.read()
        goals |= set(re.findall(r"\b(?:goal|need|rule|given)\.([^\s(){},;]+)", text))
        goals |= {g.strip() for m in re.findall(r"Goals\.\{([^}]*)\}", text) for g in m.split(",")}
        if not p.endswith(".antt"):
            continue
        for line in text.splitlines():
            line = code_of(line, "--")[0]
            m = DECLARED.match(line)
            if m:
                for n in [m.group(1)] + m.group(2).split():
                    declared[n].add(p)
    mine = {n for n in declared if needs(n) and n not in goals and TOKEN.fullmatch(n)}
    library = set()
    for p in files():
        with open(p, encoding="utf-8") as f:
            for line in f:
                m = re.match(r"^\s*(?:ghost )?use ([\w.'+-]+)\.\{(.*)\}", line)
                if m and not re.match(r"Rattle\.(?:" + "|".join(sorted(os.listdir("crates"))) + r")\.", m.group(1) + "."):
                    library |= {x.split(" as ")[0].strip() for x in m.group(2).split(",")}
    clash = mine & library
    if clash:
        print("a library has these names too; left as they are:", ", ".join(sorted(clash)))
    mine -= clash
    turn = {n: snake(n) for n in mine}
    together = collections.defaultdict(set)
    for n, s in turn.items():
        together[s].add(n)
    for s, ns in sorted(together.items()):
        if len(ns) > 1:
            print("fall together:", s, "<-", ", ".join(f"{n} ({', '.join(sorted(declared[n]))})" for n in sorted(ns)))
    for p in files():
        with open(p, encoding="utf-8") as f:
            text = before_all = f.read()
        mark = "//" if p.endswith(".rt") else "--"
        for place, before, after in APART:
            if p.startswith(place):
                text = re.sub(r"(?<![\w'-])" + before + r"(?![\w'-])", after, text)
        out, old, new = [], set(), {}
        for line in text.splitlines(keepends=True):
            code, comment = code_of(line, mark)

            def one(m):
                t = m.group(0)
                old.add(t)
                if t in turn:
                    new[t] = turn[t]
                    return turn[t]
                return t

            parts = re.split(r'("(?:[^"\\]|\\.)*")', code)
            out.append("".join(x if i % 2 else TOKEN.sub(one, x) for i, x in enumerate(parts)) + comment)
        seen = collections.Counter(new.values())
        for s, k in seen.items():
            if k > 1 or s in old:
                print("in one file:", p, s, "<-", [n for n in new if new[n] == s], "(stands there already)" if s in old else "")
        result = "".join(out)
        if result != before_all and "--dry" not in sys.argv:
            with open(p, "w", encoding="utf-8") as f:
                f.write(result)
    print(len(turn), "names")


if __name__ == "__main__":
    main()
