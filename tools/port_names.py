#!/usr/bin/env python3
"""Brought our own definitions and lemmas to snake case, once, when the repository came to today's Rattle.

usage: python3 tools/port_names.py        at the top, right after /opt/rattle/port/port.py

Terms, laws, fields and local names in camel case or with hyphens get underscores; types, modules, what a file
imports from the library, and functions of src/ keep their names. Where a law would fall together with a definition
or a function, the law takes `_law` behind its name.
"""

import collections
import glob
import os
import re

NAME = r"[A-Za-z_◌#][A-Za-z0-9_'₀-₉◌?≢]*(?:-[A-Za-z0-9_'₀-₉◌?≢]+)*"
CHOSEN = {
    "rowAt": "row_at_index",
    "Unit-is": "unit_type_is",
    "Entry-is": "entry_type_is",
    "Num-is": "num_type_is",
    "Loaded-is": "loaded_type_is",
    "Drained-to": "drained_type_to",
    "run-end-opening": "end_opening_law",
}
# laws that stood in snake case already, beside a definition that comes to the same name
LAWS = ["with_part", "owner_at", "too_wide", "none_in", "is_free", "in_tables", "run_end"]
# words of the listing, which documents and comments write as they are
LISTED = LAWS + ["aux-out", "aux-owner"]


def snake(name):
    name = name.replace("-", "_")
    return re.sub(r"(?<=[a-z0-9])([A-Z])", lambda m: "_" + m.group(1).lower(), name)


def is_old(name):
    return "-" in name or (name[0].islower() and re.search(r"[a-z0-9][A-Z]", name))


def of_function(path):
    """Is it a function's own proof, whose names come from the toolchain for the most part?"""
    return re.search(r"/proofs/(?:[^/]*/)+Proof\.antt$", path) is not None


def without_comments(text):
    return "\n".join(re.sub(r"--.*", "", line) for line in text.split("\n"))


def imported(text, ours):
    """The names that a file takes from the library."""
    found = set()
    for m in re.finditer(r"^\s*(?:pub )?(?:ghost )?use ([^\s{]+?)\.\{([^}]*)\}", text, re.M):
        path = m.group(1).split(".")
        if not (path[0] == "Rattle" and len(path) > 1 and path[1] in ours):
            found |= {n.strip().split(" as ")[0].strip() for n in m.group(2).split(",")}
    return found


def library_modules(text, ours):
    """The names by which a file calls modules of the library."""
    found = set()
    for m in re.finditer(r"^\s*(?:pub )?(?:ghost )?use ([^\s{]+)(?: as (\S+?))?;?\s*$", text, re.M):
        path = m.group(1).split(".")
        if not (path[0] == "Rattle" and len(path) > 1 and path[1] in ours):
            found.add(m.group(2) or path[-1])
    return found


def main():
    ours = set(os.listdir("crates"))
    antt = sorted(glob.glob("crates/*/specs/**/*.antt", recursive=True) + glob.glob("crates/*/proofs/**/*.antt", recursive=True))
    texts = {p: open(p, encoding="utf-8").read() for p in antt}
    seen = collections.defaultdict(set)
    for p, text in texts.items():
        bare = without_comments(text)
        lib = imported(bare, ours)
        for n in re.findall(NAME, re.sub(r"^\s*(?:pub )?use .*$", "", bare, flags=re.M)):
            if n not in lib:
                seen[n].add(p)
    old = [n for n in seen if is_old(n) and not all(of_function(p) for p in seen[n])]
    groups = collections.defaultdict(list)
    for n in old:
        groups[snake(n)].append(n)
    new = {n: n + "_law" for n in LAWS}
    for to, names in groups.items():
        beside = to not in LAWS and to in seen and any(seen[to] & seen[n] for n in names)
        for n in names:
            clash = beside or (len(names) > 1 and "-" in n)
            new[n] = CHOSEN.get(n) or to + ("_law" if clash else "")
    taken = collections.Counter(new.values())
    for n, to in sorted(new.items()):
        if taken[to] > 1:
            print("falls together:", n, to)

    def turn(text, lib, modules=()):
        def one(m):
            n = m.group(0)
            if n in lib or n not in new:
                return n
            before = re.search(r"([^\s({\[,;←.]+)\.$", text[: m.start()])
            if before and (n in LAWS or before.group(1) in modules):
                return n
            return new[n]
        return re.sub(NAME, one, text)

    def in_comment(text):
        return re.sub(r"`[^`]*`", lambda m: turn(m.group(0), LISTED), text)

    for p, text in texts.items():
        lib = imported(without_comments(text), ours)
        modules = library_modules(without_comments(text), ours)
        lines = []
        for line in text.split("\n"):
            code, dash, note = line.partition("--")
            if re.match(r"\s*(?:pub )?use ", code):
                m = re.match(r"(\s*(?:pub )?use )([^\s{]+?)(\.\{.*|\s.*|)$", code)
                path = m.group(2).split(".")
                if path[0] == "Rattle" and len(path) > 1 and path[1] in ours:
                    code = m.group(1) + m.group(2) + turn(m.group(3), set())
                else:
                    code = m.group(1) + m.group(2) + re.sub(r"( as )(" + NAME + ")", lambda a: a.group(1) + new.get(a.group(2), a.group(2)), m.group(3))
            else:
                # what stands in quotation marks is text
                code = "".join(it if it.startswith('"') else turn(it, lib, modules) for it in re.split(r'("(?:[^"\\]|\\.)*")', code))
            lines.append(code + (dash + in_comment(note) if dash else ""))
        open(p, "w", encoding="utf-8").write("\n".join(lines))

    functions = set()
    sources = sorted(glob.glob("crates/*/src/*.rt"))
    for p in sources:
        functions |= set(re.findall(r"\bfn (\w+)", open(p, encoding="utf-8").read()))
    for p in sources:
        text = open(p, encoding="utf-8").read()
        lib = imported(text, ours) | set(LAWS)
        modules = library_modules(text, ours)
        parts = re.split(r'("(?:[^"\\\n]|\\.)*"|//[^\n]*)', text)
        for i, part in enumerate(parts):
            if part.startswith("//"):
                parts[i] = in_comment(part)
            elif not part.startswith('"'):
                parts[i] = turn(part, lib, modules)
        open(p, "w", encoding="utf-8").write("".join(parts))
    for p in sorted(glob.glob("crates/*/must-fail/*.edit")):
        text = open(p, encoding="utf-8").read()
        lines = []
        for line in text.split("\n"):
            head, colon, rest = line.partition(": ")
            lines.append(head + colon + turn(rest, set(LAWS)) if head in ("old", "new") else line)
        open(p, "w", encoding="utf-8").write("\n".join(lines))
    for p in ["README.md"] + sorted(glob.glob("docs/*.md")):
        text = open(p, encoding="utf-8").read()
        open(p, "w", encoding="utf-8").write(in_comment(text))
    print(len(new), "names;", len([f for f in new.values() if f in functions]), "are also a function's")


if __name__ == "__main__":
    main()
