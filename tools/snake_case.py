#!/usr/bin/env python3
"""Brings the repository's own definitions, fields, constructors and lemmas to snake case, once, after the port's first script.

usage: python3 tools/snake_case.py        at the top of the repository

Names of the library and names that the toolchain makes (in the folder of a function's proof) keep their spelling; so do Rust's names,
strings and prose. Names that fall together are listed.
"""

import collections
import os
import re
import sys

WORD = re.compile(r"[\w'◌]+(?:-[\w'◌]+)+")
USE = re.compile(r"^((?:pub )?(?:ghost )?use )([\w.'-]+?)(?:\.\{([^}]*)\})?( as [\w-]+)?(;?)$", re.M | re.S)
FUNCTION = re.compile(r"/proofs/(?:.*/)?\+?[a-z][^/]*/[^/]*$")


def spelled(name):
    if re.fullmatch(r"Case-\d+", name):
        return name.replace("-", "")
    if re.fullmatch(r"[KNM]-(is|of)", name):
        name = name[0].lower() + name[1:]
    return name.replace("getD", "get_or").replace("-", "_")


def files():
    for folder, _, names in sorted(os.walk("crates")):
        for n in sorted(names):
            if n.endswith((".antt", ".rt")) and "/out/" not in folder:
                yield os.path.join(folder, n)


def own_module(path, crates):
    parts = path.split(".")
    return len(parts) > 2 and parts[0] == "Rattle" and parts[1] in crates


def made(path):
    """Whether the module is one that the toolchain makes for a function's proof."""
    parts = path.split(".")
    return "declared" in parts or "contracts" in parts or any(p[:1].islower() for p in parts[3:])


def imports(text):
    for m in USE.finditer(text):
        names = [n.strip() for n in (m.group(3) or "").split(",") if n.strip()]
        yield m.group(2), names, (m.group(4) or "").replace(" as ", "").strip() or m.group(2).split(".")[-1]


def turn_code(text, keep, only, aliases, rust_names):
    """Renames in text that is neither prose nor a string."""

    def one(m):
        word = m.group(0)
        if word in keep or not re.search(r"[^\W\d]", word[0] + word[1:2]):
            return word
        before = text[: m.start()]
        if only is not None:
            dotted = re.search(r"([\w'-]+)\.$", before)
            if dotted:
                if dotted.group(1) in aliases:
                    return spelled(word)
                return spelled(word) if word in only[1] and word not in rust_names else word
            return spelled(word) if word in only[0] else word
        return spelled(word)

    return WORD.sub(one, text)


def turn_prose(text, known):
    return re.sub(r"`([^`\n]*)`", lambda m: "`" + WORD.sub(lambda w: spelled(w.group(0)) if w.group(0) in known else w.group(0), m.group(1)) + "`", text)


def main():
    crates = set(os.listdir("crates"))
    texts = {f: open(f, encoding="utf-8").read() for f in files()}
    known, fields, rust_names = set(), set(), set()
    for f, t in texts.items():
        if f.endswith(".rt"):
            rust_names |= {n.replace("_", "-") for n in re.findall(r"fn (\w+)", t)}
            continue
        if FUNCTION.search(f):
            continue
        for m in re.finditer(r"^(\s*)(?:(?:abbrev|unfoldable|pub)\s+)*([^\s:({]+)\s[^\n]*?:\s|^(\s*)(?:pub )?([^\s:({]+)\s*:\s", t, re.M):
            name = m.group(2) or m.group(4)
            if WORD.fullmatch(name):
                known.add(name)
                if (m.group(1) or m.group(3)) == "  ":
                    fields.add(name)
    turned = {}
    for f, t in texts.items():
        keep, mine, aliases = set(), set(), set()
        for path, names, alias in imports(t):
            if own_module(path, crates) and not made(path):
                mine |= set(names)
                aliases.add(alias)
            else:
                keep |= set(names)
        only = (mine, fields) if FUNCTION.search(f) else None
        mark = "//" if f.endswith(".rt") else "--"
        out = []
        for line in t.split("\n"):
            cut = re.search(r"(?<!\S)" + re.escape(mark), line)
            code, prose = (line[: cut.start()], line[cut.start() :]) if cut else (line, "")
            pieces = re.split(r'("(?:[^"\\]|\\.)*")', code)
            pieces = [p if p.startswith('"') else turn_code(p, keep, only, aliases, rust_names) for p in pieces]
            out.append("".join(pieces) + turn_prose(prose, known))
        turned[f] = "\n".join(out)
        for w in keep:
            other = [x for x in mine | known if spelled(x) == w and x != w]
            for x in other:
                if x in mine or re.search(r"^(?:\w+ )*" + re.escape(x) + r"\s", t, re.M):
                    print(f"falls together with the library's: {f}: {x}")
        here = collections.defaultdict(set)
        for w in set(re.findall(r"^\s*(?:(?:abbrev|unfoldable|pub)\s+)*([\w'◌-]+) ", t, re.M)):
            here[spelled(w)].add(w)
        for s, w in here.items():
            if len(w) > 1:
                print(f"fall together: {f}: {' '.join(sorted(w))}")
    for f, t in turned.items():
        if t != texts[f]:
            with open(f, "w", encoding="utf-8") as out:
                out.write(t)
    print(sum(t != texts[f] for f, t in turned.items()), "files")


main()
