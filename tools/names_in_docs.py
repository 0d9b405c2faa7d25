#!/usr/bin/env python3
"""Brings the documents to today's names of definitions and theorems, and their links to the files in which these stand.

usage: tools/names_in_docs.py TABLE [FILE..]     (at the top of the repository; as often as theorems move)

TABLE is what `tools/snake_names.py --check --table TABLE` writes over the tree of port.py's commit. In code spans each old name of it turns to
the new one, and a name that port.py itself turned to the one that is declared today; code blocks stay. A link to a file of specs/ or proofs/
that is gone, or that does not declare the names in the link's text while another file of the crate does, is led to that file.
"""

import glob
import os
import re
import sys

sys.path.insert(0, os.path.dirname(os.path.abspath(__file__)))
import snake_names

DOCUMENTS = ("README.md", "CONTRIBUTING.md", "docs/*.md", "examples/*/README.md", "tests/*/README.md", "rust/README.md", "rust/cartsundial/src/packet.rs")
# A name in a code span: not behind a dash, as an option is, no part of a path, and not behind ` .`, as the names that Rattle made.
NAME = re.compile(r"(?<![\w/⊎-])(?<! \.)[A-Za-z][\w'-]*(?![\w/])")
# Names that Rattle made, though the repository has one of the same words.
STAY = ("same-length",)
LINK = re.compile(r"\[([^\]]*)\]\(([^)#\s]*crates/(\w+)/((?:specs|proofs)/[^)#\s]*\.antt))\)")
ITEM = re.compile(r"(?m)^ *(?:(?:pub|abbrev|unfoldable|opaque|data|record) )*([^\s:(){},]+)(?: \{[^{}\n]*\}| \([^()\n]*\))* :(?=\s)")
TYPE = re.compile(r"(?m)^ *(?:(?:pub|abbrev|unfoldable|opaque) )*(?:data|record) (?:pub )?([^\s:(){},]+)")


def read(file):
    with open(file, encoding="utf-8") as it:
        return it.read()


def declared():
    """By crate and file, the names that it declares."""
    found = {}
    for part in ("specs/**", "proofs"):
        for file in glob.glob(f"crates/*/{part}/*.antt", recursive=True):
            text = read(file)
            found.setdefault(file.split("/")[1], {})[file] = {*ITEM.findall(text), *TYPE.findall(text)}
    return found


def today(name, table, known):
    """The name as it is spelled today, or as it is."""
    if name in table:
        return table[name]
    plain = snake_names.plain(name)
    return plain if snake_names.turns(name) and plain in known and name not in STAY else name


def spans(text, table, known):
    def span(found):
        part = found[0]
        # the end or the beginning of a family of names: `-by-id`, `planned-..`
        if re.fullmatch(r"`-[a-z][a-z-]*`", part) and any(it.endswith(snake_names.plain(part[1:-1])) for it in known):
            return snake_names.plain(part)
        if re.fullmatch(r"`[a-z-]+-\.\.`", part) and any(it.startswith(snake_names.plain(part[1:-3])) for it in known):
            return snake_names.plain(part)
        return NAME.sub(lambda m: today(m[0], table, known), part)

    pieces = re.split(r"(?ms)(^```.*?^```$)", text)
    return "".join(it if it.startswith("```") else re.sub(r"`[^`\n]+`", span, it) for it in pieces)


def links(file, text, files):
    def link(found):
        shown, path, crate, inside = found.groups()
        names = {it.split("::")[-1].split(".")[-1] for it in re.findall(r"`([^`]*)`", shown)}
        here, all_files = f"crates/{crate}/{inside}", files.get(crate, {})
        if here in all_files and names <= all_files[here]:
            return found[0]
        same = sorted(it for it, declares in all_files.items() if os.path.basename(it) == os.path.basename(here))
        has = sorted(it for it, declares in all_files.items() if names and names <= declares)
        # of several the one that has the old name
        to = next((it for it in has if it in same), None) or (has[0] if len(has) == 1 else None)
        to = to or (here if here in all_files else same[0] if same else None)
        if not to:
            print(f"{file}: no file for {found[0]}")
            return found[0]
        return f"[{shown}]({path[: -len(here)]}{to})"

    return LINK.sub(link, text)


def main(table, *named):
    table = dict(line.split("\t") for line in read(table).splitlines())
    files = declared()
    known = {name for crate in files.values() for names in crate.values() for name in names}
    for file in named or sorted(it for pattern in DOCUMENTS for it in glob.glob(pattern)):
        text = read(file)
        new = links(file, spans(text, table, known), files)
        if new != text:
            with open(file, "w", encoding="utf-8") as it:
                it.write(new)
            print(f"{file}: brought over")


if __name__ == "__main__":
    main(*sys.argv[1:])
