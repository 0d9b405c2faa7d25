#!/usr/bin/env python3
"""Spells this repository's own definitions, lemmas, fields and variables of antt in snake case, as today's Rattle does.

usage: tools/snake_names.py [--table FILE] [--check] [ROOT]     (at the top of the repository, once, after port.py)

What turns: in .antt files each name with a dash or in camel case that these files declare or bind, and that no library gives; in .rt files the
same names, in clauses and ghost use items. What stays: names that a file imports from a library, names that Rattle makes (Proof.antt speaks of
them), operators, types and modules. The table of old and new names goes to FILE; names that fall together are printed as 'met:'.
"""

import glob
import os
import re
import sys
from collections import Counter, defaultdict

NAME = re.compile(r"""[^\s(){}.;,@"«»]+""")
LIBRARIES = re.compile(r"(mathlib|native|lib|borrow|Prim|base|mir|types|denote|contract)\.|Rattle\.(std|core|std_alloc|std_collections|io)\.")
USE = re.compile(r"(?m)^(?:pub )?use ([^\s{]+?)(?:\.?\{([^}]*)\})?(?: as (\S+))?$")
RUST_USE = re.compile(r"ghost\s+use\s+([^\s{;]+?)(?:\.?\{([^}]*)\})?(?:\s+as\s+(\S+?))?\s*;")
CLAUSE = re.compile(r"\b(?:requires|ensures)\*?\s*(?:\w+\s*)?\{|\bghost\s*(?:\w+\s*:\s*)?\{")


# Lemmas that would have the name of a definition, as 'is-bridge' beside 'isBridge': they get '_lem'.
LEMMAS = set()


def plain(name):
    name = name.replace("-", "_")
    # 'entriesOf' is 'entries_of'; a capital that begins the name stays, as the fact that it names
    return re.sub(r"(?<=[a-z0-9])([A-Z])(?=[a-z0-9_']|$)", lambda m: "_" + m[1].lower(), name) if name[:1].islower() else name


def snake(name):
    return plain(name) + "_lem" * (name in LEMMAS)


# Lemmas whose spelling without a dash is now that of a definition in camel case, each with the crate that declares it.
ALSO = "room_as told_at lines_called or_above on_room under_none wrong_type write_bytes pass_of part_bytes entries_from of_space first_out".split()


def lemmas_of(own, words):
    """The names with a dash whose new spelling is another name's."""
    by = defaultdict(set)
    for w in own:
        by[plain(w)].add(w)
    for s, ws in by.items():
        dashed = {w for w in ws if "-" in w}
        camel = ws - dashed
        if dashed and (camel or len(dashed) > 1 or s in words):
            # of two with dashes alone one keeps the plain spelling
            LEMMAS.update(dashed if camel or s in words else sorted(dashed)[1:])


def turns(name):
    if "◌" in name or not re.search(r"[A-Za-z]", name):
        return False
    dash = re.search(r"(?<=[\w'≡≢≤¬⊎→∷])-(?=[\w≡≢≤¬⊎→∷])", name)
    camel = re.match(r"[a-z][a-z0-9_]*[A-Z]", name)
    return bool(dash or camel) and snake(name) != name


def imports(text, pattern):
    """The names that a file has from a library, and those that it has from crates of this repository."""
    library, own = set(), set()
    for path, names, alias in pattern.findall(text):
        into = library if LIBRARIES.match(path + ".") else own
        if names:
            for it in names.split(","):
                into.add(it.split(" as ")[-1].strip())
                if into is library:
                    library.add(it.split(" as ")[0].strip())
        if alias:
            into.add(alias)
    return library, own


def blanked(text):
    """The text with comments and strings as blanks."""
    return re.sub(r"(?m)(?:(?<=\s)|^)--.*$", lambda m: " " * len(m[0]), text)


def antt_files(root):
    for f in sorted(glob.glob(f"{root}/crates/*/specs/**/*.antt", recursive=True) + glob.glob(f"{root}/crates/*/proofs/**/*.antt", recursive=True)):
        if "/out/" not in f:
            yield f


def is_walk(f):
    return os.path.basename(f) in ("Proof.antt", "Answers.antt", "Invariants.antt")


def read(f):
    with open(f, encoding="utf-8") as it:
        return it.read()


def declared(root):
    """The names that the repository's own antt declares or binds, and no library gives there."""
    own = set()
    for f in antt_files(root):
        if is_walk(f):
            continue
        text = blanked(read(f))
        library, _ = imports(text, USE)
        body = USE.sub("", text)
        for m in NAME.finditer(body):
            w = m[0]
            if turns(w) and w not in library and body[m.start() - 1 : m.start()] != ".":
                own.add(w)
    return own


def plain_words(root):
    """The names without a dash or a capital that the repository's own antt declares."""
    words = set()
    for f in antt_files(root):
        if not is_walk(f):
            words.update(re.findall(r"(?m)^ *(?:(?:pub|abbrev|unfoldable|opaque|data|record) )*([a-z_0-9']+)(?: \{[^{}\n]*\})* :", blanked(read(f))))
    return words


def turn(text, own, library, pattern, ours=()):
    """The text with each of the names turned, but for those of a library."""

    def at(m):
        w = m[0]
        if (w in own or w in ours) and w not in library and turns(w):
            return snake(w)
        return w

    return pattern.sub(at, text)


def in_use(text, own, pattern):
    """Imports: names from a library stay, unless they are renamed to a name of ours."""

    def item(m):
        path = m[1]
        if LIBRARIES.match(path + "."):
            whole = m[0]
            # 'name as ours': what stands behind 'as' is ours
            return re.sub(r"( as )([^\s,}]+)", lambda a: a[1] + (snake(a[2]) if turns(a[2]) else a[2]), whole)
        whole = re.sub(r"(?<=[{,\s])([^\s{},.;]+)(?=[\s,}])", lambda a: snake(a[1]) if turns(a[1]) else a[1] + "_lem" * (a[1] in ALSO_HERE), m[0])
        if m[3]:
            alias = m[3]
            whole = whole if not turns(alias) else re.sub(r"( as )" + re.escape(alias) + r"(?=\s|;|$)", lambda a: a[1] + snake(alias), whole)
        # 'x as x' is 'x'
        return re.sub(r"(?<=[{,\s])([^\s{},.;]+) as \1(?=[\s,}])", r"\1", whole)

    return pattern.sub(item, text)


ALSO_HERE = set()


def also_of(text):
    """Of the lemmas in ALSO those that this file declares or imports."""
    here = set()
    for w in ALSO:
        if re.search(rf"(?m)^ *(?:pub )?{w} :", text) or re.search(rf"(?m)^(?:pub )?use Rattle[^\n]*[{{ ,]{w}[,}}]", text):
            here.add(w)
    return here


def turn_antt(text, own, walk):
    ALSO_HERE.clear()
    ALSO_HERE.update(set() if walk else also_of(text))
    library, ours = imports(blanked(text), USE)
    aliases = {a.split(" as ")[1].strip() for p, n, _ in USE.findall(text) if LIBRARIES.match(p + ".") for a in n.split(",") if " as " in a}
    library -= {a for a in aliases if turns(a)}
    pieces, at = [], 0
    for m in re.finditer(r"(?m)(?:(?<=\s)|^)--.*$|^(?:pub )?use .*$", text):
        pieces.append(code(text[at : m.start()], own, library, ours, walk))
        pieces.append(comment(m[0], own) if m[0].startswith("--") else in_use(m[0], own, USE))
        at = m.end()
    pieces.append(code(text[at:], own, library, ours, walk))
    return "".join(pieces)


def code(text, own, library, ours, walk):
    def at(m):
        w = m[0]
        if w in ALSO and not walk and text[m.end() : m.end() + 1] != "." and w in words:
            return w + "_lem"
        if not turns(w) or w in library:
            return w
        behind = text[m.start() - 1 : m.start()] == "."
        if walk:
            # a name behind a dot may be one that Rattle makes: only camel case is surely ours
            if behind:
                return snake(w) if w in own and "-" not in w else w
            return snake(w) if w in ours or (w in own and "-" not in w) else w
        return snake(w) if w in own or w in ours else w

    words = ALSO_HERE
    return NAME.sub(at, text)


def comment(text, own):
    """In a comment a name in camel case turns, and one with a dash in a code span."""
    text = re.sub(r"`[^`]*`", lambda s: NAME.sub(lambda m: snake(m[0]) if m[0] in own else m[0], s[0].strip("`")).join("``"), text)
    return re.sub(r"(?<![\w-])[a-z][a-z0-9]*[A-Z]\w*'*", lambda m: snake(m[0]) if m[0] in own else m[0], text)


def turn_rust(text, own):
    library, ours = imports(text, RUST_USE)
    text = in_use(text, own, RUST_USE)
    out, at = [], 0
    for m in CLAUSE.finditer(text):
        if m.start() < at or text.rfind("//", text.rfind("\n", 0, m.start()) + 1, m.start()) >= 0:
            continue
        depth, end = 1, m.end()
        while depth:
            depth += {"{": 1, "}": -1}.get(text[end], 0)
            end += 1
        out.append(text[at : m.end()])
        out.append(turn(text[m.end() : end], own, library, NAME, ours))
        at = end
    out.append(text[at:])
    text = "".join(out)
    return re.sub(r"(?m)//.*$", lambda m: comment(m[0], own), text)


def met(f, old, new, own):
    """Two names of one file that have one spelling now."""
    old = blanked(old)
    uses = " ".join(m[0] for m in USE.finditer(old))
    was = {m[0] for m in NAME.finditer(USE.sub("", old)) if old[m.start() - 1 : m.start()] != "." or turns(m[0])}
    was |= set(re.findall(r"[^\s{},]+(?=[,}])", uses))
    by = defaultdict(set)
    for w in was:
        by[snake(w) if turns(w) else w].add(w)
    for s, ws in sorted(by.items()):
        if len(ws) > 1:
            print(f"met: {f}: {s}: {' '.join(sorted(ws))}")


def main(argv):
    table = argv[argv.index("--table") + 1] if "--table" in argv else None
    check = "--check" in argv
    rest = [a for i, a in enumerate(argv) if not a.startswith("--") and (i == 0 or argv[i - 1] != "--table")]
    root = rest[0] if rest else "."
    own = declared(root)
    lemmas_of(own, plain_words(root))
    if table:
        with open(table, "w", encoding="utf-8") as it:
            it.writelines(f"{w}\t{snake(w)}\n" for w in sorted(own))
    n = 0
    for f in antt_files(root):
        old = read(f)
        new = turn_antt(old, own, is_walk(f))
        met(f, old, new, own)
        if new != old and not check:
            n += 1
            with open(f, "w", encoding="utf-8") as it:
                it.write(new)
    for f in sorted(glob.glob(f"{root}/crates/*/src/**/*.rt", recursive=True)):
        old = read(f)
        new = turn_rust(old, own)
        if new != old and not check:
            n += 1
            with open(f, "w", encoding="utf-8") as it:
                it.write(new)
    print(f"{len(own)} names, {n} files")


if __name__ == "__main__":
    main(sys.argv[1:])
