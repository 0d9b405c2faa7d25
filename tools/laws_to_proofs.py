#!/usr/bin/env python3
"""Moves theorems from specs/ to proofs/ in the crates whose must-fail edits change a definition of specs/.

usage: tools/laws_to_proofs.py [--check] CRATE..     (at the top of the repository, once)

An edit of a definition is read as one that cannot be read where theorems of specs/ rest on one another, so these stand in proofs/. What stays
in specs/: definitions, and theorems that a definition or a clause of the crate cites. A file of both kinds is divided: its definitions stay, its
theorems go to the file of that name in proofs/; a file of laws goes with the definitions that only laws cite. Every import follows. Statements are
not touched.
"""

import glob
import os
import re
import sys

DECL = re.compile(r"( *)((?:(?:pub|abbrev|unfoldable|opaque|data|record) )*)([^\s:(){},]+)((?: \{[^{}\n]*\}| \([^()\n]*\))*) :(?=\s)")
NAME = r"[^\s(){}.;,@\"«»]+"


def read(f):
    with open(f, encoding="utf-8") as it:
        return it.read()


def write(f, text):
    os.makedirs(os.path.dirname(f), exist_ok=True)
    with open(f, "w", encoding="utf-8") as it:
        it.write(text)


def blank(text):
    return re.sub(r"(?m)(?:(?<=\s)|^)--.*$", "", text)


def declared(lines):
    """(names of definitions, names of theorems) of some lines."""
    defs, laws, inside, local = [], [], None, None
    for line in lines:
        depth = len(line) - len(line.lstrip())
        # what stands under a 'where' of its own line is local to one declaration
        if local is not None and line.strip() and depth <= local:
            local = None
        if local is None and line.strip() == "where":
            local = depth
        if local is not None:
            continue
        if inside is not None and line.strip() and depth <= inside:
            inside = None
        m = re.match(r"( *)(?:pub )?(?:record|data) (%s)" % NAME, line)
        if m and inside is None:
            defs.append(m[2])
            inside = depth
            continue
        if inside is not None:
            # constructors of a data type
            continue
        m = DECL.match(line)
        if m and not re.match(r" *(where|let|in)\b", line):
            (defs if re.search("abbrev|unfoldable|opaque", m[2]) else laws).append(m[3])
    return defs, laws


class File:
    def __init__(self, crate, name):
        self.crate, self.name = crate, name
        self.path = f"crates/{crate}/specs/{name}.antt"
        text = read(self.path)
        lines = text.split("\n")
        i, self.head = 0, []
        while i < len(lines) and lines[i].startswith("--"):
            self.head.append(lines[i])
            i += 1
        self.uses, self.groups, pend = [], [], []
        for line in lines[i:]:
            if re.match(r"(pub )?use ", line):
                self.uses.append(line)
            elif not line.strip() or line.startswith("--"):
                pend.append(line)
            elif line[0] != " " and (DECL.match(line) or re.match(r"(?:(?:pub|abbrev|unfoldable|opaque) )*(?:record|data|module) ", line)):
                self.groups.append(pend + [line])
                pend = []
            else:
                if not self.groups:
                    self.groups.append([])
                self.groups[-1] += pend + [line]
                pend = []
        self.tail = pend
        self.kinds = [declared(blank("\n".join(g)).split("\n")) for g in self.groups]
        self.defs = {n for d, _ in self.kinds for n in d}
        self.laws = {n for _, l in self.kinds for n in l}
        # constructors are brought in by a module of their own; fields by their record

    def imports(self):
        """{path: names or None}"""
        out = []
        for u in self.uses:
            m = re.match(r"(?:pub )?use (\S+?)(?:\.?\{([^}]*)\})?(?: as (\S+))?$", u)
            if m:
                out.append((m[1].rstrip("."), [x.split(" as ")[0].strip() for x in m[2].split(",")] if m[2] else None))
        return out


def plan(crate):
    names = [os.path.relpath(f, f"crates/{crate}/specs")[:-5] for f in glob.glob(f"crates/{crate}/specs/**/*.antt", recursive=True)]
    files = {n: File(crate, n) for n in names if n != "Lib"}
    own = f"Rattle.{crate}.specs."
    edited = set() if crate == "plan_sheet" else {m for e in glob.glob(f"crates/{crate}/must-fail/*.edit") for m in re.findall(r"(?m)^file: specs/(\w+)\.antt", read(e))}
    needed = {n: set() for n in files}  # names of a file that what stays cites
    whole = set()
    for r in glob.glob(f"crates/{crate}/src/**/*.rt", recursive=True):
        for path, items in re.findall(r"ghost\s+use\s+(Rattle\.%s\.specs\.[\w.]+?)(?:\.\{([^}]*)\}|\s*(?:as\s+\w+)?\s*;)" % crate, read(r)):
            n = path[len(own) :].split(".")[0]
            if n in files:
                if items:
                    needed[n] |= {x.split(" as ")[0].strip() for x in items.split(",")}
                else:
                    whole.add(n)
    stays = {}  # file -> set of groups that stay
    done = set()
    todo = [n for n in files if needed[n] or n in whole or not files[n].laws]
    for n in files:
        if not files[n].laws or n in whole:
            needed[n] |= files[n].defs | (files[n].laws if n in whole else set())
    # a file of definitions keeps them all, a file of laws those that are cited
    for n, f in files.items():
        if not n.endswith("Laws") and (n in edited or len(f.defs) >= len(f.laws)):
            for d, l in f.kinds:
                if d and not l:
                    needed[n] |= set(d)
    while True:
        before = {n: set(s) for n, s in needed.items()}
        for n in list(files):
            if not needed[n]:
                continue
            f = files[n]
            keep = set()
            want = set(needed[n])
            again = True
            while again:
                again = False
                for i, (g, (d, l)) in enumerate(zip(f.groups, f.kinds)):
                    if i in keep or not (set(d) | set(l)) & want:
                        continue
                    keep.add(i)
                    text = blank("\n".join(g))
                    words = set(re.findall(NAME, text))
                    more = words & (f.defs | f.laws)
                    if not more <= want:
                        want |= more
                        again = True
            stays[n] = keep
            text = "\n".join(blank("\n".join(f.groups[i])) for i in keep)
            words = set(re.findall(NAME, text))
            for path, items in f.imports():
                if path.startswith(own):
                    m = path[len(own) :].split(".")[0]
                    if m in files:
                        needed[m] |= {x for x in (items or []) if x in words and x in files[m].defs | files[m].laws}
        if before == needed:
            break
    return files, stays


def divided(f, keep, words_of):
    """The file's text with these groups alone, with the imports that they use."""
    groups = [g for i, g in enumerate(f.groups) if i in keep]
    body = "\n".join("\n".join(g) for g in groups).strip("\n")
    uses = []
    for u in f.uses:
        m = re.match(r"((?:pub )?use \S+?\.)\{([^}]*)\}$", u)
        if m:
            kept = []
            for x in m[2].split(","):
                x = x.strip()
                s = x.split(" as ")[-1].strip()
                parts = [p for p in s.split("◌") if p]
                if all(re.search(r"(?<![\w'≡≢])%s(?![\w'])" % re.escape(p), blank(body)) for p in parts):
                    kept.append(x)
            if kept:
                uses.append(f"{m[1]}{{{', '.join(kept)}}}")
        else:
            a = u.split(" as ")[-1].split(".")[-1].strip()
            if re.search(r"(?<![\w.])%s\." % re.escape(a), blank(body)):
                uses.append(u)
    return uses, body


def main(argv):
    check = "--check" in argv
    moved = {}  # (crate, file) -> None for a whole file, or the names that went
    for crate in [a for a in argv if a != "--check"]:
        files, stays = plan(crate)
        lib = read(f"crates/{crate}/specs/Lib.antt")
        gone = []
        for n, f in sorted(files.items()):
            keep = stays.get(n, set())
            if not f.laws:
                continue
            if not keep:
                moved[crate, n] = None
                gone.append(n)
                print(f"{crate}: {n} goes")
                continue
            kept_laws = {x for i in keep for x in f.kinds[i][1]}
            go = [i for i in range(len(f.groups)) if i not in keep and f.kinds[i][1]]
            # definitions that nothing cites go with the theorems
            go = [i for i in range(len(f.groups)) if i not in keep]
            if not any(f.kinds[i][1] for i in go):
                print(f"{crate}: {n} stays" + (f", with {sorted(kept_laws)}" if kept_laws else ""))
                continue
            names = {x for i in go for k in f.kinds[i] for x in k}
            moved[crate, n] = names
            print(f"{crate}: {n} is divided: stay {sorted(f.defs - names)}" + (f" and {sorted(kept_laws)}" if kept_laws else "") + f"; go {len(names)}")
            if check:
                continue
            stay_names = {x for i in keep for k in f.kinds[i] for x in k}
            uses, body = divided(f, set(go), None)
            used = sorted(x for x in stay_names if re.search(r"(?<![\w'.])%s(?![\w'])" % re.escape(x), blank(body)))
            if used:
                uses.append(f"use Rattle.{crate}.specs.{n}.{{{', '.join(used)}}}")
            write(f"crates/{crate}/proofs/{n}.antt", "\n".join(f.head + uses) + "\n\n" + body + "\n")
            uses, body = divided(f, keep, None)
            write(f.path, "\n".join(f.head + uses) + "\n\n" + body + "\n")
        if check:
            continue
        for n in gone:
            os.makedirs(f"crates/{crate}/proofs", exist_ok=True)
            os.rename(f"crates/{crate}/specs/{n}.antt", f"crates/{crate}/proofs/{n}.antt")
        proofs = f"crates/{crate}/proofs/Lib.antt"
        text = read(proofs) if os.path.exists(proofs) else "-- Theorems on the definitions of specs/, and lemmas.\n"
        for n in [n for c, n in moved if c == crate]:
            if moved[crate, n] is None:
                lib = re.sub(r"(?m)^pub mod %s\n" % n, "", lib)
            text += f"pub mod {n}\n"
        write(proofs, text)
        write(f"crates/{crate}/specs/Lib.antt", lib)
    if check:
        return
    crates = {c for c, _ in moved}
    for f in glob.glob("crates/*/**/*", recursive=True):
        if "/out/" in f or not f.endswith((".antt", ".rt", ".edit")):
            continue
        old = text = read(f)

        def line(m):
            pre, crate, n, rest = m[1], m[2], m[3], m[4]
            if (crate, n) not in moved:
                return m[0]
            names = moved[crate, n]
            if names is None:
                return f"{pre}Rattle.{crate}.proofs.{n}{rest}"
            q = re.match(r"\.\{([^}]*)\}(.*)$", rest, re.S)
            if not q:
                print(f"left: {f}: {m[0]}")
                return m[0]
            items = [x.strip() for x in q[1].split(",") if x.strip()]
            a = [x for x in items if x.split(" as ")[0].strip() not in names]
            b = [x for x in items if x.split(" as ")[0].strip() in names]
            out = []
            if a:
                out.append(f"{pre}Rattle.{crate}.specs.{n}.{{{', '.join(a)}}}{q[2]}")
            if b:
                out.append(f"{pre}Rattle.{crate}.proofs.{n}.{{{', '.join(b)}}}{q[2]}")
            return "\n".join(out)

        if f.endswith(".edit"):
            text = re.sub(r"(?m)^((?:old|new): .*?\buse )Rattle\.(\w+)\.specs\.(\w+)(.*)$", line, text)
            crate = f.split("/")[1]
            m = re.search(r"(?m)^file: specs/(\w+)\.antt$", text)
            if m and moved.get((crate, m[1]), 0) is None:
                text = text.replace(f"file: specs/{m[1]}.antt", f"file: proofs/{m[1]}.antt")
            elif m and (crate, m[1]) in moved:
                print(f"look: {f}: of a divided file")
        else:
            text = re.sub(r"(?m)^((?:ghost )?(?:pub )?use )Rattle\.(\w+)\.specs\.(\w+)((?:\.|\s|;)?.*)$", line, text)
        if text != old:
            write(f, text)


if __name__ == "__main__":
    main(sys.argv[1:])
