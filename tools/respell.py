#!/usr/bin/env python3
"""Brings this repository's own definitions and lemmas to the library's spelling.

Usage: respell.py [--list] [DIR]

Words are in snake case, types in camel case: `line-pkt` becomes `line_pkt`, `Reads-sent` becomes `ReadsSent`.
Only names that a file of specs/ or proofs/ declares are turned, in .antt files and in the ghost lines and clauses of
.rt files; names that the toolchain makes (behind `c.`, `goal.` and the like) and functions of src/ keep theirs.
  --list   print the names, and those that would fall together with another, and turn nothing
Meant to be run once, on the text that an older toolchain's upgrade script has left.
"""
import os
import re
import subprocess
import sys

NAME = r"[A-Za-z_][\w'′]*(?:-[\w'′]+)*"
TOKEN = re.compile(r"(?P<before>[\w'′·-]*\.)?(?P<name>" + NAME + r")")
DECLARED = [
    re.compile(r"^\s*(?:abbrev |unfoldable |unfolding )?(?:pub )?(?:abbrev |unfoldable )?(" + NAME + r") :(?!=)"),
    re.compile(r"^\s*(?:pub )?(?:record|data) (" + NAME + r")"),
    re.compile(r"^\s*(?:abbrev |unfoldable )?(?:pub )?(?:abbrev |unfoldable )?(" + NAME + r"(?: " + NAME + r")+) :(?!=)"),
]
ALIAS = re.compile(r"(" + NAME + r") as (" + NAME + r")")
MADE = {"c", "goal", "given", "need", "w", "l", "g"}
# Names that would fall together with another name of their file.
OWN = {"Not-hexadecimal": "IsNotHexadecimal", "bit-or": "bits_or"}


def files(top):
    for folder, dirs, names in os.walk(os.path.join(top, "crates")):
        dirs[:] = sorted(d for d in dirs if d not in ("out", "must-fail", "data"))
        for f in sorted(names):
            if f.endswith((".rt", ".antt")):
                yield os.path.join(folder, f)


def is_answers(path):
    return os.path.basename(path) in ("Answers.antt", "Invariants.antt", "Proof.antt")


def turned(name, types):
    if name in OWN:
        return OWN[name]
    if name in types:
        return "".join(w[:1].upper() + w[1:] for w in name.split("-"))
    return name.replace("-", "_")


def declared(top):
    """Each name with a dash that a file declares, and those of them that are types."""
    names, types = set(), set()
    for path in files(top):
        if not path.endswith(".antt"):
            with open(path, encoding="utf-8") as f:
                for m in re.finditer(r"^ghost use [^;]*;", f.read(), re.M):
                    names.update(a for _, a in ALIAS.findall(m.group(0)) if "-" in a)
            continue
        with open(path, encoding="utf-8") as f:
            text = f.read()
        for line in text.split("\n"):
            if line.startswith(("use ", "pub use ")):
                names.update(a for _, a in ALIAS.findall(line) if "-" in a)
                continue
            for pattern in DECLARED:
                m = pattern.match(line)
                if m:
                    found = [n for n in m.group(1).split(" ") if "-" in n]
                    if is_answers(path) and re.search(r": (?:goal|given|need)\.", line):
                        continue
                    names.update(found)
                    types.update(n for n in found if n[0].isupper())
    return names, types


def ghost_parts(text):
    """The stretches of a source file that are ghost: clauses, ghost items and ghost imports."""
    for m in re.finditer(r"\b(?:requires|ensures|ghost)\b[^{};]*[{;]", text):
        if text[m.end() - 1] == ";" or m.group(0).startswith("ghost use"):
            end = text.index(";", m.start()) + 1
        else:
            depth, end = 1, m.end()
            while depth:
                depth += {"{": 1, "}": -1}.get(text[end], 0)
                end += 1
        yield m.start(), end


def respell(text, names, types):
    def put(m):
        before, name = m.group("before") or "", m.group("name")
        if name not in names or before[:-1] in MADE:
            return m.group(0)
        return before + turned(name, types)
    return TOKEN.sub(put, text)


def main():
    words = [a for a in sys.argv[1:] if a != "--list"]
    top = words[0] if words else "."
    names, types = declared(top)
    if "--list" in sys.argv:
        everything = {}
        for path in files(top):
            with open(path, encoding="utf-8") as f:
                for m in TOKEN.finditer(f.read()):
                    everything.setdefault(m.group("name"), set()).add(os.path.relpath(path, top))
        for name in sorted(names):
            to = turned(name, types)
            print(name, "->", to, "   FALLS TOGETHER in " + ", ".join(sorted(everything[to])[:4]) if to in everything else "")
        return
    for path in files(top):
        with open(path, encoding="utf-8") as f:
            text = f.read()
        if path.endswith(".antt"):
            new = respell(text, names, types)
        else:
            new, at = "", 0
            for a, b in ghost_parts(text):
                if a < at:
                    continue
                new += text[at:a] + respell(text[a:b], names, types)
                at = b
            new += text[at:]
        if new != text:
            with open(path, "w", encoding="utf-8") as f:
                f.write(new)
    for crate in sorted(os.listdir(os.path.join(top, "crates"))):
        subprocess.run(["rt", "fmt"], cwd=os.path.join(top, "crates", crate), check=False, stdout=subprocess.DEVNULL)


main()
