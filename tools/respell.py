#!/usr/bin/env python3
"""respell.py: brings the definitions and lemmas of the crates to the spelling of today's Rattle, once, after port.py.

A name of the repository's own in camel case, or of plain words joined by dashes, comes to snake case, in specs/, proofs/, clauses, comments and
the pages of docs/. Types, modules, names of the source and names that Rattle makes keep their spelling. Where the new name is another's already,
NAMES says what it is called. With --list it writes nothing and prints the names that fall together; with --help it prints this.
"""
import glob
import os
import re
import sys

# Names that would fall together with another.
NAMES = {
    "inOrder": "ordered_line",
    "inUse": "is_used",
    "isMade": "is_tick_made",
    "joinedAt": "joint_at",
    "pairSet": "with_pair",
    "writtenOver": "overwritten",
}
IDENT = r"[^\s(){};,.:⌜⌝λ\"|@]+"
DEFINED = re.compile(r"^\s*((?:pub |abbrev |unfoldable |open |data |record )*)((?:%s )+):(?=\s|$)" % IDENT)


def files(pattern):
    return sorted(f for f in glob.glob(pattern, recursive=True) if "/out/" not in f and "/target/" not in f)


def respelt(name):
    if not re.match(r"[a-z]", name) or not (re.search(r"[A-Z]", name) or "-" in name):
        return name
    words = re.sub(r"(?<=[a-z0-9])([A-Z])", lambda m: "_" + m[1].lower(), name)
    return words.replace("-", "_")


def own_names(crates):
    own, imported, fields = set(), set(), set()
    for path in files("crates/*/specs/**/*.antt") + files("crates/*/proofs/**/*.antt"):
        record = None
        for line in open(path, encoding="utf8"):
            line = line.split("--")[0]
            depth = len(line) - len(line.lstrip())
            if line.strip() and record is not None and depth <= record:
                record = None
            if re.match(r"\s*(pub )?record ", line):
                record = depth
            found = re.match(r"use ([^{]+?)\.\{([^}]*)\}", line)
            if found:
                parts = found[1].split(".")
                if not (parts[0] == "Rattle" and parts[1] in crates):
                    imported |= {n.strip().split(" as ")[-1] for n in found[2].split(",")}
                continue
            found = DEFINED.match(line)
            if found and ": tie." not in line and "statement M" not in line:
                own |= set(found[2].split())
                if record is not None:
                    fields |= set(found[2].split())
    return own, imported, fields


def main():
    if "--help" in sys.argv:
        print(__doc__.strip())
        return
    os.chdir(os.path.join(os.path.dirname(os.path.abspath(__file__)), ".."))
    crates = set(os.listdir("crates"))
    own, imported, fields = own_names(crates)
    turned = {n: NAMES.get(n, respelt(n)) for n in own if n not in imported and not re.match(r"(invariant|decreases)-", n)}
    # A lemma that would have its definition's name gets an ending.
    taken = {b for a, b in turned.items() if "-" not in a} | (own - set(turned)) | imported | {n for n in own if turned.get(n) == n}
    turned = {a: b + "_lem" if "-" in a and b in taken and a not in fields else b for a, b in turned.items()}
    turned = {a: b for a, b in turned.items() if a != b}
    if "--list" in sys.argv:
        back = {}
        for a, b in turned.items():
            back.setdefault(b, []).append(a)
        for b, names in sorted(back.items()):
            if len(names) > 1 or b in own or b in imported:
                print(b, names, "own" * (b in own), "imported" * (b in imported))
        print(len(turned), "names")
        return
    token = re.compile(r"(?P<dot>\.?)(?P<name>[^\s(){};,.⌜⌝λ\"|@`'’]+'*)")

    def put(found):
        name = found["name"]
        if name not in turned:
            return found[0]
        # A field, or a step of a proof, has no ending.
        return found["dot"] + (respelt(name) if found["dot"] and turned[name].endswith("_lem") else turned[name])

    for path in files("crates/*/specs/**/*.antt") + files("crates/*/proofs/**/*.antt") + files("crates/*/src/**/*.rt"):
        text = open(path, encoding="utf8").read()
        new = "\n".join(turned_line(line, path, put, token) for line in text.split("\n"))
        if new != text:
            open(path, "w", encoding="utf8").write(new)
    for path in files("docs/**/*.md") + ["README.md", "CHANGELOG.md"]:
        text = open(path, encoding="utf8").read()
        new = re.sub(r"`[^`\n]+`", lambda m: token.sub(put, m[0]), text)
        if new != text:
            open(path, "w", encoding="utf8").write(new)


def turned_line(line, path, put, token):
    if path.endswith(".rt"):
        # Code keeps its names: dashes are signs there.
        return token.sub(lambda t: put(t) if "-" not in t[0] else t[0], line)
    if re.match(r"use [\w.]+\.Tie as|use [\w.]+\.Statement\.", line):
        return line
    # Prose has dashes of its own.
    code, mark, comment = line.partition("--")
    return token.sub(put, code) + mark + token.sub(lambda t: put(t) if "-" not in t[0] else t[0], comment)


main()
