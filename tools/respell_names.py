#!/usr/bin/env python3
"""Turns the repository's own names of specs/ and proofs/ to the spelling of today's Rattle, by names.tsv.

usage: python3 tools/respell_names.py     at the top of the repository, once, after the kit's port.py

It was run once, after port.py; it is kept so that the old names can be laid beside the new ones again. Words of
clauses, definitions, proofs, must-fail edits and of the pages' code spans are turned; functions of src/, exported
names and strings are not. A proof's own name, `f-spec`, becomes `f_spec`.
"""

import os
import re
import subprocess

WORD = re.compile(r'[^\s(){}.;,@"«»]+')
SPAN = re.compile(r"`[^`\n]*`")
CLAUSE = ("dE", "dEp", "dEq", "dSam")  # the standard's own words, as comments quote them
SPEC = re.compile(r"(?<![^\s(){}.;,])(\+?[a-z][\w-]*)-spec(?![\w-])")


def rows():
    everywhere, text, inside = {}, {}, {}
    with open(os.path.join(os.path.dirname(os.path.realpath(__file__)), "names.tsv"), encoding="utf-8") as f:
        for line in f:
            if line.startswith("#"):
                continue
            kind, old, new = line.rstrip("\n").split("\t")
            if kind.startswith("in:"):
                inside.setdefault(kind[3:], {})[old] = new
            else:
                (everywhere if kind == "all" else text)[old] = new
    return everywhere, text, inside


def turn(text, table):
    return WORD.sub(lambda m: table.get(m[0], m[0]), text)


def spans(text, table):
    """A comment's or a page's text: what stands in backticks, and bare words that no prose has."""
    bare = {k: v for k, v in table.items() if re.search("[a-z0-9][A-Z]", k) and k not in CLAUSE}
    text = SPAN.sub(lambda m: re.sub(r"[^\s`(){}.;,@\"«»]+", lambda w: table.get(w[0], w[0]), m[0]), text)
    return re.sub(r"[A-Za-z_][\w']*", lambda m: bare.get(m[0], m[0]), text)


def antt(text, table):
    out = []
    for line in text.split("\n"):
        code, dash, comment = line, "", ""
        m = re.search(r"(?:^|\s)--(?:\s|$)", line)
        if m:
            at = m.start() + (line[m.start()] != "-")
            code, comment = line[:at], line[at:]
        out.append(turn(code, table) + spans(comment, table))
    return "\n".join(out)


def rt(text, table):
    out = []
    for line in text.split("\n"):
        if line.lstrip().startswith("//"):
            out.append(spans(line, table))
        else:
            out.append(turn(line, table))
    return "\n".join(out)


def proof(text):
    return SPEC.sub(lambda m: m[1].replace("-", "_") + "_spec", text)


def main():
    everywhere, text, inside = rows()
    both = {**text, **everywhere}
    for folder, dirs, files in os.walk("crates"):
        dirs[:] = sorted(d for d in dirs if d != "out")
        parts = folder.split(os.sep)
        for name in sorted(files):
            path = os.path.join(folder, name)
            if not name.endswith((".antt", ".rt", ".edit")):
                continue
            with open(path, encoding="utf-8") as f:
                old = f.read()
            new = old
            if name.endswith(".antt"):
                if len(parts) > 2 and parts[2] == "proofs" and parts[1] in inside:
                    new = antt(new, inside[parts[1]])
                new = antt(new, everywhere)
                if name == "Proof.antt":
                    new = proof(new)
            elif name.endswith(".rt"):
                new = rt(new, everywhere)
            else:
                new = turn(new, both)
            if new != old:
                with open(path, "w", encoding="utf-8") as f:
                    f.write(new)
    pages = subprocess.run(["git", "ls-files", "*.md"], capture_output=True, text=True, check=True).stdout.split()
    for path in pages:
        with open(path, encoding="utf-8") as f:
            old = f.read()
        new = spans(old, both)
        if new != old:
            with open(path, "w", encoding="utf-8") as f:
                f.write(new)
    for crate in sorted(os.listdir("crates")):
        where = os.path.join("crates", crate)
        if os.path.isdir(os.path.join(where, "src")):
            subprocess.run(["rt", "fmt"], cwd=where, stdout=subprocess.DEVNULL, check=False)


main()
