#!/usr/bin/env python3
"""Brings the names of this repository's definitions and lemmas to snake case, after the port script.

usage: tools/respell.py [FOLDER]

Run once, in the commit of the port script. A name that specs/ or proofs/ declares at the head of a line, and that has a
dash or a capital inside it (`valueOf`, `reads-rest`, `behind-C`), gets underscores and small letters (`value_of`,
`reads_rest`, `behind_c`). A lemma that would meet the definition it speaks of gets `_lem`. Types and modules keep their
capitals. What proofs/F/ declares for a function F is named by the language and is left alone, and so is all code of
src/, but for the clauses and ghost lines in it. In pages and must-fail edits the same words are turned where they stand
alone. It stops where two names would fall together.
"""
import glob
import os
import re
import sys

NAME = r"[^\s(){}\[\];,.@\"«»`|:]+"
TOKEN = re.compile(NAME)
DECLARED = re.compile(r"^\s*(?:(?:abbrev|unfoldable|pub|private)\s+)*(" + NAME + r")(?:\s+[({].*)?\s+:\s")
DATA = re.compile(r"^\s*(?:pub )?(?:data|record) ")


# A function and the definition that it meets may have one name, as `count_ok`.
MEETS_CODE = re.compile(r"/proofs/(words_end|count_ok|first_unpaired)/")
LEMMAS = set("widths-before mesh-text fill-run is-keyed apart-at first-corner by-walk right-seen left-seen".split())
# The port script had these in snake case already: in these folders they are lemmas beside a definition of the name.
AGAIN = [("crates/tables/", "at_right"), ("crates/tables/", "at_left"), ("crates/theory/", "up_at"), ("crates/sweep/", "below_at")]


def turned(name):
    if name in LEMMAS:
        return turned(name.replace("-", "_")) + "_lem"
    words = re.sub(r"(?<=[a-z0-9])[A-Z]", lambda m: "_" + m[0].lower(), name)
    return words.replace("-", "_").lower()


def laws(top):
    return sorted(glob.glob(top + "/crates/*/specs/**/*.antt", recursive=True) + glob.glob(top + "/crates/*/proofs/*.antt"))


def declared(top):
    found = {}
    for path in laws(top):
        for line in open(path, encoding="utf-8"):
            if line.lstrip().startswith(("--", "let ", "use ", "data ", "record ", "pub data ", "pub record ")):
                continue
            m = DECLARED.match(line)
            if m:
                found.setdefault(m[1], set()).add(path)
    found.update((n, set()) for n in ("wC", "wL", "wR"))  # declared on one line
    return found


def main():
    top = sys.argv[1] if len(sys.argv) > 1 else "."
    names = declared(top)
    turn = {}
    for name in names:
        if name[0].isalpha() and name[0].islower() and re.search(r"-|[a-z0-9][A-Z]", name):
            turn[name] = turned(name)
    files = laws(top)
    for pattern in ("proofs/*/**/*.antt", "src/**/*.rt", "must-fail/*.edit"):
        files += sorted(glob.glob(top + "/crates/*/" + pattern, recursive=True))
    pages = sorted(glob.glob(top + "/docs/**/*.md", recursive=True)) + [top + "/README.md"]
    texts, bad = {}, []
    for path in files + pages:
        text = open(path, encoding="utf-8").read()
        for folder, name in AGAIN:
            if folder in path and "meshRungs" in names:
                text = re.sub(r"(?<![\w.-])" + name + r"(?![\w-])", name + "_lem", text)
        tokens = set(TOKEN.findall(text))
        for name, to in turn.items():
            if name in tokens and to in tokens and path not in pages and "/src/" not in path and not MEETS_CODE.search(path):
                bad.append((path, name, to))
        texts[path] = text
    for b in bad:
        print("meets:", *b)
    if bad:
        return 1
    for path, text in texts.items():
        whole = re.compile(r"(?<![^\s(){}\[\];,.@\"«»`|:])(" + "|".join(map(re.escape, sorted(turn, key=len, reverse=True))) + r")(?![^\s(){}\[\];,.@\"«»`|:])")
        inner = re.search(r"/proofs/[^/]+/", path)
        def one(m):
            before = text[m.start() - 1] if m.start() else " "
            if before == "." and (inner or path.endswith((".md", ".edit"))) and not re.search(r"(Rattle\.\S*\.(specs|proofs)\.\S*\.|\.ensures\.|invariant\.|requires\.)$", text[max(0, m.start() - 120):m.start()]):
                return m[0]
            return turn[m[0]]
        new = whole.sub(one, text)
        if new != open(path, encoding="utf-8").read():
            open(path, "w", encoding="utf-8").write(new)
    print(len(turn), "names")


sys.exit(main())
