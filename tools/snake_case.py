#!/usr/bin/env python3
"""Brings the names of definitions, fields and lemmas to snake case, as Rattle spells words: `answerNumber` becomes `answer_number`.

usage: python3 tools/snake_case.py [FOLDER]      (default: the repository that it stands in)

It goes over the Rattle and antt files and the edits that must fail, and over the documents. Types, modules and constructors keep their capital,
and numbers such as 0xB009 their digits. A lemma that would then have the name of a definition that its file also names gets another: OTHER.
"""

import os
import re
import sys

# A lower-case letter first, then an upper-case one somewhere; not inside another word, nor the digits of a number.
CAMEL = re.compile(r"(?<![A-Za-z0-9_'])[a-z][a-z0-9]*(?:[A-Z][a-z0-9]*)+(?![A-Za-z0-9_])")
FOLDERS = ("crates",)
DOCUMENTS = re.compile(r"^(README\.md|docs/(ARCHITECTURE|DECISIONS|PROVING|THEOREMS)\.md)$")
# Names that fall together: file -> (the lemma's name, the one that it gets).
OTHER = {
    "crates/script/proofs/ReadBack.antt": [("number_read", "number_read_back")],
}


def snake(word):
    return re.sub(r"(?<=[a-z0-9])([A-Z])", lambda m: "_" + m.group(1).lower(), word)


def files(root):
    for top in FOLDERS:
        for folder, dirs, names in os.walk(os.path.join(root, top)):
            dirs[:] = sorted(d for d in dirs if d != "out")
            yield from (os.path.join(folder, n) for n in sorted(names) if n.endswith((".rt", ".antt", ".edit")))
    for folder in (".", "docs"):
        for n in sorted(os.listdir(os.path.join(root, folder))) if os.path.isdir(os.path.join(root, folder)) else []:
            path = os.path.normpath(os.path.join(folder, n))
            if DOCUMENTS.match(path):
                yield os.path.join(root, path)


def turned(text, path):
    for old, new in OTHER.get(path, []):
        text = re.sub(r"(?<![\w'-])" + re.escape(old) + r"(?![\w'-])", new, text)
    return CAMEL.sub(lambda m: snake(m.group(0)), text)


def main(argv):
    root = argv[0] if argv else os.path.dirname(os.path.dirname(os.path.abspath(__file__)))
    changed = 0
    for path in files(root):
        with open(path, encoding="utf-8") as f:
            text = f.read()
        new = turned(text, os.path.relpath(path, root))
        if new != text:
            with open(path, "w", encoding="utf-8") as f:
                f.write(new)
            changed += 1
    print(f"snake_case: {changed} files changed")


if __name__ == "__main__":
    main(sys.argv[1:])
