"""Whether every name that the documents give is there: `crate/File` and `crate/File.name` of specs or proofs, `crate/module/function`
and `crate::item` of the code, modules such as `Rattle.crate.specs.File` (with names of it, and in blocks of code too), and paths of the
repository. Prints each that is not, and how many were looked up; exit status 1 where one is missing. docs/PORT.md and
docs/DESIGN-PASS.md are left out: they have names as they were, too."""
import glob
import os
import re
import sys

DOCUMENTS = ["README.md", "examples/README.md", "tests/reference/NOTES.md", *sorted(set(glob.glob("docs/*.md")) - {"docs/PORT.md", "docs/DESIGN-PASS.md"})]


def text(path):
    with open(path, encoding="utf-8") as f:
        return f.read()


def listed():
    return [line.split(":")[0].split()[0] for line in text("crates.txt").split("\n") if ":" in line.split("#")[0]]


def laws(crate):
    """File -> its text, of specs and proofs."""
    found = {}
    for part in ("specs", "proofs"):
        for path in glob.glob(f"crates/{crate}/{part}/**/*.antt", recursive=True):
            name = os.path.basename(path)[: -len(".antt")]
            found[name] = found.get(name, "") + text(path)
    return found


def has_word(name, where):
    return re.search(r"(?<![\w'-])" + re.escape(name) + r"(?![\w'-])", where)


def missing(quoted, specs, code):
    """What is missing of a quoted name, '' where it is there, None where it names nothing that is looked up."""
    m = re.fullmatch(r"(\w+)/([A-Z]\w*)(?:\.([^\s.]+(?:\.[^\s.]+)*))?", quoted)
    if m and m[1] in specs:
        if m[2] not in specs[m[1]]:
            return "no such file"
        lost = [part for part in (m[3] or "").split(".") if part and not has_word(part, specs[m[1]][m[2]])]
        return f"no {lost[0]} there" if lost else ""
    m = re.fullmatch(r"Rattle\.(\w+)\.proofs\.([\w.+]+)\.(?:Goals|Given)", quoted)
    if m:
        return "" if os.path.isdir(f"crates/{m[1]}/proofs/" + m[2].replace(".", "/")) else "no such proof"
    m = re.fullmatch(r"Rattle\.(\w+)\.(?:specs|proofs)\.(\w+)(?:\.(?:\{([^}]*)\}|([^\s.{}]+)))?", quoted)
    if m:
        where = specs.get(m[1], {}).get(m[2])
        if where is None:
            return "no such module"
        names = [name.split(" as ")[0].strip() for name in (m[3] or m[4] or "").split(",")]
        lost = [name for name in names if name and not has_word(name, where)]
        return f"no {lost[0]} there" if lost else ""
    m = re.fullmatch(r"(\w+)/(?:\w+/)*([a-z]\w*)", quoted)
    if m and m[1] in code:
        return "" if re.search(rf"\b(fn|mod)\s+{m[2]}\b", code[m[1]]) else "no such function"
    m = re.fullmatch(r"(\w+)::([\w:]+)(?:\(.*\))?", quoted)
    if m and m[1] in code:
        item = m[2].split("::")[-1]
        return "" if re.search(rf"\b(fn|struct|enum|trait|type|const|mod)\s+{item}\b", code[m[1]]) else "no such item"
    if re.fullmatch(r"(crates|tests|bench|examples|include|docs)/[\w./-]+", quoted) and not re.search(r"CRATE|NAME|/(target|out)/", quoted):
        return "" if os.path.exists(quoted) else "no such path"
    return None


def main():
    crates = listed()
    specs = {c: laws(c) for c in crates}
    code = {c: "\n".join(text(p) for p in glob.glob(f"crates/{c}/src/**/*.rt", recursive=True)) for c in crates}
    looked = lost = 0
    for document in DOCUMENTS:
        for n, line in enumerate(text(document).split("\n"), 1):
            modules = re.findall(r"\bRattle(?:\.[\w+-]+)+(?:\.\{[^}]*\})?", re.sub(r"`[^`]*`", "", line))
            for quoted in re.findall(r"`([^`]+)`", line) + modules:
                answer = missing(quoted, specs, code)
                looked += answer is not None
                if answer:
                    lost += 1
                    print(f"{document}:{n}: {quoted}: {answer}")
    print(f"documents: {looked} names looked up, {lost} missing")
    sys.exit(lost > 0 or looked == 0)


main()
