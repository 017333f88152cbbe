#!/usr/bin/env python3
"""Counts the places that docs/DESIGN-PASS.md speaks of: tools/places.py [--list] [POINT..]

Each point has measures, each measure a count; with --list each place is named too. Run it at the top of the checkout.
"""
import collections
import pathlib
import re
import sys

KEYWORDS = set('as break const continue else enum extern fn for if impl in let loop match mod mut pub ref return self Self struct '
               'trait type unsafe use where while true false Some None Ok Err bool u8 u16 u32 u64 usize str'.split())
TOKEN = re.compile(r"b?\"[^\"]*\"|b?'(?:\\.|[^'\\])'|[A-Za-z_]\w*|\d[\w]*|::|->|=>|[=!<>]=|&&|\|\||\.\.|\S")


def sources():
    for line in open('crates.txt'):
        name = re.split(r'[: ]', line.strip(), maxsplit=1)[0]
        if name and not name.startswith('#'):
            yield from sorted(pathlib.Path('crates', name, 'src').glob('**/*.rt'))


def bare(text):
    return re.sub(r'//[^\n]*', '', text)


def block(text, at):
    """The text between the brace at a place and the one that closes it."""
    depth = 0
    for i in range(at, len(text)):
        depth += {'{': 1, '}': -1}.get(text[i], 0)
        if depth == 0:
            return text[at + 1:i]
    return text[at + 1:]


def split_top(text, types=True):
    """Cuts at the commas outside of brackets; in types angle ones are brackets too."""
    parts, depth, last = [], 0, 0
    for i, c in enumerate(text):
        if c in '([{' or types and c == '<':
            depth += 1
        elif c in ')]}' or types and c == '>' and text[i - 1] not in '-=':
            depth -= 1
        elif c == ',' and depth == 0:
            parts.append(text[last:i].strip())
            last = i + 1
    return [p for p in parts + [text[last:].strip()] if p]


class Function:
    def __init__(self, path, name, parameters, clauses, body):
        self.name, self.parameters, self.clauses, self.body = f'{path}: {name}', parameters, clauses, body


def functions():
    for path in sources():
        text = bare(path.read_text())
        for m in re.finditer(r'\bfn (\w+)(?:<[^(]*>)?\(', text):
            depth, i = 1, m.end()
            while depth:
                depth += {'(': 1, ')': -1}.get(text[i], 0)
                i += 1
            parameters = split_top(text[m.end():i - 1])
            head = i
            while i < len(text) and text[i] not in '{;':
                i += 1
            while text[head:i].rstrip().split() and re.search(r'(requires|ensures)\*?( \w+)?\s*$', text[head:i]):
                i += len(block(text, i)) + 2
                while i < len(text) and text[i] not in '{;':
                    i += 1
            body = block(text, i) if i < len(text) and text[i] == '{' else ''
            yield Function(path, m.group(1), parameters, text[head:i], body)


def enums():
    for path in sources():
        text = bare(path.read_text())
        for m in re.finditer(r'\benum (\w+)[^{]*\{', text):
            yield f'{path}: {m.group(1)}', split_top(block(text, m.end() - 1))


def structs():
    for path in sources():
        text = bare(path.read_text())
        for m in re.finditer(r'\bstruct (\w+)(?:<[^{(]*>)?\s*\{', text):
            yield f'{path}: {m.group(1)}', split_top(block(text, m.end() - 1))


def two_variant_enums():
    return [f'{n} {{{", ".join(v)}}}' for n, v in enums() if len(v) == 2]


def enums_with_a_refusal():
    word = re.compile(r'^(Unreadable|Unknown|Refuse[sd]?|Refused|Abort|No\w+|Nothing|Absent|Unread)\b')
    return [f'{n} {{{", ".join(v)}}}' for n, v in enums() if len(v) > 2 and any(word.match(x) for x in v)]


def numbers_for_kinds():
    found = []
    for f in functions():
        for p in f.parameters:
            if re.match(r'(kind|mark|narrow|wide|most|about|narrowest|code)\s*:\s*u(8|16|32)$', p):
                found.append(f'{f.name}({p})')
    for n, fields in structs():
        found += [f'{n}.{x}' for x in fields if re.search(r'\b(kind|mark|code)\s*:\s*u(8|16|32)$', x)]
    return found


def flags_in_structs():
    return [f'{n}.{re.sub("^pub ", "", x)}' for n, fields in structs() for x in fields if re.search(r':\s*bool$', x)]


def skeleton(f):
    names, out = {}, []
    for t in TOKEN.findall(' '.join(f.parameters) + ' { ' + f.body + ' }'):
        if re.match(r"\d|b?[\"']", t):
            out.append('N')
        elif re.match(r'u(8|16|32|64|size)$', t):
            out.append('T')
        elif re.match(r'[A-Za-z_]', t) and t not in KEYWORDS:
            out.append(names.setdefault(t, f'i{len(names)}'))
        else:
            out.append(t)
    return tuple(out)


def twins():
    groups = collections.defaultdict(list)
    for f in functions():
        s = skeleton(f)
        if f.body.strip() and len(s) >= 30:
            groups[s].append(f.name)
    return [' = '.join(g) for g in groups.values() if len(g) > 1]


def hand_loops():
    return [f'{f.name}: {m.group(0).strip()}' for f in functions() for m in re.finditer(r'\b(?:while [^{]*|loop )\{', f.body)]


def matches_to_numbers():
    return [f.name for f in functions()
            if len(re.findall(r'=>\s*(?:0x)?[0-9A-F_]+\s*,', f.body)) >= 2 or re.fullmatch(r'\s*if \w+ \{ [01] \} else \{ [01] \}\s*', f.body)]


def truth_by_returns():
    """A bool told by `return true` or `return false` outside of a loop."""
    return [f.name for f in functions()
            if '-> bool' in f.clauses and re.search(r'return (true|false)', f.body) and not re.search(r'\b(while|loop|for)\b', f.body)]


def matches_by_every_variant():
    """A match of four arms or more of which two give the same."""
    found = []
    for f in functions():
        for m in re.finditer(r'\bmatch [^{]*\{', f.body):
            arms = [re.sub(r'\s+', ' ', a.split('=>', 1)[1]).strip() for a in split_top(block(f.body, m.end() - 1), False) if '=>' in a]
            if len(arms) >= 4 and len(set(arms)) < len(arms):
                found.append(f.name)
    return found


def casts():
    return [f'{f.name}: {m.group(0)}' for f in functions() for m in re.finditer(r'[\w.)\]]+ as u(?:8|16|32|64|size)', f.body)]


def travelling():
    """Parameters that stand side by side, with the same names and types, in three functions or more; the longest such row of each function."""
    rows = collections.defaultdict(set)
    for f in functions():
        ps = [re.sub(r"'\w+ ", '', p) for p in f.parameters]
        for i in range(len(ps)):
            for j in range(i + 2, len(ps) + 1):
                rows[tuple(ps[i:j])].add(f.name)
    rows = {r: n for r, n in rows.items() if len(n) >= 3}
    longest = [r for r in rows if not any(len(o) > len(r) and rows[o] >= rows[r] and ' | '.join(r) in ' | '.join(o) for o in rows)]
    return [f'{len(rows[r])} functions: {", ".join(r)}' for r in sorted(longest, key=lambda r: (-len(rows[r]), -len(r)))]


def wide_signatures():
    return [f'{f.name} ({len(f.parameters)})' for f in functions() if len(f.parameters) > 6]


def memory_with_a_count():
    pair = re.compile(r"^\w+\s*:\s*&(?:'\w+ )?(?:mut )?(?:\w+::)?(Area|Line|Input|\[u8\])$")
    found = []
    for f in functions():
        for a, b in zip(f.parameters, f.parameters[1:]):
            if pair.match(a) and re.match(r'(count|olds|news|live|n|records|held|used|end)\s*:\s*usize$', b):
                found.append(f'{f.name}({a}, {b})')
    return found


def numbered_names():
    return [f'{n}: {", ".join(re.sub("^pub ", "", x) for x in fields if re.match(r"(pub )?[a-z]+[0-9]:", x))}'
            for n, fields in structs() if sum(bool(re.match(r'(pub )?[a-z]+[0-9]:', x)) for x in fields) > 1]


def steps_by_flags():
    found = []
    for f in functions():
        for p in f.parameters:
            m = re.match(r'(\w+)\s*:\s*(bool|u8)$', p)
            if m and re.search(r'\bif !?' + m.group(1) + r"( == b?'?\w+'?)? \{\s*(return )?\w[\w:]*\(", f.body):
                found.append(f'{f.name}({p})')
    return found


def answer_files():
    return [str(p) for p in sorted(pathlib.Path('crates').glob('*/proofs/**/Answers.antt'))]


def answers():
    return [f'{p}: {n}' for p in answer_files() for n in re.findall(r'^pub ([\w«»-]+) :', open(p).read(), re.M)]


def repeated_answers():
    """Answers of one file that say the same, three or more of them."""
    found = []
    for p in answer_files():
        said = collections.Counter(re.sub(r'\s+', ' ', m).strip() for m in re.findall(r'^[\w«»-]+(?: \w+)* =\s*((?:.|\n(?!\n))*)', open(p).read(), re.M))
        found += [f'{p}: {n} times {s[:80]}' for s, n in said.items() if n >= 3]
    return found


def lemmas():
    return [f'{p}: {n}' for p in sorted(pathlib.Path('crates').glob('*/proofs/*.antt')) for n in re.findall(r'^\s*(?:pub |abbrev pub )?([\w«»-]+) :(?!:)', p.read_text(), re.M)]


POINTS = {
    1: [('enums of two variants', two_variant_enums), ('larger enums with a variant for none, unreadable or refused', enums_with_a_refusal),
        ('numbers for kinds, as parameters and fields', numbers_for_kinds), ('bool fields of structs', flags_in_structs)],
    2: [('groups of functions that differ in names, numbers and types alone', twins)],
    3: [('while and loop', hand_loops)],
    4: [('functions that turn variants or a bool into numbers', matches_to_numbers), ('bools told by returns', truth_by_returns),
        ('matches that write every variant out', matches_by_every_variant), ('casts by as', casts)],
    5: [('rows of parameters that three functions or more share', travelling), ('functions of more than six parameters', wide_signatures)],
    6: [('memory with a count beside it, as parameters', memory_with_a_count), ('structs of numbered fields', numbered_names)],
    7: [('functions that a flag tells which step to run', steps_by_flags)],
    8: [('files of answers', answer_files), ('answers', answers), ('answers that a file repeats', repeated_answers), ('laws in lemma files', lemmas)],
}


def main():
    given = sys.argv[1:]
    wanted = [int(a) for a in given if a != '--list'] or list(POINTS)
    for point in wanted:
        for name, places in POINTS[point]:
            found = places()
            print(f'{point}  {len(found):4}  {name}')
            if '--list' in given:
                for place in found:
                    print(f'         {place}')


main()
