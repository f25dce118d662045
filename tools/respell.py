#!/usr/bin/env python3
"""Spells the repository's own definitions and lemmas in snake case, as the library spells its own.

usage: tools/respell.py [FOLDER]     FOLDER has crates/ and docs/; the present one where none is given. It is run once, after port.py

A name that an .antt file below specs/ or proofs/ declares gets underscores for its capitals and hyphens; types and facts, which begin
with a capital, keep theirs. What a function's own proof files (Proof, Invariants, Answers) declare is left, since those are names that
Rattle makes. Where a definition and a lemma would meet in one name, the lemma gets `_lem` after it. Names in comments and in backticks
go along. Items of src/, strings and must-fail edits are left.
A line 'meets:' names a file in which a definition gets the name of a function, a variable or a field there: that is allowed in the
language, and the check tells the two apart.
"""

import collections
import os
import re
import sys

NAME = r"[^\s(){}.;,@\"«»:`]+"
DECLARED = re.compile(rf"(?m)^( *)((?:abbrev |unfoldable |pub )*)({NAME})((?: \{{[^{{}}\n]*\}})*) :(?= |$)")
OF_A_FUNCTION = re.compile(r"/proofs/.*/(Proof|Answers|Invariants)\.antt$")
IMPORT = re.compile(r"(?m)^(?:ghost )?(?:pub )?use ((?!Rattle\.(?!std\.))[^\s{]+)\.\{([^}]*)\}")
TOKEN = re.compile(NAME)

# Names that would meet another one: two lemmas without a hyphen of their own, and the rows of two tables, which have a crate's name.
OTHERS = {
    "in_order": "in_order_lem",
    "from_first": "from_first_lem",
    "certificateRows": "rows_of_certificates",
    "prefixRows": "rows_of_prefixes",
    "nodeRow": "row_of_node",
}


def files(root, endings):
    for folder, dirs, names in os.walk(os.path.join(root, "crates")):
        dirs[:] = sorted(d for d in dirs if d not in ("out", ".git"))
        for name in sorted(names):
            if name.endswith(endings):
                yield os.path.join(folder, name)


def snake(name):
    if name[0].isupper():
        return name.replace("-", "_")
    return re.sub(r"(?<=[a-z0-9₀₁₂])[A-Z]", lambda m: "_" + m[0].lower(), name).replace("-", "_")


def own_names(texts):
    own, of_library = set(), set()
    for path, text in texts.items():
        for m in IMPORT.finditer(text):
            of_library |= {n.split(" as ")[0].strip() for n in m[2].split(",")}
        if path.endswith(".antt") and not OF_A_FUNCTION.search(path):
            own |= {m[3] for m in DECLARED.finditer(text)}
    return own, of_library


def table(texts):
    own, of_library = own_names(texts)
    to = {}
    for name in sorted(own - of_library):
        new = snake(name)
        if new != name:
            to[name] = new
    taken = set(own) | {new for name, new in to.items() if "-" not in name}
    for name in list(to):
        if "-" in name and to[name] in taken:
            to[name] += "_lem"
    for name, new in OTHERS.items():
        if name in own:
            to[name] = new
    return to


def code_spans(text, path):
    """The text cut into (is it code, part): comments and strings are not."""
    mark = "--" if path.endswith(".antt") else "//"
    at = 0
    for m in re.finditer(rf'"(?:\\.|[^"\\\n])*"|(?<!\S){mark}[^\n]*', text):
        yield True, text[at : m.start()]
        yield False, m[0]
        at = m.end()
    yield True, text[at:]


def turned(text, path, to):
    def word(m):
        return to.get(m[0], m[0])

    def in_prose(part):
        if part.startswith('"'):
            return part
        part = re.sub(r"`[^`\n]*`", lambda q: TOKEN.sub(word, q[0]), part)
        return TOKEN.sub(lambda m: to[m[0]] if m[0] in to and "-" not in m[0] else m[0], part)

    return "".join(TOKEN.sub(word, part) if code else in_prose(part) for code, part in code_spans(text, path))


def meetings(texts, to):
    for path, text in texts.items():
        olds = collections.defaultdict(set)
        for code, part in code_spans(text, path):
            if code:
                for t in TOKEN.findall(part):
                    olds[to.get(t, t)].add(t)
        for new, names in olds.items():
            if len(names) > 1:
                yield f"meets: {path}: {', '.join(sorted(names))} -> {new}"


def main(root):
    texts = {p: open(p, encoding="utf-8").read() for p in files(root, (".antt", ".rt"))}
    to = table(texts)
    met = list(meetings(texts, to))
    print("\n".join(met))
    n = 0
    for path, text in texts.items():
        new = turned(text, path, to)
        if new != text:
            n += 1
            open(path, "w", encoding="utf-8").write(new)
    for folder in ("docs", "."):
        for name in sorted(os.listdir(os.path.join(root, folder))):
            path = os.path.join(root, folder, name)
            if name.endswith(".md"):
                text = open(path, encoding="utf-8").read()
                new = re.sub(r"`[^`\n]*`", lambda q: TOKEN.sub(lambda m: to.get(m[0], m[0]), q[0]), text)
                if new != text:
                    open(path, "w", encoding="utf-8").write(new)
    print(f"respell: {len(to)} names, {n} files")
    return 0


if __name__ == "__main__":
    folders = [a for a in sys.argv[1:] if not a.startswith("-")]
    raise SystemExit(main(folders[0] if folders else "."))
