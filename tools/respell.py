"""Spells this repository's own definitions, fields and lemmas as today's Rattle spells words: in snake case.

usage: python3 tools/respell.py TOP          the names that change, and those that fall together
       python3 tools/respell.py TOP --write  changes them in crates/, README.md and docs/

It was run once, right after port.py (docs/PORT.md). Types, functions of src/, strings and generated names keep their spelling.
"""

import os
import re
import sys

WORD = re.compile(r"[^\s(){}\[\].,;:\"`]+")
TOP = re.compile(r"^\s*(?:(?:pub|abbrev|unfoldable|record|data|ruleset|mutual)\s+)*([^\s(){}.,;:]+)(?:\s+\{[^}]*\})?\s*:(?:\s|$)")
FIELD = re.compile(r"^\s+(?:pub\s+)?([^\s(){}.,;:]+)\s*:(?:\s|$)")
# names that would fall together in one file: the definition keeps the plain name, a lemma on it is told by `_lem`, as std does it
OTHERWISE = {
    "arcIn": "arc_within", "headIn": "heads_in", "tailIn": "tails_in",
    "inTime": "path_in_time",
    "bit-or": "bit_or_lem", "bit-xor": "bit_xor_lem",
    "critical-at": "critical_at_lem",
    "entry-span": "entry_span_lem", "exit-span": "exit_span_lem", "link-span": "link_span_lem", "part-span": "part_span_lem",
    "inserted-at": "inserted_at_lem", "removed-at": "removed_at_lem",
    "load-refused": "load_refused_lem", "order-refused": "order_refused_lem",
    "no-link": "no_link_lem", "no-curve": "no_curve_lem",
    "slowest-at": "slowest_at_lem", "ticks-at": "ticks_at_lem",
    "under-rule": "under_rule_lem",
    "design-read": "design_read_lem", "link-read": "link_read_lem",
}
# a name of the library's, which a record of this repository has for a field too
KEPT = ("not-true",)
GENERATED = ("Proof.antt", "Answers.antt", "Invariants.antt")


def snake(name):
    """`noCurve` and `no-curve` are `no_curve`; a capital that is a word of its own (a board K, the rule A) stays."""
    name = name.replace("-", "_").replace("′", "'")
    name = re.sub(r"(?<=[a-z0-9])([A-Z])(?=[a-z])", lambda m: "_" + m.group(1).lower(), name)
    return re.sub(r"(?<=[a-z])([A-Z])", r"_\1", name)


def files(top, ends):
    for folder, dirs, names in os.walk(os.path.join(top, "crates")):
        dirs[:] = sorted(d for d in dirs if d != "out")
        for f in sorted(names):
            if f.endswith(ends):
                yield os.path.join(folder, f)


def read(path):
    with open(path, encoding="utf-8") as f:
        return f.read()


def declared(top):
    """Each name that a file of specs/ or proofs/ declares, with the files that do."""
    found = {}
    for path in files(top, ".antt"):
        if "/proofs/" in path and os.path.basename(path) in GENERATED:
            continue
        for line in read(path).split("\n"):
            m = None if line.startswith("--") else TOP.match(line) or FIELD.match(line)
            if m:
                found.setdefault(m.group(1), set()).add(os.path.relpath(path, top))
    return found


def foreign(top):
    """Names that files import from the library, which keep their spelling."""
    own = set(os.listdir(os.path.join(top, "crates")))
    found = {}
    for path in files(top, (".antt", ".rt")):
        for m in re.finditer(r"^\s*(?:pub |ghost )*use ([^\s{;]+?)\.\{([^}]*)\}", read(path), re.M):
            parts = m.group(1).split(".")
            if parts[0] != "Rattle" or parts[1] not in own:
                for word in m.group(2).split(","):
                    found.setdefault(word.split(" as ")[0].strip(), set()).add(os.path.relpath(path, top))
    return found


def respelled(text, path, renamed):
    """The text with its names renamed: in prose, that is pages and comments, those between backquotes alone; never in a string."""
    rename = lambda part: WORD.sub(lambda m: renamed.get(m.group(0), m.group(0)), part)
    quoted = lambda part: re.sub(r"`[^`\n]*`", lambda m: rename(m.group(0)), part)
    if path.endswith(".md"):
        return quoted(text)
    mark = "--" if path.endswith(".antt") else "//"
    lines = []
    for line in text.split("\n"):
        if line.lstrip().startswith((mark, "#")) and not line.lstrip().startswith("#["):
            lines.append(quoted(line))
        else:
            lines.append(re.sub(r'"[^"]*"|[^"]+', lambda m: m.group(0) if m.group(0)[0] == '"' else rename(m.group(0)), line))
    return "\n".join(lines)


def main():
    top = sys.argv[1]
    names = declared(top)
    renamed = {n: OTHERWISE.get(n, snake(n)) for n in names if n not in KEPT and (not n[0].isupper() or "-" in n)}
    renamed = {n: s for n, s in renamed.items() if n != s}
    taken = {}
    for path in files(top, (".antt", ".rt")):
        for word in set(WORD.findall(read(path))):
            taken.setdefault(word, set()).add(os.path.relpath(path, top))
    library = foreign(top)
    back = {}
    for n, s in renamed.items():
        back.setdefault(s, []).append(n)
    for s, olds in sorted(back.items()):
        if len(olds) > 1:
            print("fall together:", s, {n: sorted(names[n]) for n in olds})
        if s in names:
            print("is declared:", s, sorted(names[s]), {n: sorted(names[n]) for n in olds})
        elif s in taken:
            print("is a word:", s, sorted(taken[s])[:6], {n: sorted(names[n]) for n in olds})
    for n in sorted(renamed):
        if n in library:
            print("is the library's too:", n, sorted(library[n]), sorted(names[n]))
    print(len(renamed), "names")
    if "--write" not in sys.argv:
        return
    places = list(files(top, (".antt", ".rt", ".edit"))) + [os.path.join(top, "README.md")]
    places += [os.path.join(top, "docs", f) for f in sorted(os.listdir(os.path.join(top, "docs"))) if f.endswith(".md")]
    for path in places:
        old = read(path)
        new = respelled(old, path, renamed)
        if new != old:
            with open(path, "w", encoding="utf-8") as f:
                f.write(new)


main()
