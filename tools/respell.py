#!/usr/bin/env python3
"""Brings the repository's own names to today's spelling, after port.py: words in snake case, types and facts in camel case.

usage: python3 tools/respell.py        at the top of the repository, once

In the answers of a function it also writes the names that the check generates as it spells them now: names of the source keep their underscores.

Own names are those that a signature of specs/ or proofs/ gives, an alias of a `ghost use`, a field, and what a `let`, a `λ` or an argument binds.
Left alone are functions of src/, names brought in from the library, strings, and comments but for names in backquotes.
It prints each name that falls together with another one.
"""

import glob
import re
import sys

# A character of a name.
C = r"[^\s(){}\[\];,.:\"`λ|⟦⟧]"
NAME = re.compile(r"(?<!" + C + r")" + C + r"+")
SIGNED = re.compile(r"^\s*(?:unfoldable\s+|abbrev\s+|pub\s+|record\s+|data\s+|abstract\s+)*(" + C + r"+)((?:\s*[({][^:]*:.*)?\s*:\s.*)$")
OWN_USE = re.compile(r"use\s+Rattle\.(\w+)\.(?:specs|proofs)\.[\w.+]*?\.?\{([^}]*)\}")
ANY_USE = re.compile(r"^\s*(?:pub )?(?:ghost )?use\s+([^\s{]+?)\.?\{([^}]*)\}", re.M)


def texts():
    found = []
    for pattern in ("specs/**/*.antt", "proofs/**/*.antt", "src/**/*.rt", "must-fail/*.edit"):
        found += glob.glob("crates/*/" + pattern, recursive=True)
    return sorted(found)


def crates():
    return {path.split("/")[1] for path in glob.glob("crates/*/")}


def is_generated(path, signature):
    """Whether a signature of an answer file states a goal, whose name the check gives."""
    return signature.lstrip().startswith(": goal.")


def own_names(path, text):
    names = set()
    if path.endswith(".antt"):
        for line in text.splitlines():
            if line.lstrip().startswith("--"):
                continue
            m = SIGNED.match(line)
            if m and not is_generated(path, m.group(2)):
                names.add(m.group(1))
            for m in re.finditer(r"\blet\s+(" + C + r"+)\s*[:=]", line):
                names.add(m.group(1))
            for m in re.finditer(r"λ((?:\s*" + C + r"+)+)\.", line):
                names.update(m.group(1).split())
            for m in re.finditer(r"[({]((?:" + C + r"+\s+)+):\s", line):
                names.update(m.group(1).split())
    for m in re.finditer(r"\bas\s+(" + C + r"+)", text):
        if m.group(1) != "goal":
            names.add(m.group(1))
    return {n for n in names if re.search(r"[^\W_]-[^\W_]", n) and re.match(r"^['\w-]+$", n)}


def spelled(name):
    parts = name.split("-")
    if parts[0][:1].isupper():
        return "".join(p[:1].upper() + p[1:] for p in parts)
    return "_".join(parts)


def brought(text, ours):
    """The names that a file brings in from the library."""
    names = set()
    for m in ANY_USE.finditer(text):
        path = m.group(1).split(".")
        if len(path) > 1 and path[0] == "Rattle" and path[1] in ours:
            continue
        for item in m.group(2).split(","):
            names.add(item.split(" as ")[0].strip())
    return names


# How the check spells its own words in front of a name.
WORDS = [
    (r"^overflow-(add|sub|mul|shl|shr|cast|step)(?=-|$)", r"overflow_\1"),
    (r"^nonzero-(div|rem)(?=-|$)", r"nonzero_\1"),
    (r"^invariant-of(?=-|$)", "invariant_of"),
    (r"^from-residual(?=-|$)", "from_residual"),
    (r"^(slice|offset)-bounds(?=-|$)", r"\1_bounds"),
    (r"(?<![^\W_])([Ii])n-default(?=-|$)", r"\1n_default"),
    (r"(?<![^\W_])([Ii])n-(ok|err)(?=-|$)", r"\1n_\2"),
]


def source_names(files):
    """The names with an underscore that stand in sources, the longest first, each with its dashed form."""
    names = set()
    for path, text in files.items():
        if path.endswith(".rt"):
            names.update(n for n in re.findall(r"[A-Za-z]\w*", text) if "_" in n)
    return sorted(((n.replace("_", "-"), n) for n in names), key=lambda pair: -len(pair[0]))


def generated(name, sources):
    """A name of the check, as it is spelled now."""
    for form, new in WORDS:
        name = re.sub(form, new, name)
    for dashed, new in sources:
        if dashed in name:
            name = re.sub(r"(?<![\w])" + re.escape(dashed) + r"(?![\w])", new, name)
    return name


def respell(text, path, table, held, sources):
    answers = re.match(r"crates/\w+/proofs/.+/", path) is not None

    def one(m):
        name = m.group(0)
        if name in held or "-" not in name:
            return name
        if name in table:
            return table[name]
        return generated(name, sources) if answers else name

    mark = "--" if path.endswith(".antt") else "//"
    lines = []
    for line in text.split("\n"):
        if path.endswith(".edit") and line.startswith("file:"):
            lines.append(line)
            continue
        at = line.find(mark)
        while mark == "--" and at > 0 and not line[at - 1].isspace():
            at = line.find(mark, at + 2)
        code, note = (line, "") if at < 0 else (line[:at], line[at:])
        pieces = code.split('"')
        pieces[::2] = [NAME.sub(one, p) for p in pieces[::2]]
        quoted = note.split("`")
        quoted[1::2] = [NAME.sub(one, q) for q in quoted[1::2]]
        lines.append('"'.join(pieces) + "`".join(quoted))
    return "\n".join(lines)


def main():
    ours = crates()
    files = {}
    for path in texts():
        with open(path, encoding="utf-8") as f:
            files[path] = f.read()
    names = set()
    for path, text in files.items():
        names |= own_names(path, text)
    table = {n: spelled(n) for n in names}
    plain = {}
    for path, text in files.items():
        for m in NAME.finditer(text):
            plain.setdefault(m.group(0), path)
    for old, new in sorted(table.items()):
        if new in plain:
            print(f"falls together: {old} with {new} of {plain[new]}")
    sources = source_names(files)
    for path, text in files.items():
        new = respell(text, path, table, brought(text, ours), sources)
        if new != text:
            with open(path, "w", encoding="utf-8") as f:
                f.write(new)
    print(f"{len(table)} names respelled")


if __name__ == "__main__":
    sys.exit(main())
