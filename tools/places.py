#!/usr/bin/env python3
"""Lists the places in crates/*/src that docs/DESIGN-PASS.md counts: tools/places.py [FOLDER] [POINT].

Files of tests are left out. Points 1, 3, 4, 6 and 7 go by the lines that a pattern finds; point 2 by functions whose texts are the same but
for names of types, constants and numbers; point 5 by clauses that stand in three or more functions and by neighbouring parameters that do."""
import collections
import pathlib
import re
import sys

FOLDER = pathlib.Path(sys.argv[1] if len(sys.argv) > 1 else ".")
ONLY = sys.argv[2] if len(sys.argv) > 2 else None
TESTS = {"tests.rt", "zone_tests.rt", "suspension.rt"}
FILES = sorted(f for f in (FOLDER / "crates").glob("*/src/**/*.rt") if f.name not in TESTS)

# A pattern is sought in each line with the line after it, joined by a space, outside comments.
PATTERNS = {
    "1 a number for a kind or a refusal, made by a function": r"fn (number|numbered|kind|refusal_number)\((&self|number: u64|refusal)",
    "1 a number for a family or a service": r"\b(family|service): u64",
    "1 an arm for None or Err that a method or ? writes": r"^(None => (0|false|true|None|b\"\"|unreachable|\[0; |Point \{|high_kind)|Some\(_\) => |Err\(_\) => (unreachable|true|false|None|Err)|Err\(refusal\) => (Err|refusal\.number))",
    "1 a let or if for None or Err that a method or ? writes": r"^let Some\([a-z_]+\) = .* else \{ return (Err|None|0)|^let None = |^(if let|let) Some\(_\)",
    "1 a stage told by a flag": r"^if !self\.is_open\(\)",
    "3 a loop over the numbers of indices": r"^for [a-z_]+ in [\w.]+\.\.",
    "3 a loop that counts beside its items": r"^for \(\w+, \w+\) in .*\.enumerate\(\)|^number \+= 1",
    "3 a loop over items that a method does": r"^for \w+ in \w+ \{ (if .*|let None = .*)$",
    "4 a conversion written by hand": r"fn (number|numbered)\((&self|number: u64)|^impl.* From<.*> for (Failure|Fault) ",
    "4 printing written by hand": r"println!\(rt; \"(\{|total \{).*\{|^impl fmt::Display for Failure",
    "6 a buffer with a length, or an arena": r"^(pub\(crate\) )?count: usize,|^pool: Vec",
    "6 parallel arrays": r"^(pub )?\w+: \[(?!0|None|false)[^;]+; ([A-Z]\w*)\], (pub )?\w+: \[[^;]+; \2\],",
    "6 a list searched by hand": r"fn find\(|fn find_word\(",
    "7 a switch on which step to run": r"match (index|word) \{|^fn step\(|BuiltIn::Running => ",
}


def functions(text):
    """The name, head and body of each function."""
    for m in re.finditer(r"^( *)(?:pub(?:\([a-z]+\))? )?(?:const )?fn (\w+)", text, re.M):
        indent = m.group(1)
        brace = re.compile(r"^" + indent + r"\{|\{$|\{\}$|;$", re.M).search(text, m.end())
        if not brace:
            continue
        end = re.compile(r"^" + indent + r"\}", re.M).search(text, brace.end())
        bare = brace.group() in (";", "{}") or not end
        yield m.group(2), text[m.start():brace.start()], "" if bare else text[brace.start():end.end()]


KEYWORDS = set("as break else false for if in let loop match mut ref return self true while".split())


def shape(body):
    """The text without comments, with types, constants and numbers as N, and names of values by the order in which they come."""
    body = re.sub(r"//.*", "", body)
    body = re.sub(r"\b[A-Z]\w*(::[A-Z]\w*)*\b|\b\d[\d_]*\b", "N", body)
    names = {}

    def numbered(m):
        word = m.group()
        return word if word in KEYWORDS else names.setdefault(word, f"v{len(names)}")

    body = re.sub(r"(?<![.\w])[a-z_]\w*\b(?!\s*(\(|::|!))", numbered, body)
    return re.sub(r"\s+", "", body)


def show(title, places):
    if ONLY and not title.startswith(ONLY):
        return
    print(f"{title}: {len(places)}")
    for place in places:
        print(f"    {place}")


def main():
    texts = {f: f.read_text() for f in FILES}
    for title, pattern in PATTERNS.items():
        found = []
        for f, text in texts.items():
            lines = [line.strip() for line in text.splitlines()] + [""]
            for n, (line, after) in enumerate(zip(lines, lines[1:]), 1):
                if not line.startswith("//") and re.search(pattern, f"{line} {after}") and not re.search(pattern, after):
                    found.append(f"{f.relative_to(FOLDER)}:{n}: {line[:100]}")
        show(title, found)
    shapes, clauses, pairs = (collections.defaultdict(list) for _ in range(3))
    for f, text in texts.items():
        for name, head, body in functions(text):
            place = f"{f.relative_to(FOLDER)}:{name}"
            if len(shape(body)) > 7:
                shapes[shape(body)].append(place)
            for clause in re.findall(r"(?:ensures|requires)(?: \w+)? \{ (.*) \}$", head, re.M):
                clauses[clause].append(place)
            names = re.findall(r"(\w+: [^,()]+)[,)]", head.split("ensures")[0].split("requires")[0])
            for pair in zip(names, names[1:]):
                pairs[", ".join(pair)].append(place)
    twins = [", ".join(v) for v in shapes.values() if len(v) > 1]
    show("2 functions of one text", twins)
    show("5 a clause in three or more functions", [f"{k}: {', '.join(v)}" for k, v in clauses.items() if len(v) > 2])
    show("5 neighbouring parameters of three or more functions", [f"{k}: {', '.join(v)}" for k, v in pairs.items() if len(v) > 2])


main()
