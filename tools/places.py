#!/usr/bin/env python3
"""Counts the places in crates/*/src that older forms leave: python3 tools/places.py COMMIT [-v].

Each line is a point of docs/DESIGN-PASS.md, how many places it has at that commit and, with -v, where they are. The counts are by form, so a
place that is counted may well be as it should be; the page says which.
"""
import collections
import difflib
import re
import subprocess
import sys


def git(*args):
    return subprocess.run(["git", *args], capture_output=True, text=True, check=True).stdout


def sources(commit):
    for name in git("ls-tree", "-r", "--name-only", commit).split():
        if re.match(r"crates/[^/]+/src/.*\.rt$", name):
            yield name, git("show", f"{commit}:{name}")


def lines_of(text, pattern):
    for number, line in enumerate(text.splitlines(), 1):
        if re.search(pattern, line) and not line.lstrip().startswith("//"):
            yield number, line.strip()


def block(text, start):
    """The text from the brace at or after start to the one that closes it."""
    i = text.index("{", start)
    depth = 0
    for j in range(i, len(text)):
        depth += (text[j] == "{") - (text[j] == "}")
        if depth == 0:
            return text[i : j + 1]
    return text[i:]


def bare(text):
    """The code without comments and clauses."""
    text = re.sub(r"//.*", "", text)
    return re.sub(r"^\s*(requires|ensures|ghost)\b.*$", "", text, flags=re.M)


def functions(name, text):
    for m in re.finditer(r"^\s*(?:pub(?:\(crate\))? )?fn (\w+)", text, re.M):
        code = body_of(text[m.start(1) :])
        if code:
            yield name, text.count("\n", 0, m.start(1)) + 1, m.group(1), bare(code)


def body_of(text):
    """The function that begins the text, or nothing where it is only declared."""
    at = 0
    for line in text.splitlines(keepends=True):
        s = line.strip()
        if s.endswith(";"):
            return ""
        if s in ("{", "{}") or (s.endswith("{") and not re.match(r"(requires|ensures|where)\b", s)):
            k = at + line.rindex("{")
            return text[: k + len(block(text[k:], 0))]
        at += len(line)
    return ""


def point_1(name, text):
    yield from lines_of(text, r"fn \w+\(\) -> u8")
    yield from lines_of(text, r"\w+::\w+ => \d+,")
    yield from lines_of(text, r"Result<bool")
    for number, line in enumerate(text.splitlines(), 1):
        s = line.strip()
        if re.match(r"(Err\(_\)|Ok\(_\)|Ok\(\(\)\)|None|Some\(_\)|Err\(\w+\)) => ", s) or re.match(r"if let Err\(", s) or re.search(r"\.is_(err|ok)\(\) \{", s):
            yield number, s
    for m in re.finditer(r"^pub enum (\w+) \{\n((?:    \w+,\n){2})\}", text, re.M):
        yield text.count("\n", 0, m.start()) + 1, "enum " + m.group(1)


def point_3(name, text):
    for m in re.finditer(r"for (\w+) in [^{\n]*\.\.[^{\n]*\{", text):
        body = block(text, m.end() - 1)
        v = m.group(1)
        if re.search(rf"\[[^\]\n]*\b{v}\b[^\]\n]*\]|\b{v} \* |\* {v}\b|\b{v} / 64", body):
            yield text.count("\n", 0, m.start()) + 1, m.group(0)
    yield from lines_of(text, r"^\s*while ")


def point_4(name, text):
    yield from lines_of(text, r"fn (print_\w*|same|byte|word|byte_at|mark_of|letters_of|lowest|number)\(")
    yield from lines_of(text, r"from_(be|le)_bytes\(\[$|from_(be|le)_bytes\(\[\w+\[")


def point_6(name, text):
    for m in re.finditer(r"fn (\w+)(?:<[^>]*>)?\(([^{]*?)\)\s*(?:->|\n\s*(?:requires|ensures|\{))", text):
        if re.search(r"(words|bytes|file|tape|rest|work|layer|blocks|body|m|out): &(?:mut )?\[[\w:]+\],\s*\w+: (usize|u16)", m.group(2)):
            yield text.count("\n", 0, m.start()) + 1, m.group(1)
    yield from lines_of(text, r"let got = |&buffer\[\.\.")


def point_7(name, text):
    yield from lines_of(text, r"match (way|self\.due|call|rest\[|input\[)")


def point_5(commit, files):
    count = collections.Counter()
    for name, text in files:
        for m in re.finditer(r"^\s*requires(?: \w+)? \{ (.*) \}\s*$", text, re.M):
            count[(name.split("/")[1], m.group(1))] += 1
    for (crate, fact), n in sorted(count.items()):
        if n >= 3:
            yield f"crates/{crate}: {n} times {fact}"
    for name, text in files:
        for m in re.finditer(r"fn (\w+)(?:<[^>]*>)?\(([^{]*?)\)\s*(?:->|\n\s*(?:requires|ensures|\{))", text):
            n = len(re.findall(r"\w+: ", m.group(2)))
            if n >= 6:
                yield f"{name}:{text.count(chr(10), 0, m.start()) + 1}: {m.group(1)} has {n} parameters"


def point_2(files):
    bodies = []
    for name, text in files:
        for _, line, fn, code in functions(name, text):
            tokens = re.findall(r"\w+|[^\s\w]", code)
            if len(tokens) >= 45:
                bodies.append((name, line, fn, tokens))
    for i, a in enumerate(bodies):
        for b in bodies[i + 1 :]:
            if not 0.6 < len(a[3]) / len(b[3]) < 1.7:
                continue
            s = difflib.SequenceMatcher(None, a[3], b[3], autojunk=False)
            if s.quick_ratio() > 0.8 and s.ratio() > 0.8:
                yield f"{a[0]}:{a[1]}: {a[2]} and {b[0]}:{b[1]}: {b[2]}"


def main():
    commit = sys.argv[1]
    verbose = "-v" in sys.argv
    files = list(sources(commit))
    found = {}
    for point, rule in ((1, point_1), (3, point_3), (4, point_4), (6, point_6), (7, point_7)):
        found[point] = [f"{name}:{number}: {what}" for name, text in files for number, what in sorted(rule(name, text))]
    found[2] = list(point_2(files))
    found[5] = list(point_5(commit, files))
    answers = git("grep", "-hE", "^(abbrev )?pub [^ ]+ : goal[.]", commit, "--", "crates").count("\n")
    for point in sorted(found):
        print(f"point {point}: {len(found[point])}")
        if verbose:
            for place in found[point]:
                print("    " + place)
    print(f"point 8: {answers} answers and invariants written out")


main()
