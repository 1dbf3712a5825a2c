#!/usr/bin/env python3
"""Brings the repository's own definitions, lemmas, record fields and constructors to one spelling.

usage: python3 tools/respell.py          at the top of the repository: rewrites the files in place
       python3 tools/respell.py --list   prints each name with its new spelling, and the names that would fall together; writes nothing

Words are in snake case: `isDigit` becomes `is_digit` and `value-more` becomes `value_more`. A fact keeps its capital, as a type does.
A name is one that a file of specs/ or proofs/ defines; the names of goals, which come from src/, and the library's names stay.
In src/ only contracts and ghost items name them. Strings stay, and in comments only names that no English word could be change.
"""
import collections
import glob
import os
import re
import sys

NAME = r"[A-Za-z][\w'\-]*"
DEFINES = re.compile(rf"^ *((?:(?:abbrev|unfoldable|pub|record|data|ruleset)\s+)*)({NAME})\s*(?:\([^)]*\)\s*|\{{[^}}]*\}}\s*)*:\s*(.*)")
OPENS = re.compile(rf"^(?:(?:pub|abbrev|unfoldable)\s+)*(record|data)\s+({NAME})")
MEMBER = re.compile(rf"^  (?:pub )?((?:{NAME})(?:\s+{NAME})*)\s*:")
TOKEN = re.compile(rf"{NAME}")

# names that would fall together with another, and what they are called in their place
APART = {
    "for-line": "for_line_lem",
    "front-right": "front_right_lem",
    "message-of": "message_of_lem",
    "range-written": "range_written_lem",
    "with-contents": "with_contents_lem",
    "value_after": "value_after_lem",
    "valueDate": "date_of_settlement",
    "fetch-due": "fetch_is_due",
}


def antt():
    return sorted(glob.glob("crates/*/specs/**/*.antt", recursive=True) + glob.glob("crates/*/proofs/**/*.antt", recursive=True))


def snake(name):
    if name in APART:
        return APART[name]
    if name[0].isupper():
        return name.replace("-", "_")
    name = re.sub(r"([a-z])([A-Z])", r"\1_\2", name.replace("-", "_"))
    return name.lower()


def goals(text):
    """The names in a proof file that answer a goal: they come from src/ and stay."""
    return set(re.findall(rf"^(?:(?:abbrev|unfoldable|pub)\s+)*({NAME})\s*:\s*goal\.", text, re.M))


def defined(files):
    own, members = collections.defaultdict(set), collections.defaultdict(set)
    for f in files:
        inside = None
        for line in open(f, encoding="utf-8"):
            if line.startswith("use "):
                continue
            m = OPENS.match(line)
            if m:
                inside = m.group(2)
                own[inside].add(f)
                continue
            if line.strip() and not line.startswith(" "):
                inside = None
            if inside:
                m = MEMBER.match(line)
                if m:
                    for n in m.group(1).split():
                        members[n].add(f)
                continue
            m = DEFINES.match(line)
            if m and not m.group(3).startswith("goal."):
                own[m.group(2)].add(f)
    return own, members


def changes(names):
    return {n: snake(n) for n in names if snake(n) != n}


def comment_at(line, sign):
    """Where a comment begins that is not in a string."""
    quoted = False
    for i, c in enumerate(line):
        if c == '"' and (i == 0 or line[i - 1] != "\\"):
            quoted = not quoted
        elif not quoted and line.startswith(sign, i):
            return i
    return len(line)


def turn_line(line, sign, own, members, keep):
    cut = comment_at(line, sign)
    code, note = line[:cut], line[cut:]
    out, quoted = [], False
    for part in re.split(r'((?<!\\)")', code):
        if part == '"':
            quoted = not quoted
            out.append(part)
        elif quoted:
            out.append(part)
        else:
            out.append(turn_words(part, own, members, keep))
    note = TOKEN.sub(lambda m: own.get(m.group(0), m.group(0)) if "-" not in m.group(0) else m.group(0), note)
    return "".join(out) + note


def turn_words(part, own, members, keep):
    def one(m):
        w, before = m.group(0), part[: m.start()]
        if before.endswith("."):
            if re.search(r"(?:goal|Goals|Given)\.$", before):
                return w
            return members.get(w, w)
        if w in keep:
            return w
        return own.get(w, members.get(w, w))

    return TOKEN.sub(one, part)


def turn(path, sign, own, members, keep):
    old = open(path, encoding="utf-8").read()
    new = "\n".join(turn_line(l, sign, own, members, keep) for l in old.split("\n"))
    if new != old:
        open(path, "w", encoding="utf-8").write(new)
        return 1
    return 0


def turn_page(path, names, known):
    """Names in a page stand between back quotes; some of them have the new spelling in the files already."""
    if not os.path.exists(path):
        return 0
    old = open(path, encoding="utf-8").read()

    def one(w):
        n = w.group(0)
        return names.get(n, snake(n) if n not in known and snake(n) in known else n)

    new = re.sub(r"`[^`\n]+`", lambda m: TOKEN.sub(one, m.group(0)), old)
    if new != old:
        open(path, "w", encoding="utf-8").write(new)
        return 1
    return 0


def together(files, own, members):
    """Names that would be one with another after the change, with a file where both are read."""
    seen = {}
    for old, new in sorted({**own, **members}.items()):
        if new in seen and seen[new] != old:
            yield old, seen[new], "both become " + new
        seen[new] = old
    for f in files:
        text = open(f, encoding="utf-8").read()
        words = set(TOKEN.findall(re.sub(r"--.*", "", text)))
        for old in words & set(own):
            if own[old] in words:
                yield old, own[old], f
    return


def main(argv):
    os.chdir(os.path.join(os.path.dirname(os.path.realpath(__file__)), "..") if not argv or argv[0] != "--here" else ".")
    files = antt()
    names, fields = defined(files)
    own, members = changes(names), changes(fields)
    clashes = sorted(set(together(files, own, members)))
    if argv and argv[0] == "--list":
        for old, new in sorted({**own, **members}.items()):
            print(f"{old} {new}")
        for c in clashes:
            print("TOGETHER", *c)
        return 0
    if not any(old not in APART for old in own):
        print("respell: every name has the new spelling already")
        return 0
    n = 0
    for f in files:
        keep = goals(open(f, encoding="utf-8").read()) if "/proofs/" in f else set()
        n += turn(f, "--", own, members, keep)
    for f in sorted(glob.glob("crates/*/src/**/*.rt", recursive=True) + glob.glob("crates/*/must-fail/*.edit")):
        n += turn(f, "//", own, members, set())
    for f in ["README.md", *sorted(glob.glob("docs/*.md"))]:
        n += turn_page(f, {**members, **own}, set(names) | set(fields))
    print(f"respell: {len(own) + len(members)} names, {n} files")
    return 0


if __name__ == "__main__":
    sys.exit(main(sys.argv[1:]))
