#!/usr/bin/env python3
"""Brings the names of goals and steps in proofs/F/ to today's spelling.

usage: python3 tools/respell_goals.py [NAME..]      at the top of the repository: the crates NAME, or all

A name of src/ keeps its spelling in the names that the toolchain makes (`copy_from_slice`, `each_of_the_class`), where an older
one wrote dashes throughout. A word of the toolchain's own is in snake case (`overflow_add-x`, `in_ok-x`).
"""
import glob
import os
import re
import subprocess
import sys

WORDS = ["overflow-add", "overflow-sub", "overflow-mul", "overflow-shl", "overflow-shr", "overflow-cast", "overflow-step", "overflow-neg", "nonzero-div", "nonzero-rem", "slice-bounds", "offset-bounds", "in-ok", "in-err", "in-default", "invariant-of", "range-from", "range-to", "type-inv"]
TOKEN = re.compile(r"[A-Za-z_◌][\w◌'\-·]*")
STD = None


def std_names():
    global STD
    if STD is None:
        kit = os.path.dirname(subprocess.run(["rt", "doc"], capture_output=True, text=True).stdout.strip())
        text = subprocess.run(["grep", "-rhoE", "--include=*.rt", r"\b(fn|ensures|requires) [a-z]+_[a-z_0-9]*", kit + "/rattle/core/src", kit + "/rattle/std_alloc/src", kit + "/rattle/std/src"], capture_output=True, text=True).stdout
        STD = {l.split()[1] for l in text.split("\n") if l}
    return STD


def names_of(crate):
    found = set()
    deps = {}
    for line in open("crates.txt"):
        if ":" in line and not line.startswith("#"):
            n, d = line.split("#")[0].split(":")
            deps[n.strip()] = d.split()
    todo, seen = [crate], set()
    while todo:
        c = todo.pop()
        if c in seen or not os.path.isdir("crates/" + c):
            continue
        seen.add(c)
        todo += deps.get(c, [])
        for f in glob.glob(f"crates/{c}/src/**/*.rt", recursive=True):
            text = re.sub(r"//.*", "", open(f, encoding="utf-8").read())
            text = re.sub(r"ghost use [^;]*;", "", text)
            found |= {w for w in re.findall(r"[A-Za-z]\w*", text) if "_" in w}
    return found


def turn_token(token, names):
    parts = token.replace("·", "-").split("-")
    out, i = [], 0
    while i < len(parts):
        for j in range(len(parts), i, -1):
            word = "_".join(parts[i:j])
            if j - i > 1 and ("-".join(parts[i:j]) in WORDS or word in names):
                out.append(word)
                i = j
                break
        else:
            out.append(parts[i])
            i += 1
    return "-".join(out)


def turn(path, names):
    text = open(path, encoding="utf-8").read()
    kept = set()
    for module, listed in re.findall(r"^\s*use ([^\s{]+)\.\{([^}]*)\}", text, re.M):
        if not re.search(r"\.(Goals|Given)$", module):
            kept |= {w.strip().split(" as ")[-1].strip() for w in listed.split(",")} | {w.strip().split(" as ")[0].strip() for w in listed.split(",")}
    lines = []
    for line in text.split("\n"):
        if line.startswith("use ") and not re.search(r"\.(Goals|Given)\b", line):
            lines.append(line)
            continue
        cut = line.find("--")
        code, note = (line, "") if cut < 0 else (line[:cut], line[cut:])
        lines.append(TOKEN.sub(lambda m: m.group(0) if m.group(0) in kept and not code[: m.start()].endswith(".") else turn_token(m.group(0), names), code) + note)
    new = "\n".join(lines)
    if new != text:
        open(path, "w", encoding="utf-8").write(new)
        return 1
    return 0


def main(argv):
    n = 0
    for crate in argv or sorted(os.listdir("crates")):
        names = names_of(crate) | std_names()
        for f in sorted(glob.glob(f"crates/{crate}/proofs/**/*.antt", recursive=True)):
            n += turn(f, names)
    print(f"respell_goals: {n} files")
    return 0


if __name__ == "__main__":
    sys.exit(main(sys.argv[1:]))
