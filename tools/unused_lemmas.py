#!/usr/bin/env python3
"""Lists the lemmas of crates/*/proofs/*.antt that nothing else in the repository cites.

    tools/unused_lemmas.py [CRATE ..]
"""
import glob
import os
import re
import sys

DECLARES = re.compile(
    r"^([ \t]*)(?:(?:abbrev|unfoldable|opaque) )?(?:pub )?(?:record |data |ruleset )?([^\s:(){}]+) (?:[({][^:]*:[^)}]*[)}] )*: ", re.M
)
EDGE = r"\w'\-+≢∷◌₀-₉"


def cited(name, text):
    return re.search(rf"(?<![{EDGE}]){re.escape(name)}(?![{EDGE}])", text) is not None


def without_itself(name, indent, text):
    """The file without the lines that declare the name or begin one of its clauses."""
    own = re.compile(re.escape(indent) + r"(?:(?:abbrev|unfoldable) )?(?:pub )?" + re.escape(name) + r"(\s|$)")
    return "\n".join(line for line in text.split("\n") if not own.match(line))


def main():
    crates = sys.argv[1:]
    files = glob.glob("crates/*/specs/*.antt") + glob.glob("crates/*/proofs/**/*.antt", recursive=True) + glob.glob("crates/*/src/*.rt")
    texts = {path: open(path).read() for path in files}
    for path in sorted(texts):
        if os.path.basename(os.path.dirname(path)) != "proofs" or crates and path.split("/")[1] not in crates:
            continue
        for indent, name in dict.fromkeys(DECLARES.findall(texts[path])):
            if name in ("abbrev", "pub", "use"):
                continue
            if cited(name, without_itself(name, indent, texts[path])):
                continue
            if not any(cited(name, text) for other, text in texts.items() if other != path):
                print(path, name)
    return 0


if __name__ == "__main__":
    sys.exit(main())
