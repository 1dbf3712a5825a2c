#!/usr/bin/env python3
"""Counts the places in crates/*/src where code may still read like an older Rattle.

    tools/old_forms.py COMMIT          the counts at that commit, a line for each point, and the groups of functions of one shape
    tools/old_forms.py COMMIT POINT    the places of that point (1 to 8)
    tools/old_forms.py COMMIT shapes   functions whose bodies are alike but for names and literals, a line for each group

What each point looks for stands in docs/DESIGN-PASS.md. A line that is found is a place to look at, no more: whether it stays, and
why, is for a person to say.
"""
import re
import subprocess
import sys

POINTS = {
    1: r"(None|Err\(_\)) => (Err\(|None|Some\(None\)|true|false|0,|\(None, s\)|\(false, s\)|Ok\(\(\)\)|Notice)"
       r"|Some\(_\) => |let (Some|Ok)\(.*\) = .* else \{|Err\((why|fault|e)\) => Err\("
       r"|\((u64|Decimal), bool\)|Option<\(bool, u32\)>|number: u8|code: u16|fn meaning"
       r"|^    (tries|left): u(8|16),|fetch_due: bool,$|fn (set|put_yes)\b",
    2: r"fn \w+_line\(|fn read_(nature|detail|quantity|isin|price|parties|rebate|brokerage|charges|rate|three|u8|u16)\("
       r"|fn take_(traded|settlement|mark|interest|number)\(|fn optional_\w+\(|fn \w+_there\(|fn \w+_(fits|exists)\("
       r"|fn layer_name|fn meaning|struct Part\b|const NOT_OF_THE_NOTATION|fn (leading_digits|before_slash)\("
       r"|fn (opened|closed|open_session|close_session)\(|fn set_(member|circle)\(|fn (keep|look|copy|taken)\(&"
       r"|fn (stands|stand|small|within)\(|fn refusal\(|fn log_o|fn accept\(|fn write_(amount|discount|digits)\(|-> u8$",
    3: r"for \w+ in (\(?(0|at|start)\.\.|[\w.]+\.len\(\)\.\.)|for \(i, |while |let mut (value|taken|end|start|last|count)\b",
    4: r"fn \w+_name\(|fn meaning|fn (number_of|letters_of|side_of|place_of|kind_of|mark_of|basis_of|listed|fault_of|code|from_code|byte"
       r"|refusal)\(|fn (tell_date|hundredths|thousandths|sign_of|tell)\(|copy_from_slice|derive\(Clone, Copy\)\]"
       r"|last_digit\(|== b'B' &&|\.0 == |\[(s|code)\[0\]|\[65, ",
    6: r"\[(u8|Option<u16>|u64); \d\d+\]|^    len: usize|^    (lens|places|used): |^    at: usize|\[0u8; |\[0; 3?\d\d?\]|Vec<u8>",
    7: r"match (kind|field|name|turn\.request|self\.task|operation\.task|word)\b|Box<dyn|: fn\(",
}


def git(*words):
    return subprocess.run(["git", *words], capture_output=True, text=True, check=True).stdout


def grep(commit, pattern):
    done = subprocess.run(["git", "grep", "-nP", pattern, commit, "--", "crates/*/src/*.rt"], capture_output=True, text=True)
    return [line.split(":", 1)[1] for line in done.stdout.splitlines()]


def facts(commit):
    """Clauses that stand word for word in the contracts of three or more functions."""
    clauses = {}
    for path in git("ls-tree", "-r", "--name-only", commit, "crates").splitlines():
        if not re.match(r"crates/\w+/src/\w+\.rt$", path):
            continue
        name = "?"
        for line in git("show", f"{commit}:{path}").splitlines():
            found = re.match(r"\s*(?:pub(?:\(crate\))? )?fn (\w+)", line)
            if found:
                name = found.group(1)
            found = re.match(r"\s*(?:requires|ensures)\s*\w*\s*\{ (.*) \}$", line)
            if found:
                clauses.setdefault(found.group(1), set()).add(f"{path}:{name}")
    return [f"{len(at)} {text}   {', '.join(sorted(at))}" for text, at in sorted(clauses.items()) if len(at) > 2]


WORDS = {"if", "else", "match", "for", "in", "let", "return", "mut", "self", "Some", "None", "Ok", "Err", "true", "false", "as", "ref"}


def shapes(commit, least=30):
    """Functions of at least so many tokens whose bodies are alike but for names and literals, in groups."""
    groups = {}
    for path in git("ls-tree", "-r", "--name-only", commit, "crates").splitlines():
        if not re.match(r"crates/\w+/src/\w+\.rt$", path):
            continue
        text = re.sub(r"//[^\n]*", "", git("show", f"{commit}:{path}"))
        text = re.sub(r"^\s*(requires|ensures)\*?\s*\w*\s*\{.*\}$", "", text, flags=re.M)
        for found in re.finditer(r"fn (\w+)[^{;]*\{", text):
            deep, at = 1, found.end()
            while at < len(text) and deep:
                deep += {"{": 1, "}": -1}.get(text[at], 0)
                at += 1
            tokens = re.findall(r'b?"[^"]*"|b?\'[^\']*\'|\w+|[^\w\s]', text[found.end():at - 1])
            if len(tokens) < least:
                continue
            shape = " ".join(t if t in WORDS or not re.match(r"\w|\"|\'", t) else "_" for t in tokens)
            groups.setdefault(shape, []).append(f"{path}:{found.group(1)}")
    return [", ".join(group) for group in groups.values() if len(group) > 1]


def proofs(commit):
    return [p for p in git("ls-tree", "-r", "--name-only", commit, "crates").splitlines() if p.endswith("/Answers.antt")]


def places(commit, point):
    if point == "shapes":
        return shapes(commit)
    point = int(point)
    if point == 5:
        return facts(commit)
    if point == 8:
        return proofs(commit)
    return grep(commit, POINTS[point])


def main():
    if len(sys.argv) not in (2, 3):
        print(__doc__)
        return 2
    if len(sys.argv) == 3:
        print("\n".join(places(sys.argv[1], sys.argv[2])))
        return 0
    for point in [*range(1, 9), "shapes"]:
        print(point, len(places(sys.argv[1], point)))
    return 0


if __name__ == "__main__":
    sys.exit(main())
