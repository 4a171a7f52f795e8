#!/usr/bin/env python3
"""What docs/DESIGN-PASS.md counts and no pattern finds: survey.py [COMMIT]   (without a commit: the files as they stand)
Twins: functions whose bodies differ in names and numbers alone. A body is cut into words and signs, comments and ghost code left out; names and
numbers are put as one sign; bodies of 12 signs and more are held up. Heads: functions whose parameters have all of some names."""
import collections, re, subprocess, sys

HEAD = re.compile(r"^[ ]*(?:pub )?(?:const )?(?:unsafe )?(?:extern \"C\" )?fn (\w+)", re.M)
TOGETHER = [["rows", "items"], ["flags", "a", "b"], ["nodes &mut", "contents &mut"], ["at", "count", "used"], ["at", "used", "to"],
            ["mark", "default|given"], ["pre", "b|bit"]]
KEEP = {"if", "else", "match", "for", "in", "while", "loop", "return", "let", "mut", "as", "fn", "break", "continue", "ref", "move"}


def git(*args):
    return subprocess.run(["git", *args], check=True, capture_output=True, text=True).stdout


def files(commit):
    if commit:
        names = git("ls-tree", "-r", "--name-only", commit, "crates").split()
    else:
        names = git("ls-files", "crates").split()
    for name in names:
        if re.fullmatch(r"crates/\w+/src/.*\.rt", name):
            yield name.split("/")[1], git("show", f"{commit}:{name}") if commit else open(name).read()


def closed(text, start, pair):
    """The text from an opening sign to the one that closes it."""
    depth = 0
    for j in range(start, len(text)):
        depth += (text[j] == pair[0]) - (text[j] == pair[1])
        if depth == 0:
            return text[start:j + 1]
    return ""


def body(text, start):
    """The braces of the body, which a head without `;` ends with."""
    text = re.sub(r"//[^\n]*", "", text[start:])
    text = re.sub(r"(requires|ensures|decreases|ghost \w+ =) \{[^\n]*\}", "", text)
    i = text.find("{")
    if i < 0 or (0 <= text.find(";") < i and "[" not in text[:i]):
        return ""
    return closed(text, i, "{}")


def form(code):
    signs = re.findall(r"[A-Za-z_]\w*|\d[\w]*|[^\s\w]", code)
    return tuple(s if s in KEEP or not re.match(r"\w", s) else "x" for s in signs)


def parameters(text, start):
    """The parentheses behind a function's name and its type parameters."""
    opening = text.find("(", start)
    if "<" in text[start:opening] and ">" not in text[start:opening]:
        opening = text.find(">(", start) + 1
    return closed(text, opening, "()")


def has(head, wanted):
    name, _, lent = wanted.partition(" ")
    return re.search(rf"\b(?:{name}): " + (r"&(?:'\w+ )?mut" if lent else ""), head)


def main():
    groups = collections.defaultdict(list)
    heads = []
    for crate, text in files(sys.argv[1] if len(sys.argv) > 1 else None):
        for head in HEAD.finditer(text):
            heads.append(parameters(text, head.end()))
            signs = form(body(text, head.start()))
            if len(signs) >= 12:
                groups[signs].append(f"{crate}::{head[1]}")
    twins = sorted(g for g in groups.values() if len(g) > 1)
    for g in twins:
        print(", ".join(g))
    print(len(twins), "groups,", sum(map(len, twins)), "functions of", len(heads))
    for names in TOGETHER:
        print(", ".join(names), sum(all(has(h, n) for n in names) for h in heads))


main()
