#!/usr/bin/env python3
"""Lists the statements of proofs that stand twice, but for the names of bound variables, and the names of specs that stand for
two things.

Run it at the top of the repository. It reads `crates/*/proofs` and `crates/*/specs`, changes nothing, and is no part of `rt ci`.
Its exit status is 1 where it finds one. The answers in proofs (Answers.antt) are left out: their statements are the goals' names.
"""
import pathlib
import re
import sys

HEAD = re.compile(r"(?:pub |private |opaque |unfoldable )*([^\s:(){}-][^\s:(){}]*) : (.*)")
NAME = re.compile(r"(?:abbrev pub|unfoldable pub|opaque pub|pub record|pub data|pub) ([^\s:(){}]+)")
TOKEN = re.compile(r"[(){}\[\],;]|[^\s(){}\[\],;]+")
SHORTEST = 30  # statements below this length say nothing that is worth sharing


def statements(path):
    """Each top-level statement of a file, with its name."""
    lines = path.read_text().split("\n")
    at = 0
    while at < len(lines):
        head = HEAD.match(lines[at])
        at += 1
        if not head or head.group(1) in ("use", "module", "record", "data", "abbrev"):
            continue
        text = [head.group(2)]
        while at < len(lines) and lines[at].startswith(" "):
            text.append(lines[at].strip())
            at += 1
        yield head.group(1), " ".join(" ".join(text).split())


def bound_at(tokens, at):
    """The names that the bracket at that place binds, as `(x y : T)` does."""
    names = []
    for token in tokens[at + 1 :]:
        if token == ":":
            return names
        if token in "(){}[],;=":
            return []
        names.append(token)
    return []


def renamed(text):
    """The statement with its bound variables numbered. Each is bound up to the end of the bracket around its binder."""
    tokens = TOKEN.findall(text)
    scopes = [{}]  # for each open bracket the numbers of the names bound there, the innermost last
    brought = []  # for each open bracket the names that it binds behind itself
    bound = 0
    lambda_at = 0  # how many scopes there are where a λ names its variables; 0 behind its dot
    out = []
    for at, token in enumerate(tokens):
        head, dot, field = token.partition(".")
        if token in "({[":
            names = bound_at(tokens, at)
            brought.append({name: f"§{bound + i}" for i, name in enumerate(names)})
            bound += len(names)
            scopes.append({**scopes[-1], **brought[-1]})
        elif token in ")}]":
            scopes.pop()
            scopes[-1].update(brought.pop())
        elif token == "λ":
            lambda_at = len(scopes)
        elif lambda_at == len(scopes):
            if head:
                scopes[-1][head] = f"§{bound}"
                bound += 1
            if dot:
                lambda_at = 0
        out.append(scopes[-1].get(head, head) + dot + field)
    return " ".join(out)


def files(folder):
    found = sorted(pathlib.Path("crates").glob(f"*/{folder}/**/*.antt"))
    return [path for path in found if folder != "proofs" or path.name != "Answers.antt"]


def main():
    proved, named = {}, {}
    for path in files("proofs"):
        for name, text in statements(path):
            if len(text) > SHORTEST:
                proved.setdefault(renamed(text), []).append(f"{path}: {name}")
    for path in files("specs"):
        for line in path.read_text().split("\n"):
            name = NAME.match(line)
            if name and name.group(1) not in ("mod", "use"):
                named.setdefault(name.group(1), set()).add(str(path))
    twice = [places for places in proved.values() if len(places) > 1]
    double = {name: sorted(places) for name, places in named.items() if len(places) > 1}
    for places in sorted(twice):
        print("stands twice: " + " = ".join(places))
    for name, places in sorted(double.items()):
        print(f"two things named {name}: " + ", ".join(places))
    print(f"{len(twice)} statements twice, {len(double)} names for two things")
    return 1 if twice or double else 0


if __name__ == "__main__":
    sys.exit(main())
