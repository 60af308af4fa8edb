#!/usr/bin/env python3
"""Brings the repository's own definitions and lemmas to snake case, after port.py.

    python3 tools/respell.py COMMIT

COMMIT is the one that port.py ran on: names that port.py made alike are told apart by its text. A definition in camel case and a
lemma with dashes that would get one name keep two: the lemma gets `_lem`, a constructor or field `is_`.
"""

import collections
import glob
import os
import re
import subprocess
import sys

DECLARED = re.compile(r'^\s*(?:(?:unfoldable|abbrev|pub)\s+)*([^\s(){}.;,@"«»:=]+)(?:\s+[{(][^=]*?[)}])*\s+:\s')
TYPE = re.compile(r"^\s*(?:abbrev |unfoldable |pub )*(record|data) ([^\s(){}:]+)")
TOKEN = re.compile(r'--[^\n]*|"(?:[^"\\\n]|\\.)*"|[^\s(){}.;,@"«»]+|[\s(){}.;,@"«»]')
RUST = re.compile(r"//[^\n]*|b?\"(?:[^\"\\]|\\.)*\"|b?'(?:[^'\\\n]|\\.)'|[^\s(){}.;,@\"«»\[\]&!*<>:?|]+|[\s\S]")
# what both this repository and the standard library declare
KEPT = {"and-true"}
# lemmas that are named as an operation of the standard library
LEMMAS = {"bit-and", "bit-or"}


def snake(name):
    name = name.replace("-", "_")
    if re.match(r"[a-z]", name):
        name = re.sub(r"([a-z0-9])([A-Z])(?=[a-z0-9_'′]|$)", lambda m: m[1] + "_" + m[2].lower(), name)
    return name.replace("′", "'")


def is_lemma_file(path):
    return "/specs/" in path or ("/proofs/" in path and path.count("/") == 3)


def declared(text):
    """The names that a file declares, each with whether it is a constructor or a field."""
    names, inside = {}, False
    for line in text.split("\n"):
        kind = TYPE.match(line)
        if kind:
            names.setdefault(kind[2], False)
            inside = True
            continue
        if line and not line[0].isspace():
            inside = False
        found = DECLARED.match(line)
        if found and not line.strip().startswith("--") and found[1] not in ("use", "module"):
            names[found[1]] = inside or names.get(found[1], False)
    return names


def show(commit, path):
    run = subprocess.run(["git", "show", f"{commit}:{path}"], capture_output=True, text=True)
    return run.stdout if run.returncode == 0 else None


def all_before(commit):
    """The files of the crates before port.py ran."""
    names = subprocess.run(["git", "ls-tree", "-r", "--name-only", commit, "crates"], capture_output=True, text=True, check=True)
    return {path: show(commit, path) for path in names.stdout.split("\n") if path.endswith((".antt", ".rt"))}


def table(texts):
    """Each declared name with its new spelling."""
    names = {}
    for path, text in texts.items():
        if path.endswith(".antt") and is_lemma_file(path):
            for name, part in declared(text).items():
                names[name] = names.get(name, False) or part
    groups = collections.defaultdict(list)
    for name in names:
        groups[snake(name)].append(name)
    new = {}
    for spelled, group in groups.items():
        for name in group:
            if name in KEPT or not re.fullmatch(r"[A-Za-z][A-Za-z0-9_'′\-]*", name):
                continue
            if name in LEMMAS or (len(group) > 1 and "-" in name):
                new[name] = ("is_" + spelled) if names[name] else spelled + "_lem"
            else:
                new[name] = spelled
    return new


def main():
    before = all_before(sys.argv[1])
    new = table(before)
    # What port.py made of a name is that name, or its spelling with underscores for dashes or for humps.
    turned = {}
    now = {}
    for path in glob.glob("crates/**/*.antt", recursive=True):
        if is_lemma_file(path):
            now.update(declared(open(path, encoding="utf-8").read()))
    by_snake = collections.defaultdict(set)
    for name, spelled in new.items():
        by_snake[snake(name)].add(spelled)
    for name in now:
        if name in new:
            turned[name] = new[name]
        elif len(by_snake[snake(name)]) == 1:
            turned[name] = next(iter(by_snake[snake(name)]))
    # Names that were two and are one now: the text before tells which one is meant, place by place.
    alike = {}
    for name, spelled in new.items():
        alike.setdefault(snake(name), {})[name] = spelled
    alike = {spelled: group for spelled, group in alike.items() if len(group) > 1}

    def places(text, spelled, pattern):
        group = alike[spelled]
        return [group.get(t, t) for t in pattern.findall(text) if t in group or t == spelled]

    for path in sorted(glob.glob("crates/**/*.antt", recursive=True) + glob.glob("crates/*/src/**/*.rt", recursive=True)):
        text = open(path, encoding="utf-8").read()
        pattern = TOKEN if path.endswith(".antt") else RUST
        old = before.get(path)
        queues = {}

        def turn(token):
            if token.startswith(("--", "//")):
                return re.sub(r"`([^`\s]+)`", lambda m: "`" + ".".join(turned.get(p, p) for p in m[1].split(".")) + "`", token)
            if token.startswith(('"', 'b"', "'", "b'")):
                return token
            key = snake(token)
            if path.endswith(".antt") and key in alike and old is not None and (token == key or token in alike[key]):
                if key not in queues:
                    queues[key] = collections.deque(places(old, key, pattern))
                    count = sum(1 for t in pattern.findall(text) if t == key or t in alike[key])
                    if count != len(queues[key]):
                        print(f"look: {path}: {key}: {count} places, {len(queues[key])} before")
                if queues[key]:
                    return queues[key].popleft()
            return turned.get(token, token)

        made = "".join(turn(token) for token in pattern.findall(text))
        if made != text:
            open(path, "w", encoding="utf-8").write(made)
    print(f"respell: {sum(1 for a, b in turned.items() if a != b)} names")


if __name__ == "__main__":
    main()
