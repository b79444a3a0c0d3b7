#!/usr/bin/env python3
"""Brings the repository's own definitions and lemmas to snake case, as the library's are. Run once, at the top, after the language's own script.

tools/snake_names.map has a line for each name: the old one, the new one, and 'd' where a file declares it. A name of the library is left as it is, and so is what
the prover makes of a function (the names of goals in a proof that walks the code). Functions, exported names, strings, inputs and outputs keep theirs.
"""
import os
import re
import sys

TOKEN = re.compile(r"[A-Za-z_][\w']*(?:-[\w']+)*")
# Lemmas named as one of the library's, in the file that states them.
LOCAL = {"crates/fits/proofs/Rowing.antt": {"or-false": "or_false"}}


def read_map(path):
    every, declared = {}, {}
    for line in open(path, encoding="utf-8"):
        words = line.split()
        every[words[0]] = words[1]
        if len(words) > 2:
            declared[words[0]] = words[1]
    return every, declared


def functions(top):
    found = set()
    for folder, _, names in os.walk(os.path.join(top, "crates")):
        for name in names:
            if name.endswith(".rt"):
                found |= set(re.findall(r"\bfn (\w+)", open(os.path.join(folder, name), encoding="utf-8").read()))
    return found


def renamed(text, names, spare=None):
    def one(m):
        if spare and spare(text, m):
            return m[0]
        return names.get(m[0], m[0])

    return TOKEN.sub(one, text)


def lemma_file(text, every, declared, more):
    every = every | more
    out = []
    for line in text.split("\n"):
        code, dashes, comment = line.partition("--")
        out.append(renamed(code, every) + dashes + renamed(comment, declared | more))
    return "\n".join(out)


def walk_file(text, declared, fns):
    def spare(text, m):
        return bool(re.search(r"\btie\.$", text[: m.start()])) or m[0].startswith(("invariant-loop", "decreases-loop", "Need-"))

    names = dict(declared)
    for m in TOKEN.finditer(text):
        if m[0].replace("-", "_") in fns and m[0] not in names and "-" in m[0]:
            names[m[0]] = m[0].replace("-", "_")
    return renamed(text, names, spare)


def source(text, declared):
    out = []
    for line in text.split("\n"):
        code, slashes, comment = line.partition("//")
        if code.count('"') % 2 == 1 or (code.count('"') and not re.search(r"requires|ensures|ghost", code)):
            out.append(line)
            continue
        out.append(renamed(code, declared) + slashes + renamed(comment, {a: b for a, b in declared.items() if "-" not in a}))
    return "\n".join(out)


def edit_file(text, declared):
    return "\n".join(line if line.startswith("#") else renamed(line, declared) for line in text.split("\n"))


def page(text, declared):
    return re.sub(r"`[^`\n]*`", lambda m: renamed(m[0], declared), text)


def main():
    top = os.getcwd()
    every, declared = read_map(os.path.join(os.path.dirname(os.path.realpath(__file__)), "snake_names.map"))
    fns = functions(top)
    for folder, inner, names in os.walk(top):
        inner[:] = [d for d in inner if d not in ("out", ".git", "target")]
        for name in names:
            path = os.path.join(folder, name)
            short = os.path.relpath(path, top)
            if name.endswith(".antt"):
                walk = name in ("Proof.antt", "Answers.antt", "Invariants.antt")
                turn = (lambda t: walk_file(t, declared, fns)) if walk else (lambda t: lemma_file(t, every, declared, LOCAL.get(short, {})))
            elif name.endswith(".rt"):
                turn = lambda t: source(t, declared)
            elif name.endswith(".edit"):
                turn = lambda t: edit_file(t, declared)
            elif name.endswith(".md") and not short.startswith("docs/PORT"):
                turn = lambda t: page(t, declared)
            else:
                continue
            old = open(path, encoding="utf-8").read()
            new = turn(old)
            if new != old:
                open(path, "w", encoding="utf-8").write(new)


if __name__ == "__main__":
    sys.exit(main())
