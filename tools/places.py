#!/usr/bin/env python3
"""Candidates for docs/DESIGN-PASS.md: what in crates/*/src could be one of its eight points.

    tools/places.py [COMMIT]      of that commit; without one, of the files as they are

It lists lines; which of them are places of a point is read by eye, and the page says which.
"""
import collections
import re
import subprocess
import sys

NUMBER = r"(?:usize|u8|u16|u32|u64)"


def run(*words):
    return subprocess.run(words, check=True, capture_output=True, text=True).stdout


def sources(commit, ending):
    names = run("git", "ls-tree", "-r", "--name-only", commit) if commit else run("git", "ls-files")
    for name in names.split("\n"):
        if name.startswith("crates/") and name.endswith(ending):
            yield name, run("git", "show", f"{commit}:{name}") if commit else open(name).read()


def functions(text):
    """(line, head, clauses, body) of each function that has a body."""
    for found in re.finditer(r"^( *)(?:pub )?(?:extern \"C\" )?fn \w+", text, re.M):
        indent = found.group(1)
        end = re.search(rf"^{indent}\}}$", text[found.start():], re.M)
        whole = text[found.start():found.start() + end.end()] if end else ""
        opened = re.search(rf"^{indent}\{{$|\{{$", whole, re.M)
        if not opened:
            continue
        head = re.split(r"^\s*(?:requires|ensures)", whole[:opened.start()], maxsplit=1, flags=re.M)[0]
        clauses = re.findall(r"^\s*((?:requires|ensures).*)$", whole[:opened.start()], re.M)
        yield text.count("\n", 0, found.start()) + 1, " ".join(head.split()), clauses, whole[opened.start():]


def shape(body):
    """The body with names, numbers and spaces gone: twins have one shape."""
    body = re.sub(r"//.*", "", body)
    words = {"if", "else", "match", "while", "for", "in", "return", "let", "mut", "loop", "break"}
    body = re.sub(r"\b\w+\b", lambda m: m.group(0) if m.group(0) in words else "x", body)
    return re.sub(r"\s+", " ", body)


def show(point, title, lines):
    print(f"{point}. {title}: {len(lines)}")
    for line in lines:
        print("   ", line)


def main():
    commit = sys.argv[1] if len(sys.argv) > 1 else None
    files = list(sources(commit, ".rt"))
    files = [(name, text) for name, text in files if "/src/" in name]

    def lines(pattern):
        return [f"{name}:{i}: {line.strip()}" for name, text in files
                for i, line in enumerate(text.split("\n"), 1) if re.search(pattern, line)]

    every = [(name, *f) for name, text in files for f in functions(text)]
    at = lambda f: f"{f[0]}:{f[1]}: {f[2][:110]}"
    show(1, "enums of our own", lines(r"^(pub )?enum "))
    show(1, "structs", lines(r"^(pub )?struct "))
    show(1, "functions that answer a number", [at(f) for f in every if re.search(rf"-> {NUMBER}$", f[2])])
    shapes = collections.defaultdict(list)
    for f in every:
        if len(shape(f[4])) > 20:
            shapes[shape(f[4])].append(f)
    show(2, "functions of one shape", [" | ".join(at(f) for f in same) for same in shapes.values() if len(same) > 1])
    show(3, "while and loop", lines(r"^\s*(?:'\w+: )?(while|loop)\b"))
    show(3, "for over numbers, and chains that begin with them", lines(r"for \w+ in .*\.\.|\(\d+\.\.[^)]*\)\."))
    arms = [f for f in every if re.match(r"\{\s*match\b", f[4])]
    show(4, "bodies that are one match", [at(f) for f in arms])
    show(4, "printing and derives", lines(r"rt\.(print|write_all)|\bprint!|derive\("))
    said = collections.Counter(c for f in every for c in set(re.sub(r"^(requires|ensures) \w+ ", r"\1 ", c) for c in f[3]))
    show(5, "clauses that three functions or more repeat", [f"{n} times: {c[:150]}" for c, n in said.most_common() if n >= 3])
    params = collections.Counter()
    for f in every:
        names = re.findall(r"(\w+): ", f[2])
        params.update({tuple(names[i:i + 3]) for i in range(len(names) - 2)})
    show(5, "three parameters in a row that three functions or more take", [f"{n} times: {', '.join(p)}" for p, n in params.most_common() if n >= 3])
    show(6, "arrays and lent buffers with a place or a length", lines(r"\[\w+; \d+\]|(out|line|log|bytes|piece): &(mut )?\[u8\], (at|held|size|from|n)\b"))
    show(7, "function values", lines(r"\bdyn |\bfn\(|impl Fn|: Fn"))
    proofs = collections.Counter()
    answers = collections.Counter()
    for name, text in sources(commit, ".antt"):
        if "/proofs/" in name:
            crate = name.split("/")[1]
            proofs[crate] += text.count("\n")
            answers[crate] += len(re.findall(r"^pub [\w+.≢-]+ : goal\.", text, re.M))
    show(8, "lines of proofs, and answers", [f"{c}: {proofs[c]} lines, {answers[c]} answers" for c in sorted(proofs)]
         + [f"all: {sum(proofs.values())} lines, {sum(answers.values())} answers"])


main()
