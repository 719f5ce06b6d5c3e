#!/usr/bin/env python3
"""Spells this repository's own words of antt in one way: words in snake case, types and constructors in camel case.

usage: respell.py [--check] FOLDER      FOLDER has crates/, README.md, docs/

It is for the text that the kit's port.py leaves, where the proof of a function is still a walk (Proof.antt), and runs on no later one.

It turns each name with a dash, and each word in camel case, that is declared here and not brought in from a library: in .antt and .rt files and must-fail edits
whole, in pages and comments where a code span has it. Names of functions, modules, files, strings and goals that Rattle makes are not touched.
--check writes nothing. Lines that begin 'meets:' tell a name that would fall together with another one in its file.
"""

import os
import re
import sys

NAME = re.compile(r"(?<![\w'’-])[^\W\d_][\w']*(?:-[\w'≡≢≤]+)*(?![\w'’])")
USE = re.compile(r"^(\s*)(ghost use|use|pub use) ([\w.+'-]+)\.\{([^}]*)\}", re.M)
SPAN = re.compile(r"`[^`\n]+`")
FILE = re.compile(r"/|\.(?:txt|day|sh|md|out|c|h|args)\b")
# a name that would fall together with another one, and two constructors that port.py wrote with a capital
APART = {"least-below": "least_is_below", "Gives-up": "gives_up", "Stands-live": "stands_live"}
MADE = re.compile(r"(?:Need|After|Then|Else|invariant|decreases|InvT|MeasureT)-")


def snake(name):
    name = name.replace("getD", "get_or")
    name = re.sub(r"(?<=[a-z0-9])[A-Z]", lambda m: "_" + m[0].lower(), name)
    return name.replace("-", "_")


def camel(name):
    return "".join(part[:1].upper() + part[1:] for part in name.split("-"))


def respelled(name):
    if name in APART:
        return APART[name]
    if name[0].isupper():
        return camel(name) if "-" in name else name
    return snake(name)


def crates_of(root):
    with open(os.path.join(root, "crates.txt"), encoding="utf-8") as f:
        return {line.split(":")[0].split()[0] for line in f if ":" in line and not line.startswith("#")}


def is_own(path, crates):
    steps = path.split(".")
    return steps[0] == "Rattle" and len(steps) > 1 and steps[1] in crates


def lent(text, crates):
    """The names that the file brings in from libraries."""
    names = set()
    for _, _, path, items in USE.findall(text):
        if not is_own(path, crates):
            for item in items.split(","):
                names.update(word.strip() for word in item.split(" as "))
    return names


def code_and_rest(text, comment):
    """The text cut into parts: code, and comments and strings."""
    cut = re.compile(rf'({comment}[^\n]*|"(?:[^"\\\n]|\\.)*")')
    return cut.split(text)


def is_made(text, start, name):
    """A name that is not ours: behind the module of a function's goals or of a library's type, or with a beginning that Rattle gives."""
    return text[:start].endswith(("tie.", "goal.", "Memᴰ.")) or bool(MADE.match(name))


def turn_code(code, keep, modules, seen):
    def one(m):
        name = m[0]
        new = respelled(name)
        if new == name or name in keep or name in modules or is_made(code, m.start(), name):
            seen.setdefault(name, name)
            return name
        seen[name] = new
        return new

    return NAME.sub(one, code)


def turn_span(span, known):
    """A page's or comment's code span: what is declared under its new spelling."""
    if FILE.search(span):
        return span
    return NAME.sub(lambda m: respelled(m[0]) if respelled(m[0]) in known else m[0], span)


def meets(path, seen):
    by_new = {}
    for old, new in seen.items():
        by_new.setdefault(new, set()).add(old)
    for new, olds in sorted(by_new.items()):
        if len(olds) > 1:
            print(f"meets: {path}: {' and '.join(sorted(olds))}: {new}")


def files(root):
    for folder, dirs, names in os.walk(os.path.join(root, "crates")):
        dirs[:] = sorted(d for d in dirs if d != "out")
        for name in sorted(names):
            if name.endswith((".antt", ".rt", ".edit")):
                yield os.path.join(folder, name)


def pages(root):
    yield os.path.join(root, "README.md")
    for name in sorted(os.listdir(os.path.join(root, "docs"))):
        if name.endswith(".md"):
            yield os.path.join(root, "docs", name)


def main(argv):
    check = "--check" in argv
    root = [a for a in argv if a != "--check"][0]
    if any(path.endswith("/Answers.antt") for path in files(root)):
        print("respell: the proofs of functions are answers here already: nothing is turned")
        return 2
    crates = crates_of(root)
    modules = set()
    for path in files(root):
        modules.update(re.split(r"[./]", os.path.relpath(path, root))[:-1])
    table, known, turned = {}, set(), {}
    for path in files(root):
        with open(path, encoding="utf-8") as f:
            text = f.read()
        keep, seen = lent(text, crates), {}
        parts = code_and_rest(text, "//" if path.endswith(".rt") else "--")
        if path.endswith(".edit"):
            lines = text.split("\n")
            parts = []
            for line in lines:
                is_code = line.startswith(("old:", "new:"))
                parts += [line, "\n"] if is_code else ["", line + "\n"]
            parts[-1] = parts[-1].removesuffix("\n")
        parts[::2] = [turn_code(part, keep, modules, seen) for part in parts[::2]]
        if not path.endswith(".edit"):
            meets(os.path.relpath(path, root), seen)
            known.update(seen.values())
        table.update({old: new for old, new in seen.items() if old != new})
        turned[path] = (text, parts)
    for path, (text, parts) in turned.items():
        if not path.endswith(".edit"):
            parts[1::2] = [SPAN.sub(lambda m: turn_span(m[0], known), part) if part[:1] != '"' else part for part in parts[1::2]]
        write(path, text, "".join(parts), check)
    for path in pages(root):
        with open(path, encoding="utf-8") as f:
            text = f.read()
        write(path, text, SPAN.sub(lambda m: turn_span(m[0], known), text), check)
    print(f"respelled {len(table)} names")
    return 0


def write(path, old, new, check):
    if new != old and not check:
        with open(path, "w", encoding="utf-8") as f:
            f.write(new)


if __name__ == "__main__":
    raise SystemExit(main(sys.argv[1:]))
