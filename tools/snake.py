#!/usr/bin/env python3
"""Brings the repository's own names to snake case: definitions, constructors, fields, lemmas and variables of specs/ and proofs/, and their uses in
clauses. A name of the toolchain's libraries that a file imports keeps its spelling there, and so do the names of goals in proofs/F/.
It is run once, after port.py.  usage: tools/snake.py [--dry]"""
import os
import re
import sys

WORD = re.compile(r"(?<![\w'-])[A-Za-z_][\w']*(?:-[\w']+)+")
MODULE = re.compile(r"(?m)^(?:ghost )?use ([\w.'·ᴰ]+)\.([\w'ᴰ]+)(?: as ([\w'ᴰ]+))?;?$")
USE = re.compile(r"use\s+([\w.'+«»]+)\.\{([^}]*)\}")
DECL = re.compile(r"^\s*(?:(?:abbrev|unfoldable|instance|pub|data|record|private|opaque|mutual)\s+)*([A-Za-z_][\w'-]*)\s*(?::|\(|\{|$)")


def files(root):
    for folder, dirs, names in os.walk(os.path.join(root, "crates")):
        dirs[:] = sorted(d for d in dirs if d != "out")
        for n in sorted(names):
            if n.endswith((".rt", ".antt")):
                yield os.path.join(folder, n)


def own(module, crates):
    parts = module.split(".")
    return parts[0] == "Rattle" and len(parts) > 1 and parts[1] in crates


def is_proof(path):
    return os.path.basename(path) in ("Proof.antt", "Answers.antt", "Invariants.antt") and "/specs/" not in path


def comment_at(path):
    return "//" if path.endswith(".rt") else "--"


def split_comment(line, mark):
    at = line.find(mark + " ") if not line.rstrip().endswith(mark) else line.find(mark)
    return (line, "") if at < 0 else (line[:at], line[at:])


def snake(w):
    """A type's name is in camel case, every other in snake case."""
    if w[0].isupper():
        return "".join(part[0].upper() + part[1:] for part in w.split("-"))
    return w.replace("getD", "get_or").replace("-", "_")


def main():
    dry = "--dry" in sys.argv
    root = os.path.dirname(os.path.dirname(os.path.abspath(__file__)))
    crates = set(os.listdir(os.path.join(root, "crates")))
    texts = {p: open(p, encoding="utf-8").read() for p in files(root)}
    declared = set()
    for p, t in texts.items():
        if is_proof(p) or p.endswith(".rt"):
            continue
        taken = set()
        for m in USE.finditer(t):
            if not own(m.group(1), crates):
                taken |= {w.strip().split(" as ")[-1] for w in m.group(2).split(",")}
        for line in t.splitlines():
            code = split_comment(line, "--")[0]
            if code.startswith("use "):
                continue
            declared |= {w for w in WORD.findall(code) if w not in taken}
    renamed, clashes = set(), {}
    for p, t in texts.items():
        mark = comment_at(p)
        taken = set()
        for m in USE.finditer(t):
            if not own(m.group(1), crates):
                taken |= {w.strip().split(" as ")[-1] for w in m.group(2).split(",")}
        taken |= {m.group(3) or m.group(2) for m in MODULE.finditer(t) if not own(m.group(1), crates)}
        before = set(re.findall(r"[A-Za-z_][\w']*(?:-[\w']+)*", t))
        out = []
        for line in t.splitlines(keepends=True):
            code, comment = split_comment(line, mark)
            m = USE.search(code)
            outside = bool(m) and not own(m.group(1), crates)

            def turn(w, outside=outside):
                member = re.search(r"([^\s(){}\[\],;.]+)\.$", w.string[:w.start()])
                w = w.group(0)
                if outside or w in taken or w not in declared or (member and member.group(1) in taken):
                    return w
                renamed.add(w)
                s = snake(w)
                if s in before:
                    clashes.setdefault(s, set()).add(p)
                return s
            code = WORD.sub(turn, code)
            comment = re.sub(r"`[^`]*`", lambda b: WORD.sub(turn, b.group(0)), comment)
            out.append(code + comment)
        new = "".join(out)
        if new != t and not dry:
            open(p, "w", encoding="utf-8").write(new)
    print(len(renamed), "names")
    for s, ps in sorted(clashes.items()):
        print("clash", s, *[os.path.relpath(p, root) for p in sorted(ps)][:4])


main()
