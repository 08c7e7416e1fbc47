#!/usr/bin/env python3
"""Respells this repository's own definitions and lemmas as today's Rattle spells names: words in snake case, types and modules in camel case.

usage: python3 tools/port_names.py [--check]     at the top, once, after /opt/rattle/port/port.py

A definition `byteSum` becomes `byte_sum`, a lemma `left-small` becomes `left_small`; a lemma that would take its definition's name gets
`_lem`. Names of src/, the names that Rattle makes and those of its library stay. It goes over specs/ and proofs/, the clauses and
`ghost use` lines of src/, the edits of must-fail/, and the pages, where a name stands in backticks. --check lists the renamings alone.
"""

import os
import re
import sys

WORD = re.compile(r"[^\s(){}\[\];,.:λ`\"«»]+")
KEYWORDS = {"pub", "abbrev", "unfoldable", "data", "record", "axiom", "use", "mod", "where", "unfolding", "module", "let", "in", "mutual", "infixl", "infixr", "infix", "as", "elim", "rw"}
# Lemmas that would have the name of a definition, or of a library's lemma that a file has beside them.
BY_HAND = {n: n + "_lem" for n in ("go_on", "none_seen", "none_tried", "read_as", "record_of", "restored_by", "zero_row")}


def texts(root, ends):
    for folder, dirs, files in os.walk(root):
        dirs[:] = sorted(d for d in dirs if d not in ("out", "target", ".git"))
        for f in sorted(files):
            if f.endswith(ends):
                yield os.path.join(folder, f)


def read(p):
    with open(p, encoding="utf-8") as f:
        return f.read()


def code_lines(text):
    for line in text.split("\n"):
        yield re.sub(r"--.*$", "", line)


def declared(text):
    """The names that a file declares: before the first ' : ' outside brackets, after the keywords."""
    found = set()
    for line in code_lines(text):
        if re.match(r"\s*(pub )?(use|mod|module|open)\b", line):
            continue
        head, depth, cut = "", 0, None
        for i, ch in enumerate(line):
            depth += ch in "({["
            depth -= ch in ")}]"
            if depth == 0 and line[i : i + 3] == " : ":
                cut = i
                break
            if depth == 0 and ch in "=→↦":
                break
        if cut is None:
            # a head that goes on in the next line
            if not re.search(r" :$", line):
                continue
            cut = len(line) - 2
        words = line[:cut].split()
        while words and words[0] in KEYWORDS:
            words = words[1:]
        if words and ("record" in line[:cut].split()[:3] or "data" in line[:cut].split()[:3]):
            words = words[:1]
        for w in words:
            if w[0] in "({[":
                break
            found.add(w.strip("◌"))
    return found


def wanted(name):
    """The name in today's spelling."""
    if name[:1].isupper() and "-" not in name:
        return name
    out = re.sub(r"(?<=[a-z0-9₀-₉])([A-Z])", lambda m: "_" + m[1].lower(), name) if name[:1].islower() else name
    return out.replace("-", "_") if re.search(r"\w-\w", out) else out


def library(root):
    """Names that a `use` line brings from no crate of this repository."""
    own = set(os.listdir(os.path.join(root, "crates")))
    found = set()
    for p in texts(os.path.join(root, "crates"), (".antt", ".rt")):
        for m in re.finditer(r"(?m)^\s*(?:pub )?(?:ghost )?use ([\w.·]+)\.\{([^}]*)\}", read(p)):
            parts = m[1].split(".")
            if parts[0] == "Rattle" and parts[1] in own:
                continue
            found |= {w.split(" as ")[0].strip() for w in m[2].split(",")}
            found |= {w.split(" as ")[1].strip() for w in m[2].split(",") if " as " in w}
    return found


def is_function_proof(p):
    return os.path.basename(p) in ("Proof.antt", "Invariants.antt", "Answers.antt") and os.path.basename(os.path.dirname(p)) != "proofs"


def main(argv):
    root = os.getcwd()
    inside = os.path.join(root, "crates")
    antt = list(texts(inside, (".antt",)))
    taken = library(root)
    names = set()
    for p in antt:
        if not is_function_proof(p):
            names |= declared(read(p))
    new = {}
    for n in sorted(names):
        w = BY_HAND.get(n) or wanted(n)
        if w != n and n not in taken and n not in KEYWORDS:
            new[n] = w
    # Two of one name: the lemma, that had a dash, gives way.
    clashes = []
    by_new = {}
    for n in sorted(set(names) | taken):
        by_new.setdefault(new.get(n, n), []).append(n)
    for w, olds in by_new.items():
        if len(olds) > 1:
            for o in olds:
                if o in new and "-" in o and any(x not in new or "-" not in x for x in olds):
                    new[o] = w + "_lem"
                    clashes.append(f"{o} -> {new[o]} (beside {[x for x in olds if x != o]})")
            rest = [o for o in olds if new.get(o, o) == w]
            if len(rest) > 1:
                clashes.append(f"TOGETHER {rest} -> {w}")
    olds = set(new)
    new_words = set(new.values())
    if "--check" in argv:
        for c in clashes:
            print(c)
        for p in antt:
            t = read(p)
            words = set(WORD.findall("\n".join(code_lines(t))))
            used = words & olds
            for w in sorted(words & new_words):
                if any(new[u] == w for u in used):
                    print(f"BOTH {os.path.relpath(p, root)}: {w} and {[u for u in used if new[u] == w]}")
        for n, w in sorted(new.items()):
            print(f"{n}\t{w}")
        return 0

    functions = set()
    for p in texts(inside, (".rt",)):
        functions |= set(re.findall(r"\bfn (\w+)", read(p)))

    def turn(text, local={}, steps=False):
        def one(m):
            w = m[0]
            core = w.strip("◌")
            # a step of a function's proof, named after the function that is called
            if steps and m.start() and text[m.start() - 1] == "." and core.replace("-", "_") in functions:
                return w.replace("-", "_")
            if core in local:
                return w.replace(core, local[core])
            return w.replace(core, new[core]) if core in new else w

        return WORD.sub(one, text)

    def turn_lines(text, comment, local={}, steps=False):
        out = []
        for line in text.split("\n"):
            k = line.find(comment)
            if k < 0:
                out.append(turn(line, local, steps))
            else:
                # in a comment only what can be no English word
                out.append(turn(line[:k], local, steps) + turn_page(line[k:]))
        return "\n".join(out)

    def turn_page(text):
        def one(m):
            w = m[0]
            return new[w] if w in new and ("-" not in w) else w

        text = re.sub(r"`[^`\n]+`", lambda m: turn(m[0]), text)
        return WORD.sub(one, text)

    changed = 0
    for p in antt:
        t = read(p)
        local = {}
        if is_function_proof(p):
            for n in declared(t):
                if n in new or n in taken:
                    continue
                line = re.search(r"(?m)^(?:pub |abbrev |unfoldable )*" + re.escape(n) + r" :(.*)$", t)
                if line and not re.search(r"\b(tie|goal|statement)\b", line[1]) and wanted(n) != n and not n.endswith("-spec"):
                    local[n] = wanted(n)
        u = turn_lines(t, "--", local, is_function_proof(p))
        if u != t:
            changed += 1
            with open(p, "w", encoding="utf-8") as f:
                f.write(u)
    for p in texts(inside, (".rt",)):
        t = read(p)
        u = turn_lines(t, "//", {n: n for n in BY_HAND})
        if u != t:
            changed += 1
            with open(p, "w", encoding="utf-8") as f:
                f.write(u)
    for p in texts(inside, (".edit",)):
        t = read(p)
        u = "\n".join(turn(l) if re.match(r"(old|new):", l) else turn_page(l) for l in t.split("\n"))
        if u != t:
            changed += 1
            with open(p, "w", encoding="utf-8") as f:
                f.write(u)
    pages = [os.path.join(root, "README.md")] + [p for p in texts(os.path.join(root, "docs"), (".md",))] + [p for p in texts(os.path.join(root, "tests"), (".md",))]
    for p in pages:
        if os.path.isfile(p) and os.path.basename(p) != "PORT.md":
            t = read(p)
            u = re.sub(r"`[^`\n]+`", lambda m: turn(m[0]), t)
            if u != t:
                changed += 1
                with open(p, "w", encoding="utf-8") as f:
                    f.write(u)
    print(f"{len(new)} names, {changed} files")
    return 0


if __name__ == "__main__":
    raise SystemExit(main(sys.argv[1:]))
