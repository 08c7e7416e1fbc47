#!/usr/bin/env python3
"""Mends what `rt check` says of a crate's turned answers: how far back a place stands, and fields by number that have names now.

usage: python3 tools/port_mend.py CRATE NAMES      at the top; NAMES is the names.json of port_answers.py. It checks and mends, up to eight times.
"""
import json, os, re, subprocess, sys

crate, path = sys.argv[1:3]
where = os.path.join("crates", crate)
names = json.load(open(path))


def info(file):
    rel = os.path.relpath(os.path.dirname(file), "proofs").replace(os.sep, ".")
    it = names.get(f"Rattle-{crate}-proofs.{rel}.Lts")
    if not it:
        return None
    parent, alias = {}, {}
    for (place, up, *_), new in zip(it["places"], it["places_by_name"]):
        alias[place] = new
        parent[place] = up
    up = {alias[a]: alias.get(b) for a, b in parent.items()}
    return alias, up


def depth(up, a, b):
    """how many steps b stands above a"""
    k = 0
    while a is not None:
        if a == b:
            return k
        a = up.get(a)
        k += 1
    return None


for turn in range(8):
    said = subprocess.run(["rt", "check"], cwd=where, capture_output=True, text=True)
    said = said.stdout + said.stderr
    if re.search(r"(?m)^logic=proved", said):
        print(f"{crate}: proved")
        break
    fixes = []
    blocks = re.split(r"(?m)^(?=\./)", said)
    for b in blocks:
        m = re.match(r"\./(\S+\.antt):(\d+):(\d+): error: ", b)
        if not m:
            continue
        file, row, col = m[1], int(m[2]), int(m[3])
        it = info(file)
        e = re.search(r"expected type `([\w-]+)`, but this has type `Rattle\S*?\.Lts(?:\.View)?\.([^\s`]+)", b)
        if e and it:
            alias, up = it
            want, have = e[1], re.sub(r"^In-(?=At-|After|Then|Else|In-)", "", e[2]) if "View" in b else e[2]
            have = alias.get(e[2], e[2])
            k = depth(up, have, want)
            if k:
                fixes.append((file, row, col, "back", k))
                continue
            k = depth(up, want, have)
            if k:
                fixes.append((file, row, col, "forth", k))
                continue
        e = re.search(r"has no field `before`.*leave out the `\.before`", b)
        if e:
            fixes.append((file, row, col, "out", 1))
            continue
        e = re.search(r"record `[^`]*` has no field `(\d+)` — the fields that can be named here are ((?:`[^`]+`(?:, )?)+)", b)
        if e:
            fields = re.findall(r"`([^`]+)`", e[2])
            if int(e[1]) < len(fields):
                fixes.append((file, row, col, "field", (e[1], fields[int(e[1])])))
            continue
    if not fixes:
        print(f"{crate}: nothing that this mends")
        break
    by = {}
    for f in fixes:
        by.setdefault(f[0], []).append(f)
    n = 0
    for file, fs in by.items():
        p = os.path.join(where, file)
        lines = open(p, encoding="utf-8").read().split("\n")
        rows = set()
        for _, row, col, kind, what in sorted(fs, key=lambda f: (-f[1], -f[2])):
            line = lines[row - 1]
            rest = line[col - 1:]
            if kind in ("back", "forth"):
                m = re.match(r"[^\s(){}\[\];,]+", rest)
                if not m:
                    continue
                w = m[0]
                if kind == "back":
                    v = w + ".before" * what
                else:
                    if not w.endswith(".before" * what):
                        continue
                    v = w[: -len(".before" * what)]
                lines[row - 1] = line[: col - 1] + v + rest[len(w):]
                n += 1
            elif kind == "out":
                # the column is that of the term or of the field
                i = rest.find(".before")
                j = line.rfind(".before", 0, col + 6)
                if i >= 0 and re.match(r"[^\s(){}\[\];,]*\.before", rest):
                    lines[row - 1] = line[: col - 1 + i] + rest[i + 7:]
                    n += 1
                elif j >= 0:
                    lines[row - 1] = line[:j] + line[j + 7:]
                    n += 1
            elif kind == "field":
                num, name = what
                m = re.match(r"[^\s(){}\[\];,]*?\." + num + r"(?!\w)", rest)
                k = line.rfind("." + num, 0, col + len(num))
                if m:
                    lines[row - 1] = line[: col - 1] + m[0][: -len(num)] + name + rest[len(m[0]):]
                    n += 1
                elif k >= 0:
                    lines[row - 1] = line[:k] + "." + name + line[k + 1 + len(num):]
                    n += 1
        open(p, "w", encoding="utf-8").write("\n".join(lines))
    print(f"{crate}: {n} mended of {len(fixes)}")
    if not n:
        break
