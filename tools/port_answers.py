#!/usr/bin/env python3
"""Turns each proofs/F/Proof.antt that answers an older Rattle's needs (`tie.spec`) into Invariants.antt and Answers.antt.

usage: python3 tools/port_answers.py CRATE [NAMES]     at the top; NAMES is the names.json of
       rt check --generated DIR --old-names            in the crate's folder (made here where it is not given)

Needs go to goals by the order that `tie.spec` has them in; steps by their old and new names; an answer that only searches is dropped,
since the check searches by itself. What it cannot place it prints, and leaves the file.
"""

import json
import os
import re
import subprocess
import sys
import tempfile

T = r"[^\s(){}\[\];,.:λ`\"«»]+"


def norm(s):
    return s.replace("-", "_").lower()


def blocks(text):
    """The file's parts: each starts at a line with no indent, and has the comment lines above it."""
    out, cur, comments = [], None, []
    for line in text.split("\n"):
        if line.startswith("--"):
            if cur is not None:
                out.append(cur)
                cur = None
            comments.append(line)
        elif line and not line[0].isspace():
            if cur is not None:
                out.append(cur)
            cur = [comments, [line]]
            comments = []
        elif cur is not None:
            cur[1].append(line)
        elif line.strip() and not out:
            pass
    if cur is not None:
        out.append(cur)
    return [(c, "\n".join(l).rstrip()) for c, l in out], comments


def main(argv):
    crate = argv[0]
    where = os.path.join("crates", crate)
    if len(argv) > 1:
        path = argv[1]
    else:
        top = tempfile.mkdtemp()
        subprocess.run(["rt", "check", "--generated", top, "--old-names"], cwd=where, stdout=subprocess.DEVNULL, stderr=subprocess.STDOUT)
        path = os.path.join(top, "names.json")
    with open(path, encoding="utf-8") as f:
        names = json.load(f)
    done = left = 0
    for folder, dirs, files in os.walk(os.path.join(where, "proofs")):
        if "Proof.antt" not in files:
            continue
        p = os.path.join(folder, "Proof.antt")
        with open(p, encoding="utf-8") as f:
            text = f.read()
        rel = os.path.relpath(folder, os.path.join(where, "proofs")).replace(os.sep, ".")
        it = names.get(f"Rattle-{crate}-proofs.{rel}.Lts") or names.get(f"Rattle-{crate}-proofs.{rel}.Needs")
        if it is None:
            print(f"left: {p}: no names of {rel}")
            left += 1
            continue
        said = turn(p, text, rel, crate, it)
        if said:
            print(f"left: {p}: {said}")
            left += 1
        else:
            os.unlink(p)
            done += 1
    print(f"{crate}: {done} turned, {left} left")


def turn(p, text, rel, crate, it):
    parts, _ = blocks(text)
    # heads of top-level blocks that follow one another as one declaration
    decls, uses, heads = [], [], []
    head_comment = []
    for comments, body in parts:
        if body.startswith("use "):
            if not uses and not decls:
                head_comment = comments
            uses.append(body)
            continue
        decls.append([comments, body])
    # join: signature, `unfolding`, clauses
    joined = []
    for comments, body in decls:
        m = re.match(r"(?:abbrev |pub |unfoldable )*(" + T + r")(.*)", body, re.S)
        name = m[1] if m else None
        if joined and not comments and (name == joined[-1]["name"] or body.startswith("unfolding ") or joined[-1]["open"]):
            joined[-1]["text"] += "\n" + body
            joined[-1]["open"] = body.startswith("unfolding ")
            continue
        joined.append({"name": name, "text": body, "comments": comments, "open": False})
    spec = next((d for d in joined if "tie.spec" in d["text"]), None)
    if spec is None:
        return "no tie.spec"
    m = re.search(r"tie\.close\s*\(\s*tie\.spec\b(.*)\)\s*$", spec["text"], re.S)
    args = []
    if m:
        depth, cur = 0, ""
        for ch in m[1] + " ":
            if ch in "({[":
                depth += 1
            if ch in ")}]":
                depth -= 1
            if ch.isspace() and depth == 0:
                if cur:
                    args.append(cur)
                cur = ""
            else:
                cur += ch
    elif not re.search(r"tie\.close\s+tie\.spec\s*$", spec["text"]):
        return "tie.spec is not read"
    joined.remove(spec)
    by_name = {d["name"]: d for d in joined}
    loops = it["loops"]
    # invariants and measures of the loops, first in the call
    inv = {}
    k = 0
    need_args = []
    for a in args:
        d = by_name.get(a)
        if d is not None and re.search(r":\s*tie\.(invariant|decreases)-", d["text"]):
            inv[a] = d
        else:
            need_args.append(a)
    needs = it["needs"]
    if len(needs) == len(need_args):
        goal_of = dict(zip(need_args, [n[1] for n in needs]))
    else:
        goal_of = {}
        table = {norm(o): w for o, w in needs}
        for a in need_args:
            d = by_name.get(a)
            t = re.search(r"tie\.Need-(" + T + ")", d["text"])[1] if d and "tie.Need-" in d["text"] else a
            t2 = re.sub(r"^(overflow|nonzero)-", "", t)
            g = table.get(norm(t)) or table.get(norm(t2))
            if g is None:
                return f"{len(need_args)} needs, {len(needs)} goals: {a} ({t}) has none of {[o for o, _ in needs]}"
            goal_of[a] = g
    steps = {}
    for place, parent, (old, new), fn, _ in it["places"]:
        if old:
            steps.setdefault(norm(old), new)
    places = {}
    for (place, *_), new in zip(it["places"], it["places_by_name"]):
        places[norm(place)] = new
    # what an arm binds, by the step that read it; of an arm's places only the last has a name that can be used
    arms, last = {}, {}
    for (place, parent, (old, new), *_), name, arm in zip(it["places"], it["places_by_name"], it["arms"]):
        if arm:
            last.setdefault((arm[0], norm(place).split("keys")[0] if "keys" in place else None), name)
            for field, step, path in arm[2]:
                if path and path[0] == "given" and not field.endswith("-own"):
                    arms.setdefault((norm(step), tuple(path[1:])), f"{arm[0]}.{field}")
    ends = {}
    for name, arm in zip(it["places_by_name"], it["arms"]):
        if arm:
            stem = re.sub(r"-\d+$", "", name) if re.search(r"-\d+$", name) else name
            ends.setdefault(name, stem if stem in it["places_by_name"] else name)
    for k, v in places.items():
        places[k] = ends.get(v, v)
    # the clauses of what a step calls, by their names now
    clauses = {}
    for (place, parent, (old, new), *_), c in zip(it["places"], it["clauses"]):
        if new and c and c.get("fields"):
            clauses.setdefault(new, c["fields"])
    used_places = set()
    for loop in loops:
        old, new = loop[0]
        steps.setdefault(norm(old), new)
    inv_names = set(inv)

    def bound(m):
        parts = m[2].strip(".").split(".")
        for n in range(len(parts), 0, -1):
            w = arms.get((norm(m[1]), tuple(parts[:n])))
            if w:
                return "." + w + "".join("." + x for x in parts[n:])
        return m[0]

    def steps_in(s):
        s = re.sub(r"\.(" + T + r")\.given((?:\.\d)+)", bound, s)
        # a step follows a place: a variable, a call of a helper, or `before`
        def step(m):
            above = m[1].rsplit(".", 1)
            if len(above) == 2 and above[1] != "before":
                return m[0]
            return m[1] + "." + steps.get(norm(m[2]), m[2])

        s = re.sub(r"((?<![^\s(){}\[\];,:`])(?:[^\s(){}\[\];,.:λ`]+|(?<=\)))(?:\.before)*)\.(" + T + ")", step, s)
        s = re.sub(r"(\)(?:\.before)*)\.(" + T + ")", lambda m: m[1] + "." + steps.get(norm(m[2]), m[2]), s)

        # a step is a field of each later place
        def flat(m):
            return m[1] + "." + m[3]

        s = re.sub(r"((?<![\w.'])[^\s(){}\[\];,.:λ]+)((?:\.before)+)\.(?!before\b)(" + T + ")", flat, s)

        def place(m):
            w = m[1]
            kind = w
            q = places.get(norm(kind))
            if q is None:
                return m[0]
            used_places.add(q)
            return q

        s = re.sub(r"tie\.(" + T + r")", place, s)
        for a in inv_names:
            for q in used_places:
                s = re.sub(r"(?<![\w.'-])(" + re.escape(q) + r"(?:\s" + T + r")*?)\s" + re.escape(a) + r"(?![^\s)])", r"\1", s)

        def clause(m):
            f = clauses.get(m[1])
            if f is None:
                return m[0]
            if m[2] is not None:
                return f".{m[1]}.ensures.{f[int(m[2])]}" if int(m[2]) < len(f) else m[0]
            return f".{m[1]}.ensures.{f[0]}" if len(f) == 1 else m[0]

        # a condition `!x` says now what x is
        s = re.sub(r"\bnot[-_](true|false) _ \(?((?:[^\s(){}\[\];,]+\.)?if-not-[^.\s()]+\.(?:true|false))", lambda m: m[2], s)
        s = re.sub(r"\bnot[-_](true|false) _ ([^\s(){}\[\];,]+\.if-not-[^.\s()]+\.(?:true|false))", lambda m: m[2], s)
        s = re.sub(r"\.pre(?![\w'-])", ".requires", s)
        s = re.sub(r"\.inv(?![\w'-])", ".invariant", s)
        s = re.sub(r"\.fits\.(?!sfits)", ".ranges.", s)
        s = re.sub(r"(\.(?:if|loop)[^\s(){}\[\];,.:]*)\.taken(?![\w'-])", r"\1.true", s)
        s = re.sub(r"(\.(?:if|loop)[^\s(){}\[\];,.:]*)\.left(?![\w'-])", r"\1.false", s)
        for m in re.finditer(r"\blet (" + T + r") = [^\s(){}]+\.(" + T + r") in", s):
            f = clauses.get(m[2])
            if f and len(f) == 1:
                s = re.sub(r"(?<![\w.'-])" + re.escape(m[1]) + r"\.ensures(?!\.[a-z0-9])", f"{m[1]}.ensures.{f[0]}", s)
        s = re.sub(r"\.(" + T + r")\.ensures(?:\.(\d)\b)?(?!\.[a-z])", clause, s)
        return s

    # helpers over a place: by name the place that they take first and the place that they give
    PLACE = r"tie\.(" + T + r")(?:[ \n]+[\w-]+)*?"
    takes, gives = {}, {}

    def place_of(w):
        return places.get(norm(w))

    def learn(sig_name, sig, outer=None):
        q = re.match(r"\s*\((" + T + r") : " + PLACE + r"\)", sig) or re.match(r"\s*()" + PLACE + r"\s*→", sig)
        if outer:
            takes.setdefault(sig_name, outer)
        elif q and place_of(q[2]):
            takes.setdefault(sig_name, place_of(q[2]))
        r = re.search(r"(?:→|^)\s*" + PLACE + r"\s*$", sig)
        if r and place_of(r[1]):
            gives.setdefault(sig_name, place_of(r[1]))

    def signatures(text, indent):
        for m in re.finditer(r"(?m)^" + indent + r"(?:abbrev |pub |unfoldable )*(" + T + r") : ((?:.|\n" + indent + r"\s)*?)$(?!\n" + indent + r"\s)", text):
            yield m[1], m[2]

    for d in joined:
        if d["text"].startswith("module "):
            q = re.match(r"module _ \((" + T + r") : " + PLACE + r"\)", d["text"])
            for nm, sig in signatures(d["text"], "  "):
                learn(nm, sig, place_of(q[2]) if q else None)
        elif d["name"] not in inv and d["name"] not in goal_of:
            for nm, sig in signatures(d["text"], ""):
                learn(nm, sig)

    def placed(text, roots):
        """Writes each place by its name: what a helper is given, and what one gives back."""
        roots = dict(roots)
        for m in re.finditer(r"\blet (" + T + r") = (" + T + r")((?:\.before)*) in", text):
            if m[2] in roots and m[1] not in roots:
                roots[m[1]] = roots[m[2]]

        def at(var, want):
            kind, where_, v = roots[var]
            if kind == "place" and where_ == want and v == var:
                return v
            used_places.add(want)
            if kind == "place":
                used_places.add(where_)
            return f"(goal.at.{where_} {v}).{want}"

        for nm, want in takes.items():
            def one(m):
                if m[2] not in roots:
                    return m[0]
                kind, where_, v = roots[m[2]]
                if kind == "place" and where_ == want and v == m[2] and not m[3]:
                    return m[0]
                return m[1] + at(m[2], want)

            text = re.sub(r"((?<![\w.'-])" + re.escape(nm) + r"[ \n]+)(" + T + r")((?:\.before)*)(?![\w.'-])", one, text)
        return text

    def helper(text):
        """A helper's or a module's text, with its places by name."""
        if text.startswith("module "):
            q = re.match(r"module _ \((" + T + r") : " + PLACE + r"\)", text)
            if not q or not place_of(q[2]):
                return text
            root = {q[1]: ("place", place_of(q[2]), q[1])}
            out_, last = [], None
            for line in text.split("\n"):
                m = re.match(r"  (?:abbrev |pub )*(" + T + r") : " + PLACE + r"\s*$", line)
                if m and place_of(m[2]):
                    last = (m[1], place_of(m[2]))
                m = re.match(r"  (" + T + r") = (" + T + r")((?:\.before)*)\s*$", line)
                if m and last and m[1] == last[0] and m[2] == q[1]:
                    want = last[1]
                    if want != root[q[1]][1] or m[3]:
                        used_places.update((want, root[q[1]][1]))
                        line = f"  {m[1]} = (goal.at.{root[q[1]][1]} {q[1]}).{want}"
                out_.append(line)
            return placed("\n".join(out_), root)
        roots = {}
        sig = next(iter(signatures(text, "")), None)
        if sig:
            binders = re.findall(r"\((" + T + r") : " + PLACE + r"\)", sig[1])
            for v, w in binders:
                if place_of(w):
                    roots[v] = ("place", place_of(w), v)
            if not binders:
                m = re.match(r"\s*" + PLACE + r"\s*→", sig[1])
                c = re.search(r"(?m)^" + re.escape(sig[0]) + r" (" + T + r")\b.*=", text)
                if m and c and place_of(m[1]):
                    roots[c[1]] = ("place", place_of(m[1]), c[1])
            want = gives.get(sig[0])
            m = re.search(r"(?m)^" + re.escape(sig[0]) + r" (" + T + r") = (" + T + r")((?:\.before)*)\s*$", text)
            if want and m and m[1] == m[2] and m[2] in roots and (roots[m[2]][1] != want or m[3]):
                used_places.update((want, roots[m[2]][1]))
                text = text[: m.start()] + f"{sig[0]} {m[1]} = (goal.at.{roots[m[2]][1]} {m[2]}).{want}" + text[m.end():]
        return placed(text, roots)

    answers, helpers = [], []
    bodies_of_all = [d["text"] for d in joined]
    # a need that another answer cites goes by its goal's name
    renamed = {n: g for n, g in goal_of.items() if n != g}

    def cited(text):
        return re.sub(r"(?<![\w.'-])(" + T + r")(?![\w'-])", lambda m: renamed.get(m[1], m[1]), text)

    for d in joined:
        n = d["name"]
        if n in inv_names:
            continue
        if n in goal_of:
            g = goal_of[n]
            lines = d["text"].split("\n")
            sig_end = next(i for i, l in enumerate(lines) if re.match(r"(unfolding |" + re.escape(n) + r"\s)", l) and i > 0)
            rest = "\n".join(lines[sig_end:])
            rest = re.sub(r"(?m)^" + re.escape(n) + r"(?=\s)", g, rest)
            rest = re.sub(r"(?m)^(" + re.escape(g) + r"\s+\S+) κs\b", r"\1", rest)
            m = re.match(re.escape(g) + r"\s+\S+\s+=\s+search rules\s*$", rest)
            used = any(re.search(r"(?<![\w.'-])" + re.escape(n) + r"(?![\w'-])", b) for b in bodies_of_all if b is not d["text"])
            if m and not used:
                continue
            if "κs" in rest:
                return f"{n} uses κs"
            # the heads of its clauses are the goal's name by now
            k = re.split(r"(?m)^(" + re.escape(g) + r")(?=\s)", rest)
            rest = k[0] + "".join(k[i] + cited(k[i + 1]) for i in range(1, len(k), 2))
            v = re.search(r"(?m)^" + re.escape(g) + r"\s+(" + T + r")\s", rest)
            rest = placed(rest, {v[1]: ("goal", g, v[1])} if v else {})
            answers.append((d["comments"], f"pub {g} : goal.{g}\n" + steps_in(rest)))
        else:
            answers.append((d["comments"], steps_in(helper(cited(d["text"])))))
    out = answers
    # invariants
    inv_out = []
    changed = it["changed"]
    for d in inv.values():
        m = re.search(r"tie\.(invariant|decreases)-(" + T + ")", d["text"])
        which = m[2]
        idx = next((i for i, l in enumerate(loops) if norm(l[0][0]) == norm(which)), None)
        if idx is None:
            idx = next((i for i, l in enumerate(loops) if norm(l[0][1]) == norm(which)), None)
        if idx is None:
            return f"no loop {which} in {loops}"
        new = loops[idx][0][1]
        vs = loops[idx][1]
        ch = changed[idx]
        clause = d["text"].split("\n")
        start = next(i for i, l in enumerate(clause) if i and re.match(re.escape(d["name"]) + r"\s", l))
        body = "\n".join(clause[start:])
        m2 = re.match(re.escape(d["name"]) + r"\s+(.*?)\s=\s*(.*)$", body, re.S)
        params = m2[1].split()
        want = vs + [v for v, c in zip(vs, ch) if c]
        if len(params) != len(want):
            return f"invariant of {which}: {len(params)} names, {len(want)} wanted: {params} / {vs} {ch}"
        sub = {}
        for i, q in enumerate(params):
            if i < len(vs):
                sub[q] = f"l.initial.{vs[i]}" if ch[i] else f"l.{vs[i]}"
            else:
                sub[q] = f"l.{want[i]}"
        b = m2[2]
        b = re.sub(r"(?<![.\w'])(" + T + r")", lambda m: sub.get(m[1], m[1]) if m[1] != "_" else "_", b)
        kind = "invariant" if m[1] == "invariant" else "decreases"
        head = f"abbrev pub {kind}-{new} : goal.{kind}-{new}\n"
        if "\n" in d["text"] and "unfolding" in clause[1]:
            head += clause[1] + "\n"
        inv_out.append((d["comments"], head + f"{kind}-{new} l =" + (" " if not b.startswith("\n") else "") + b))
    # helpers that an invariant cites go with it
    moved = []
    inv_text = "\n".join(t for _, t in inv_out)
    again = True
    while again:
        again = False
        for o in list(out):
            nm = re.match(r"(?:abbrev |pub |unfoldable )*(" + T + ")", o[1])
            if nm and not o[1].startswith(("pub ", "module")) and re.search(r"(?<![\w.'-])" + re.escape(nm[1]) + r"(?![\w'-])", inv_text):
                moved.append((nm[1], o))
                out.remove(o)
                inv_text += o[1]
                again = True
    folder = os.path.dirname(p)
    header = "\n".join(head_comment) + ("\n" if head_comment else "")

    def imports(body, extra):
        lines = []
        for u in uses:
            if re.search(r"\.Statement\.|\.Tie as tie", u):
                continue
            m = re.match(r"use ([^{]*)\.\{(.*)\}\s*$", u, re.S)
            if not m:
                lines.append(u)
                continue
            keep = []
            for w in [x.strip() for x in m[2].split(",")]:
                short = w.split(" as ")[-1].strip()
                core = [c for c in short.split("◌") if c]
                if not core or all(c in body for c in core):
                    keep.append(w)
            if keep:
                lines.append(f"use {m[1]}.{{{', '.join(keep)}}}")
        return "\n".join(lines + extra) + "\n"

    if inv_out:
        text_inv = "\n\n".join("\n".join(c + [t]) for c, t in [(c, ("pub " + t) if t.startswith("abbrev") is False else t.replace("abbrev ", "abbrev pub ", 1)) for _, (c, t) in reversed(moved)] + inv_out)
        with open(os.path.join(folder, "Invariants.antt"), "w", encoding="utf-8") as f:
            f.write(header + imports(text_inv, [f"use Rattle.{crate}.proofs.{rel}.Given as goal"]) + "\n" + text_inv + "\n")
    if out:
        text_out = "\n\n".join("\n".join(c + [t]) for c, t in out)
        extra = []
        if moved:
            extra.append(f"use Rattle.{crate}.proofs.{rel}.Invariants.{{{', '.join(n for n, _ in moved)}}}")
        extra.append(f"use Rattle.{crate}.proofs.{rel}.Goals as goal")
        here = sorted(q for q in used_places if re.search(r"(?<![\w.'-])" + re.escape(q) + r"(?![\w'-])", text_out))
        if here:
            extra.append(f"use Rattle.{crate}.proofs.{rel}.Goals.{{{', '.join(here)}}}")
        with open(os.path.join(folder, "Answers.antt"), "w", encoding="utf-8") as f:
            f.write(header + imports(text_out, extra) + "\n" + text_out + "\n")
    return None


if __name__ == "__main__":
    main(sys.argv[1:])
