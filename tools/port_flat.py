#!/usr/bin/env python3
"""Drops from the answers that it is given the `.before` that go back to a place whose steps the place at hand has too.

usage: python3 tools/port_flat.py FILE..      each a proofs/F/Answers.antt that tools/port_answers.py wrote
"""
import re,sys,glob
T = r"[^\s(){}\[\];,.:λ`\"«»]+"
for p in sys.argv[1:]:
    t=open(p,encoding='utf-8').read()
    blocks=re.split(r'(?m)^(?=pub )',t)
    out=[]
    for b in blocks:
        m=re.match(r'pub (\S+) : goal\.\1\n(?:unfolding [^\n]*\n)?\1 (\S+)',b)
        if m:
            c=m[2]
            for _ in range(12):
                ms=[x for x in re.finditer(r'\blet ('+T+r') = ('+T+r')((?:\.before)+) in[ ]?(\n\s*)?',b) if x[2]==c]
                changed=False
                for x in ms:
                    v=x[1]
                    rest=b[:x.start()]+b[x.end():]
                    # every use is a projection
                    uses=[u for u in re.finditer(r"(?<![\w.'-])"+re.escape(v)+r"(?![\w'-])",rest)]
                    if all(rest[u.end():u.end()+1]=='.' for u in uses) and len(re.findall(r'\blet '+re.escape(v)+r' =',rest))==0:
                        nb=rest
                        nb=re.sub(r"(?<![\w.'-])"+re.escape(v)+r"(?=\.)",c,nb)
                        b=nb; changed=True
                        break
                if not changed: break
            # c.before.before.step
            b=re.sub(r"(?<![\w.'-])"+re.escape(c)+r"((?:\.before)+)\.(?!before\b)",c+'.',b)
        out.append(b)
    u=''.join(out)
    if u!=t: open(p,'w',encoding='utf-8').write(u)
