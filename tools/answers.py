#!/usr/bin/env python3
"""Turns the proofs of functions of an older kit, proofs/F/Proof.antt, into Answers.antt and Invariants.antt. Used once; the patches of wip/ still need it.

    python3 tools/answers.py NAMES.json CRATE [--only PATH]

CRATE is a crate's folder, after the kit's port.py and tools/respell.py have turned it. NAMES.json is what `rt names OUT`, or in the crate `rt check --generated DIR --old-names`, writes for it:
the old and the new name of each goal and step. A chain of `.before` becomes the step's own name, an answer that was the search alone goes, a loop's invariant takes the record of the
variables. What could not be turned is printed, and rt check says the rest. With --only, the one function of that path below proofs/.
"""
import json, os, re, sys

def norm(s):
    s = s.replace("-", "_").replace("·", "_").lower()
    return s[:-4] if s.endswith("_lem") else s
def bare(s): return re.sub(r"^(overflow|nonzero)_", "", norm(s))

TOK = re.compile(r"[^\s(){};,@\"«»\[\]]+")

def chunks(text):
    """Top-level declarations: list of (comments, head lines.., whole text)."""
    lines = text.split("\n")
    out, cur, kind = [], [], None
    def flush():
        nonlocal cur
        if any(l.strip() for l in cur): out.append("\n".join(cur).rstrip("\n"))
        cur = []
    pend = []
    for l in lines:
        if l.startswith("--") or l.strip() == "":
            if cur and l.strip() == "":
                flush(); continue
            if l.startswith("--") and cur: flush()
            cur.append(l) if l.strip() else None
            continue
        cur.append(l)
    flush()
    return out

def split_decls(text):
    """uses, decls; each decl: dict(comment, name, type, unfold, body, arg)"""
    uses = []
    m = re.compile(r"(?m)^(?:pub )?use [^\n]*(?:\n(?:    [^\n]*|\}[^\n]*|  [^\n]*))*")
    def grab(mm):
        uses.append(mm[0]); return ""
    rest = m.sub(grab, text)
    decls = []
    lines = rest.split("\n")
    i = 0; comment = []
    cur = None
    while i < len(lines):
        l = lines[i]
        if l.startswith("--"):
            comment.append(l); i += 1; continue
        if not l.strip():
            i += 1; continue
        if re.match(r"\S", l):
            # signature: NAME : TYPE (may continue), or equation of cur
            sig = re.match(r"^((?:abbrev |unfoldable |pub )*)(\S+)((?: \{[^}]*\}| \([^)]*\))*) :(?:\s|$)(.*)$", l)
            block = [l]; j = i + 1
            while j < len(lines) and (lines[j].startswith(" ") or lines[j].startswith(")") or lines[j].startswith("}")
                    or (not lines[j].strip() and j + 1 < len(lines) and lines[j + 1].startswith(" "))):
                block.append(lines[j]); j += 1
            if sig and not re.match(r"^(infix[lr]? |module |mutual)", l):
                cur = dict(comment=comment, mods=sig[1], name=sig[2], tele=sig[3], type="\n".join([sig[4]] + block[1:]).strip(), unfold=[], eqs=[])
                comment = []
                decls.append(cur)
            elif l.startswith("unfolding") and cur is not None:
                cur["unfold"].append("\n".join(block))
            elif cur is not None and l.split(" ")[0] == cur["name"]:
                cur["eqs"].append("\n".join(block))
            else:
                decls.append(dict(comment=comment, mods="", name="?raw", type="", unfold=[], eqs=["\n".join(block)], tele="")); comment = []; cur = decls[-1]
            i = j; continue
        i += 1
    return uses, decls

class Names:
    def __init__(self, e):
        self.e = e
        self.places = e["places"]
        self.idx = {}
        for k, p in enumerate(self.places): self.idx.setdefault(norm(p[0]), k)
        self.byname = e["places_by_name"]
    def parent(self, k):
        p = self.places[k][1]
        return self.idx.get(norm(p)) if p is not None else None
    def up(self, k):
        while k is not None:
            yield k
            k = self.parent(k)
    def step(self, k, f, rest):
        """New (step, rest) for old field f at the place k or above."""
        nf = norm(f)
        for a in self.up(k):
            arms = self.e["arms"][a]
            own = self.places[a][2]
            if arms:
                best = None
                for new, old, sub in arms[2]:
                    if norm(old) == nf and [norm(x) for x in rest[:len(sub)]] == [norm(x) for x in sub]:
                        if best is None or len(sub) > len(best[2]): best = (new, old, sub)
                if best:
                    new, old, sub = best
                    if new.endswith("-own"):
                        s = new[:-4]
                        return s, rest[len(sub):]
                    return arms[0], [new] + rest[len(sub):]
            if norm(own[0]) == nf and own[0]:
                return own[1], rest
        return None
    def find(self, f, rest):
        for k in range(len(self.places)):
            if norm(self.places[k][2][0]) == norm(f): return self.step(k, f, rest)
        return None

KEEP = {"args", "requires", "ranges", "fits", "type-inv", "type_inv", "auto", "ghost"}

def fix_rest(rest):
    m = {"type-inv": "type_inv", "kept": "auto", "good": "type_inv", "came": "branch"}
    return [m.get(r, r) for r in rest]

def turn_body(text, var, place, N, goal, notes, helpers, loops):
    """Replace chains from var (at place k) and its aliases."""
    alias = {var: place}
    chain = {var: var}
    def walk(tok):
        parts = tok.split(".")
        head = parts[0]
        if head not in alias: return None
        k = alias[head]; rest = parts[1:]
        n = 0
        while rest and rest[0] == "before":
            n += 1
            if k is not None: k = N.parent(k)
            rest = rest[1:]
        return head, k, rest, n
    # aliases
    pat = re.compile(r"let (\S+)(?: : (?:tie|\S+-lts)\.[^=]*?)? = (\S+) in[ \n]?\s*")
    while True:
        hit = None
        for m in pat.finditer(text):
            w = walk(m[2])
            if w and not w[2] and m[2] != m[1]:
                hit = (m, w); break
        if not hit: break
        m, w = hit
        alias[m[1]] = w[1]
        chain[m[1]] = chain[w[0]] + ".before" * w[3]
        # keep indentation: drop the let
        text = text[:m.start()] + text[m.end():]
    def sub(m):
        tok = m[0]
        trail = ""
        w = walk(tok)
        if not w: return tok
        head, k, rest, n = w
        if not rest:
            if tok == var and k == place: 
                return var
            if k is None: return tok
            if goal: return f"(goal.at.{goal} {var}).{N.byname[k]}"
            if head != var: return chain[head] + ".before" * n
            return tok
        f, rest2 = rest[0], rest[1:]
        if CYC and f in ("requires", "pre") and rest2 and rest2[0] in "01":
            return ".".join([var, "decreases" if rest2[0] == "0" else "requires"] + rest2[1:])
        if f in KEEP or norm(f) in ("args", "requires", "ranges"):
            return ".".join([var, f] + fix_rest(rest2))
        s = N.step(k, f, rest2) if k is not None else None
        if s is None: s = N.find(f, rest2)
        if s is None:
            notes.append(f"field {tok}")
            return ".".join([var] + [f] + fix_rest(rest2))
        return ".".join([var, s[0]] + fix_rest(s[1]))
    return TOK.sub(sub, text)

def dedent_lets(body):
    return body

CYC = False

def convert(path, N, crate, module, cycle_funcs=None, names=None):
    global CYC
    CYC = cycle_funcs is not None
    text = open(path, encoding="utf-8").read()
    head = re.match(r"((?:--[^\n]*\n)*)", text)[1]
    uses, decls = split_decls(text[len(head):])
    notes = []
    ans, inv = [], []
    cyc = cycle_funcs is not None
    # the order of the needs, by the arguments of spec
    order = {}
    if not cyc:
        last = decls[-1]
        spec = "\n".join(last["eqs"])
        m = re.search(r"tie\.spec((?:.|\n)*)", spec)
        args = re.findall(TOK, m[1]) if m else []
        args = [a for a in args if a]
        decl = {d["name"]: d for d in decls}
        needs_args = [a for a in args if a in decl and not re.match(r"tie\.(invariant|decreases)", decl[a]["type"])]
        news = N.e["needs"]
        if len(needs_args) == len(news):
            for a, (o, n) in zip(needs_args, news): order[a] = n
        else:
            by = {norm(o): n for o, n in news}
            for a in needs_args:
                t = decl[a]["type"].split()[0].replace("tie.Need-", "")
                for key in (norm(a), norm(t), bare(a), bare(t)):
                    if key in by: order[a] = by[key]; break
                else:
                    for o, n in news:
                        if norm(t) == norm(n): order[a] = n
        funcs = [(None, N)]
    goalplace = {}
    def process(d, N, prefix, need_new, need_idx, tvar):
        eq = d["eqs"][0]
        m = re.match(r"(\S+)((?: \S+)*?) =(?:[ \n]\s*|$)((?:.|\n)*)$", eq)
        if not m: notes.append(f"equation of {d['name']}"); return None
        return m[2].split(), m[3]
    loopinfo = []
    if not cyc:
        entries = [(d, N, "", None) for d in decls]
    for d in decls:
        if d["name"] == "?raw":
            notes.append("raw " + d["eqs"][0][:60]); ans.append(("raw", d)); continue
        ty = d["type"]
        F = N; pre = ""
        if cyc:
            m = re.match(r"\(t : ℕ\)\s*→\s*(\S+?)-lts\.Need-(\S+)", ty)
            if not m:
                mm = re.match(r"(\S+)-lts\.(invariant|decreases)-?(\S*)", ty)
                if mm:
                    d["fn"] = next((k for k in cycle_funcs if norm(k) == norm(mm[1])), None); d["old"] = mm[2] + "-" + mm[3]; inv.append(("loop", d)); continue
                if "μ-" in d["name"] and "Measures" in ty: inv.append(("measure", d))
                elif d["name"].endswith(("-at", "-below", "-claims")) or "spec" in d["name"] or re.search(r"-spec$", d["name"]): pass
                else: ans.append(("helper", d))
                continue
            fn = norm(m[1]); F = None
            for k in cycle_funcs:
                if norm(k) == fn: F = cycle_funcs[k]; pre = k + "-" if len(cycle_funcs) > 1 else ""
            if F is None: notes.append(f"no function {fn}"); continue
            o = m[2]
            new = None
            for q, (a, b) in enumerate(F.e["needs"]):
                if norm(a) == norm(o): new = b; at = q
            if new is None:
                cand = [(q, b) for q, (a, b) in enumerate(F.e["needs"]) if norm(b) == norm(o)] or [(q, b) for q, (a, b) in enumerate(F.e["needs"]) if bare(a) == bare(o)]
                if cand: at, new = cand[0]
                else:
                    eqs = "\n".join(d["eqs"])
                    if "search rules" in eqs and len(eqs) < len(d["name"]) + 40: continue
                    notes.append(f"need {o} of {fn}"); continue
            place = F.idx.get(norm(F.e["asked_at"][at][0]))
        elif d["name"] in order:
            new = order[d["name"]]
            at = [q for q, (a, b) in enumerate(N.e["needs"]) if b == new][0]
            place = N.idx.get(norm(N.e["asked_at"][at][0]))
        elif re.match(r"tie\.(invariant|decreases)", ty):
            inv.append(("loop", d)); continue
        elif d["name"].endswith(("_spec", "-spec")) or "statement M" in ty:
            continue
        elif ty.startswith("tie.Need-"):
            eqs = "\n".join(d["eqs"])
            if (re.search(r"= search rules$", eqs.strip()) and not d["unfold"]) or "same" in ty: continue
            notes.append(f"need of {d['name']} {ty.split()[0]}"); ans.append(("lost", d)); continue
        else:
            ans.append(("helper", d)); continue
        if len(d["eqs"]) != 1: notes.append(f"{d['name']}: {len(d['eqs'])} equations")
        got = process(d, F, pre, new, at, None)
        if got is None: continue
        params, body = got
        if cyc:
            t, params = params[0], params[1:]
        var = params[0] if params else None
        extra = [p for p in params[1:]]
        if body.strip() == "search rules" and not d["unfold"]: continue
        if extra and not re.search(r"(?<![\w'])" + re.escape(extra[0]) + r"(?![\w'])", body): extra = extra[1:]
        gname = pre + new
        body = turn_body(body, var, place, F, gname, notes, None, None) if var else body
        lhs = f"{gname} {'t ' if cyc else ''}{var or ''}{''.join(' ' + x for x in extra)}".rstrip()
        multi = "\n" in body or len(lhs) + len(body) > 150
        b = ("\n    " + body.strip()) if multi else " " + body.strip()
        txt = "".join(c + "\n" for c in d["comment"]) + f"pub {gname} : goal.{gname}\n" + "".join(u + "\n" for u in d["unfold"]) + f"{lhs} ={b}\n"
        ans.append(("answer", txt))
    # helpers
    out = []
    goaluses = set()
    for kind, d in ans:
        if kind == "answer": out.append(d); continue
        sig = d["type"]; eqs = "\n".join(d["eqs"])
        m = re.search(r"\((\w+) : (tie|\S+-lts)\.(\S+?)((?: [^)]*)?)\)", sig)
        tie = re.findall(r"tie\.(\S+?)(?=[\s)])", sig)
        if m and kind == "helper":
            F = N
            if cyc:
                fn = norm(m[2][:-4]); F = next((cycle_funcs[k] for k in cycle_funcs if norm(k) == fn), None)
            k = F.idx.get(norm(m[3])) if F else None
            if k is not None:
                newp = F.byname[k]; goaluses.add(newp)
                sig = sig[:m.start()] + f"({m[1]} : {newp})" + sig[m.end():]
                a, b = sig[:m.start()], sig[m.start():]
                sig = turn_body(sig, m[1], k, F, None, notes, None, None)
                eqm = re.match(r"(\S+)((?: \S+)*?) =(?:[ \n]\s*|$)((?:.|\n)*)$", eqs)
                if eqm:
                    pv = eqm[2].split()
                    v = pv[sig[:sig.index("(" + m[1])].count("→")] if False else (m[1] if m[1] in pv else (pv[0] if pv else m[1]))
                    body = turn_body(eqm[3], v, k, F, None, notes, None, None)
                    eqs = f"{eqm[1]}{eqm[2]} = {body.strip()}"
            else: notes.append(f"place of helper {d['name']}: {m[3]}")
        elif tie: notes.append(f"helper {d['name']} {tie}")
        if kind == "lost":
            out.append("".join("-- LOST " + l + "\n" for l in (d["name"] + " : " + d["type"] + "\n" + eqs).split("\n"))); continue
        out.append("".join(c + "\n" for c in d["comment"]) + (f"{d['mods']}{d['name']}{d['tele']} : {sig}\n" if d["name"] != "?raw" else "") + "".join(u + "\n" for u in d["unfold"]) + eqs + "\n")
    # loops
    invs = []
    for kind, d in inv:
        if kind == "measure":
            fn = d["name"].replace("μ-", "")
            F = next((k for k in cycle_funcs if norm(k) == norm(fn)), None)
            eqm = re.match(r"(\S+)((?: \S+)*?) =(?:[ \n]\s*|$)((?:.|\n)*)$", d["eqs"][0])
            ps = None
            for e in cycle_funcs.values():
                for key, val in e.e["params"].items():
                    if key.split("::")[-1] == F: ps = val
            a = eqm[2].split()[-1]
            def arg(m):
                k = m[1].count("1")
                if ps is None or k >= len(ps): notes.append(f"measure of {F}"); return m[0]
                return "l." + ps[k]
            body = re.sub(r"(?<![\w.'])" + re.escape(a) + r"((?:\.1)*)\.0(?![\w])", arg, eqm[3])
            invs.append("".join(c + "\n" for c in d["comment"]) + f"abbrev pub decreases-{F} : goal.decreases-{F}\n" + "".join(u + "\n" for u in d["unfold"]) + f"decreases-{F} l = {body.strip()}\n")
            continue
        old = d.get("old") or d["type"].split()[0].replace("tie.", "")
        N = cycle_funcs[d["fn"]] if d.get("fn") else N
        w = "invariant" if old.startswith("invariant") else "decreases"
        lname = old[len(w) + 1:]
        ent = None
        for q, (pair, vars) in enumerate(N.e["loops"]):
            if norm(pair[0]) == norm(lname): ent = (pair, vars, N.e["changed"][q])
        eqm = re.match(r"(\S+)((?: \S+)*?) =(?:[ \n]\s*|$)((?:.|\n)*)$", d["eqs"][0])
        if not ent or not eqm:
            notes.append(f"loop {old}"); invs.append("-- " + d["eqs"][0].replace("\n", "\n-- ") + "\n"); continue
        pair, vars, changed = ent
        pv = eqm[2].split(); body = eqm[3]
        cv = [v for v, c in zip(vars, changed) if c]
        mp = {}
        if len(pv) == len(vars) + len(cv):
            for v, c, p in zip(vars, changed, pv[:len(vars)]): mp[p] = f"l.initial.{v}" if c else f"l.{v}"
            for v, p in zip(cv, pv[len(vars):]): mp[p] = f"l.{v}"
        else:
            notes.append(f"loop {old}: {len(pv)} parameters against {len(vars)}+{len(cv)}: {pv} {vars} {changed}")
            for p in pv:
                b = p.rstrip("₀")
                mp[p] = (f"l.initial.{b}" if p.endswith("₀") else f"l.{b}")
        def s(m):
            t = m[0]; h, dot, r = t.partition(".")
            return (mp[h] + dot + r) if h in mp else t
        body = TOK.sub(s, body)
        if "l.initial" in body: pass
        new = f"{w}-{pair[1]}"
        if d.get("fn") and len(cycle_funcs) > 1: new = f"{d['fn']}-{new}"
        multi = "\n" in body or len(body) > 130
        invs.append("".join(c + "\n" for c in d["comment"]) + f"abbrev pub {new} : goal.{new}\n" + "".join(u + "\n" for u in d["unfold"]) + f"{new} l ={(chr(10) + '    ' + body.strip()) if multi else ' ' + body.strip()}\n")
    # uses
    keep = [u for u in uses if not re.search(r"\.(Statement\.\{statement\}|Tie as tie|Tie\.\{|Reads as|Lts as|Kinds as|Lts-\S+)", u) and not re.search(r"borrow\.(Fn\.Kinds|Fn\.PlainCycle)|\.\{\s*statement,?\s*\}|Lts-\S+\n?\s*as", u)]
    def needed(us, body):
        res = []; seen = set()
        words = set(TOK.findall(body)) | set(re.findall(r"[^\s(){}.;,@\"«»\[\]]+", body))
        for u in us:
            if u in seen: continue
            seen.add(u)
            m = re.match(r"(?s)use (\S+?)\.\{(.*)\}$", u.strip())
            if m:
                items = [x.strip() for x in m[2].replace("\n", " ").split(",") if x.strip()]
                def used(it):
                    n = it.split(" as ")[-1].strip()
                    if "◌" in n: return any(p in words for p in n.split("◌") if p)
                    return n in words
                items = [it for it in items if used(it)]
                if items: res.append(f"use {m[1]}.{{{', '.join(items)}}}")
            else: res.append(u)
        return res
    folder = os.path.dirname(path)
    if out:
        body = "\n".join(out)
        g = [f"use {module}.Goals as goal"]
        if goaluses: g.append(f"use {module}.Goals.{{{', '.join(sorted(goaluses))}}}")
        open(os.path.join(folder, "Answers.antt"), "w").write(head + "\n".join(needed(keep, body) + g) + "\n\n" + body)
    if invs:
        body = "\n".join(invs)
        open(os.path.join(folder, "Invariants.antt"), "w").write("\n".join(needed(keep, body) + [f"use {module}.Given as goal"]) + "\n\n" + body)
    os.remove(path)
    return notes

def main():
    names, crate = sys.argv[1:3]
    data = json.load(open(names))
    cname = os.path.basename(os.path.abspath(crate))
    by = {}
    for k, v in data.items():
        m = re.match(r"Rattle-\w+?-proofs\.(.*)\.Lts(?:-(\S+))?$", k)
        if not m or not isinstance(v, dict): continue
        by.setdefault(m[1], {})[m[2]] = Names(v)
    only = sys.argv[4] if len(sys.argv) > 4 else None
    for folder, _, files in sorted(os.walk(os.path.join(crate, "proofs"))):
        if "Proof.antt" not in files or folder == os.path.join(crate, "proofs"): continue
        rel = os.path.relpath(folder, os.path.join(crate, "proofs")).replace(os.sep, ".")
        if only and rel != only: continue
        ent = by.get(rel)
        if ent is None:
            print(f"{rel}: no names"); continue
        module = f"Rattle.{cname}.proofs.{rel}"
        try:
            if None in ent and "+" not in rel: notes = convert(os.path.join(folder, "Proof.antt"), ent[None], cname, module)
            else:
                cyc = {k: v for k, v in ent.items() if k}
                notes = convert(os.path.join(folder, "Proof.antt"), next(iter(ent.values())), cname, module, cyc)
        except Exception as ex:
            import traceback
            print(f"{rel}: FAILED {ex}"); traceback.print_exc(limit=3); continue
        for n in notes: print(f"{rel}: {n}")

main()
