#!/usr/bin/env python3
"""convert.py CRATE-FOLDER NAMES.json OLD-PROOFS-FOLDER [--goals FILE]: writes Answers.antt and Invariants.antt from walks by hand.

--goals FILE: the output of a check; only goals that it says are not proved get answers."""
import json, os, re, sys, glob

W = r"[^\s(){}\[\].;,@\"«»\\|]+"
norm = lambda s: re.sub(r"[-_'′]", "", re.sub(r"_lem$", "", s)).lower()

def read(p):
    with open(p, encoding="utf-8") as f: return f.read()

def clause_names(crates):
    """fn path -> (requires names, ensures names), parsed from sources."""
    out = {}
    for p in glob.glob(crates + "/*/src/*.rt"):
        crate = p.split("/")[-3]
        t = read(p)
        impl = None
        for m in re.finditer(r"(?m)^(\s*)impl(?:<[^>]*>)? (?:[\w<>']+ for )?(\w+)[^{;]*\{|^(\s*)(?:pub(?:\([a-z]+\))? )?(?:unsafe )?(?:extern \"C\" )?fn (\w+)", t):
            if m.group(2):
                impl = m.group(2); continue
            ind = m.group(3); name = m.group(4)
            head = t[m.end():]
            # head up to a line that is exactly ind + "{"
            e = re.search(r"(?m)^" + ind + r"\{|\{\s*$", head)
            body = head[: (re.search(r"(?m)^" + re.escape(ind) + r"\{\s*$", head) or re.search(r"\{", head)).start() if re.search(r"\{", head) else 0]
            req = re.findall(r"(?m)^\s*requires\*? ?(\w*) ?\{", body)
            ens = re.findall(r"(?m)^\s*ensures\*? ?(\w*) ?\{", body)
            q = name if len(ind) == 0 else (impl or "") + "." + name
            out[(crate, q)] = (req, ens)
            out.setdefault((crate, name), (req, ens))
    return out

def split_top(s):
    parts, d, cur = [], 0, ""
    for ch in s:
        if ch in "([{": d += 1
        if ch in ")]}": d -= 1
        if ch == "," and d == 0:
            parts.append(cur); cur = ""
        else: cur += ch
    parts.append(cur)
    return [p.strip() for p in parts if p.strip()]

def tuple_record(body, names):
    """(a, (b, c)) with names n1 n2 n3 -> record {..}; None if it doesn't fit."""
    vals, cur = [], body.strip()
    for k in range(len(names) - 1):
        if not (cur.startswith("(") and cur.endswith(")")): return None
        inner = cur[1:-1]
        ps = split_top(inner)
        if len(ps) == len(names) - k: # flat
            vals += ps; cur = None; break
        if len(ps) != 2: return None
        vals.append(ps[0]); cur = ps[1]
    if cur is not None: vals.append(cur)
    if len(vals) != len(names): return None
    return "record { " + "; ".join(f"{n} = {v}" for n, v in zip(names, vals)) + " }"

def expand_lets(text, var="c"):
    """`let t = c.f.ensures in .. t.1.0 ..` with the path written out at each use, so that its clauses can be named"""
    pos = 0
    pat = re.compile(r"let (" + W + r") = (" + re.escape(var) + r"(?:\.[^\s(){}\[\].;,@\"«»\\|]+)*\.(?:ensures|pre|requires|inv|invariant|before)(?:\.[01])*) in\s*")
    while True:
        m = pat.search(text, pos)
        if not m: return text
        name, path = m.group(1), m.group(2)
        rest = text[m.end():]
        again = re.search(r"let " + re.escape(name) + r" =", rest)
        here, there = (rest[: again.start()], rest[again.start():]) if again else (rest, "")
        here = re.sub(r"(?<![\w.'-])" + re.escape(name) + r"(?=\.[^\s.])", lambda _: path, here)
        kept = m.group(0) if re.search(r"(?<![\w.'-])" + re.escape(name) + r"(?![\w'-])", here) else ""
        text = text[: m.start()] + kept + here + there
        pos = m.start() + len(kept)

def not_tests(s):
    """`if !x`: a step's `.true` said `not x ≡ true` and says `x ≡ false` today"""
    s = re.sub(r"(?<![\w.'-])not-(?:true|false) _ (c\.if-not-[^\s(){}\[\].;,]+\.(?:true|false))(?![\w.'-])", r"\1", s)
    out, pos = "", 0
    for m in re.finditer(r"(?<![\w.'-])(?:passed|refused) ", s):
        i = m.end()
        for _ in range(2): # past `{..}` and the first argument
            while i < len(s) and s[i].isspace(): i += 1
            if i < len(s) and s[i] in "({":
                d, brace = 0, s[i] == "{"
                while i < len(s):
                    if s[i] in "({[": d += 1
                    if s[i] in ")}]": d -= 1
                    i += 1
                    if d == 0: break
                if not brace: break
            else:
                while i < len(s) and not s[i].isspace() and s[i] not in "()": i += 1
                break
        q = re.match(r"\s+(c\.if-not-[^\s(){}\[\].;,]+)\.(true|false)(?![\w.'-])", s[i:])
        if q and i >= pos:
            out += s[pos:i] + f" (not_from_{'false' if q.group(2) == 'true' else 'true'} _ {q.group(1)}.{q.group(2)})"
            pos = i + q.end()
    return out + s[pos:]

def after_lets(body):
    """(lets, rest) of `let a = x in let b = y in rest`, by words at depth 0"""
    d, opened, last = 0, 0, 0
    for m in re.finditer(r"[(\[{]|[)\]}]|(?<![\w.'-])(?:let|in)(?![\w'-])", body):
        w = m.group(0)
        if w in "([{": d += 1
        elif w in ")]}": d -= 1
        elif d == 0 and w == "let":
            if opened == 0 and body[last:m.start()].strip(): break
            opened += 1
        elif d == 0 and w == "in":
            opened -= 1
            if opened == 0: last = m.end()
    return body[:last], body[last:]

def as_record(body, names):
    """the old nested tuple as a record by clause, behind its lets"""
    lets, rest = after_lets(body)
    if re.match(r"\s*(search|omega|grind|absurd|record|elim|simp|cc)\b", rest): return body
    r = tuple_record(rest, names)
    if r is None:
        if re.match(r"\s*\(", rest): return body
        paths = ["it" + ".1" * k + (".0" if k < len(names) - 1 else "") for k in range(len(names))]
        r = "let it = " + rest.strip() + " in record { " + "; ".join(f"{n} = {q}" for n, q in zip(names, paths)) + " }"
    return lets + (" " if lets and not lets.endswith((" ", "\n")) else "") + r

class Fn:
    def __init__(self, d, crate, path, clauses):
        self.d, self.crate, self.path, self.clauses = d, crate, path, clauses
        self.places = d["places"]
        self.ix = {p[0]: i for i, p in enumerate(self.places)}
        self.unresolved = []

    def place_of_need(self, i):
        try: return self.ix.get(self.d["asked_at"][i][0])
        except IndexError: return None

    def parent(self, i):
        p = self.places[i][1]
        return None if p is None else self.ix.get(p)

    def names_for(self, callee, which):
        if not callee: return None
        c, _, q = callee.partition("::")
        q = q.replace("::", ".")
        for key in ((c, q), (c, q.split(".")[-1])):
            if key in self.clauses: return self.clauses[key][which]
        return None

    def clause(self, rest, names):
        """rest: list of fields after ensures/requires."""
        if names and len(names) == 1 and names[0] and not (rest and rest[0] == names[0]): return [names[0]] + rest
        if not names or len(names) < 2: return rest
        n, k, r = len(names), 0, list(rest)
        while r and r[0] == "1" and k < n - 1:
            r.pop(0); k += 1
        if k < n - 1:
            if not r or r[0] != "0":
                if r and r[0] in names: return rest
                return rest
            r.pop(0)
        return [names[k]] + r

    def own(self, which):
        key = (self.crate, self.path)
        v = self.clauses.get(key) or self.clauses.get((self.crate, self.path.split(".")[-1]))
        return v[which] if v else None

    def chain(self, place, fields):
        """c.fields -> new text, or None"""
        i = place; fs = list(fields)
        while fs and fs[0] == "before" and i is not None:
            i = self.parent(i); fs.pop(0)
        while fs and fs[0] == "before": fs.pop(0)
        if not fs: return None if i is None else ("PLACE", i)
        x, rest = fs[0], fs[1:]
        if x in ("args", "ranges", "well_formed", "captures", "utf8"): return "c." + ".".join([x] + rest)
        if x in ("pre", "requires"): return "c." + ".".join(["requires"] + self.clause(rest, self.own(0)))
        # a step: at this place, or above it; else the nearest of that name
        j = None
        for start in (i, place):
            j = start
            while j is not None:
                p = self.places[j]; old, new = p[2]
                if old and norm(old) == norm(x):
                    break
                j = self.parent(j)
            if j is not None: break
        if j is None: return None
        p = self.places[j]; old, new = p[2]
        arms = self.d["arms"][j]
        # raw facts
        rest = ["invariant" if (r == "inv") else r for r in rest]
        if arms:
            best = None
            for f in arms[2]:
                fname, fstep, fpath = f
                if norm(fstep) == norm(x) and list(fpath) == rest[: len(fpath)] and fpath:
                    if best is None or len(fpath) > len(best[1]): best = (fname, fpath)
            if best: return "c." + ".".join([arms[0], best[0]] + rest[len(best[1]):])
        if rest and rest[0] == "ensures":
            known = self.names_for(p[3], 1)
            if known is None and p[3] and rest[1:2] != ["value"]: rest = ["ensures", "value"] + rest[1:]
            else: rest = ["ensures"] + self.clause(rest[1:], known)
        if rest and rest[0] in ("taken",): rest[0] = "true"
        if rest and rest[0] in ("left",) and old.startswith("if"): rest[0] = "false"
        if rest and rest[0] in ("came",): rest[0] = "branch"
        return "c." + ".".join([new] + rest)

    def body(self, text, place, var="c"):
        def one(m):
            fs = m.group(2).strip(".").split(".")
            r = self.chain(place, fs)
            if r is None:
                self.unresolved.append(m.group(0)); return m.group(0)
            if isinstance(r, tuple):
                return f"⟦PLACE {r[1]}⟧"
            return r
        # lets that bind a place: let X = c.before.before in
        pat = re.compile(r"(?<![\w.'-])(" + var + r")((?:\." + r"[^\s(){}\[\].;,@\"«»\\|]+" + r")+)")
        out = pat.sub(one, text)
        for _ in range(6):
            m = re.search(r"let (" + W + r") = ⟦PLACE (\d+)⟧ in\s*", out)
            if not m: break
            name, pl = m.group(1), int(m.group(2))
            rest = out[m.end():]
            rest = re.sub(r"(?<![\w.'-])(" + re.escape(name) + r")((?:\.[^\s(){}\[\].;,@\"«»\\|]+)+)", lambda q: one_at(self, q, pl), rest)
            out = out[: m.start()] + rest
        return out

def one_at(fn, q, pl):
    r = fn.chain(pl, q.group(2).strip(".").split("."))
    if r is None:
        fn.unresolved.append(q.group(0)); return q.group(0)
    if isinstance(r, tuple): return f"⟦PLACE {r[1]}⟧"
    return r

DECL = re.compile(r"(?m)^(?:(?:pub|abbrev|unfoldable) )*(" + W + r") : ")

def declarations(text):
    """[(name, whole text)] of the file, and the head."""
    t = text
    ms = list(DECL.finditer(t))
    # start of each: include preceding comment lines
    starts = []
    for m in ms:
        s = m.start()
        while True:
            prev = t.rfind("\n", 0, s - 1) + 1
            line = t[prev:s]
            if line.startswith("--"): s = prev
            else: break
        starts.append(s)
    head = t[: starts[0]] if starts else t
    return head, [(m.group(1), t[starts[i]: starts[i + 1] if i + 1 < len(starts) else len(t)].rstrip()) for i, m in enumerate(ms)]

PARAMS = {}

def parameters(crates):
    for p in glob.glob(crates + "/*/src/*.rt"):
        crate = p.split("/")[-3]
        t = re.sub(r"//[^\n]*", "", read(p))
        for m in re.finditer(r"\bfn (\w+)(?:<[^>(]*>)?\(", t):
            d, i = 1, m.end()
            while d and i < len(t):
                d += {"(": 1, ")": -1, "[": 1, "]": -1, "<": 1, ">": -1}.get(t[i], 0) if not t.startswith("->", i - 1) else 0
                i += 1
            ps = split_top(t[m.end(): i - 1].replace("<", "(").replace(">", ")"))
            names = []
            for q in ps:
                q = q.strip()
                if re.match(r"(&(?:'\w+ )?(?:mut )?|mut )?self\b", q): names.append("self")
                else: names.append(re.sub(r"^mut ", "", q.split(":")[0].strip()))
            PARAMS.setdefault((crate, m.group(1)), names)

def named(crate, path, text):
    ps = PARAMS.get((crate, path.split(".")[-1]), [])
    return re.sub(r"\.t(\d+)(?![\w'-])", lambda m: "." + ps[int(m.group(1)) - 1] if 0 < int(m.group(1)) <= len(ps) else m.group(0), text)

def convert(crate, path, d, oldtext, clauses, wanted):
    oldtext = named(crate, path, oldtext)
    fn = Fn(d, crate, path, clauses)
    head, decls = declarations(oldtext)
    goal_of = {}
    spec = None
    for name, text in decls:
        if re.search(r": \{M : Type 1\} → statement|: statement M", text): spec = text
    order = []
    if spec:
        m = re.search(r"\(tie\.spec\s+(.*)\)\s*$", spec, re.S)
        if m: order = m.group(1).split()
    needs = d["needs"]
    loops = [l[0][1] for l in d.get("loops", [])]
    answers, invs, helpers, notes = [], [], [], []
    goalnames = {n: t for n, t in decls}
    wants = wanted
    order_goals = [n for n in order if n in goalnames and re.search(r": tie\.Need", goalnames[n])]
    index = {}
    if len(order_goals) == len(needs):
        index = {n: i for i, n in enumerate(order_goals)}
    else:
        settled = {norm(re.sub("overflow_", "", s)) for s in d.get("settled", [])}
        left = [n for n in order_goals]
        byname = {norm(o): i for i, (o, _) in enumerate(needs)}
        for n in left:
            t = goalnames[n]
            m = re.search(r": tie\.Need-(" + W + ")", t)
            k = norm(re.sub(r"^(overflow|nonzero|bounds)-", "", m.group(1))) if m else norm(n)
            for cand in (norm(n), k, norm(n).replace("holds", "init").replace("again", "preserved").replace("less", "smaller")):
                if cand in byname: index[n] = byname[cand]; break
            else:
                pass
    ln = 0
    for name, text in decls:
        if text is spec: continue
        sig_end = text.find("\n")
        if re.search(r": tie\.(?:InvT|MeasureT|invariant|decreases)-", text):
            inv = bool(re.search(r": tie\.(?:InvT|invariant)-", text))
            m = re.search(r": tie\.(?:InvT|MeasureT|invariant|decreases)-(" + W + ")", text)
            lname = m.group(1)
            new = None
            for l in d.get("loops", []):
                if norm(l[0][0]) == norm(lname): new = l[0][1]
            if new is None and loops: new = loops[min(ln, len(loops) - 1)]
            if not inv: ln += 1
            kind = "invariant" if inv else "decreases"
            mm = re.search(r"(?ms)^" + re.escape(name) + r"((?: " + W + r")*) =\s+(.*)$", text)
            if not mm:
                notes.append(f"-- {name}: by hand\n" + text); continue
            params, body = mm.group(1).split(), mm.group(2)
            names = set(params)
            for p in sorted(params, key=len, reverse=True):
                if p == "_": continue
                q = f"l.initial.{p[:-1]}" if p.endswith("₀") else f"l.{p}"
                body = re.sub(r"(?<![\w.'₀-])" + re.escape(p) + r"(?![\w'₀-])(?! = )", q, body)
            body = re.sub(r"(l\.[\w.]+)\.now", r"\1", body) if False else body
            un = re.search(r"(?m)^unfolding .*$", text)
            invs.append(f"abbrev pub {kind}-{new} : goal.{kind}-{new}\n" + (un.group(0) + "\n" if un else "") + f"{kind}-{new} l = {body}")
            continue
        if re.search(r": tie\.Need|^" + re.escape(name) + r" : tie\.", text.split("\n= ")[0]):
            if name not in index: continue
            i = index[name]
            newg = needs[i][1]
            if wants is not None and newg not in wants and not any(w.startswith(newg + "-clause-") for w in wants): continue
            place = fn.place_of_need(i)
            m = re.search(r"(?ms)^(" + re.escape(name) + r"(?: [^=\n:]*?)?) =\s+(.*)$", text)
            if not m:
                notes.append(f"-- {name}: by hand\n" + text); continue
            params = m.group(1).split()[1:]
            body = m.group(2)
            un = re.search(r"(?m)^unfolding .*$", text)
            var = params[0] if params else "c"
            nb = fn.body(expand_lets(body, var), place, var)
            if var != "c": nb = re.sub(r"(?<![\w.'-])" + re.escape(var) + r"(?![\w'-])", "c", nb)
            if nb.strip() in ("search rules",) and wants is not None:
                pass
            if newg.endswith("-requires") or "-requires-" in newg:
                nxt = None
                for p in fn.places:
                    if p[1] == fn.places[place][0] if place is not None else False: 
                        if p[3] and norm(p[2][0]).startswith(norm(re.sub(r"-requires.*", "", needs[i][0]))): nxt = p[3]
                nm = fn.names_for(nxt, 0) if nxt else None
                if nm is None:
                    f = re.sub(r"-requires.*", "", needs[i][1])
                    for (cr, q), v in fn.clauses.items():
                        if q == f: nm = v[0]
                if nm and len(nm) > 1:
                    nb = as_record(nb, nm)
            if re.match(r"returns(-|$)", newg):
                nm = fn.own(1)
                if nm and len(nm) > 1 and all(nm): nb = as_record(nb, nm)
            if wants is not None and newg not in wants and re.fullmatch(r"search rules|omega arith", nb.strip()):
                # only some clauses are left open: one line each
                for w in sorted(wants):
                    if w.startswith(newg + "-clause-"): answers.append(f"pub {w} : goal.{w}\n" + (un.group(0) + "\n" if un else "") + f"{w} c = {nb.strip()}")
                continue
            args = ["c"]
            if newg.startswith("returns") and len(params) > 1: args = ["c"] + params[1:]
            answers.append(f"pub {newg} : goal.{newg}\n" + (un.group(0) + "\n" if un else "") + f"{newg} {' '.join(args)} = {nb.rstrip()}")
            continue
        helpers.append(text)
    return head, invs, answers, helpers, notes, fn.unresolved

def uses(head, text, extra):
    """use lines of the head whose names the text cites"""
    out = []
    for m in re.finditer(r"(?m)^(?:pub )?use ([^\s{}]+?)(?:\.\{([^}]*)\})?( as \S+)?$", head):
        mod, names, as_ = m.group(1), m.group(2), m.group(3)
        if mod.endswith((".Tie", ".Statement", ".Reads", ".Lts")) : continue
        if names is None:
            out.append(m.group(0)); continue
        keep = []
        for n in [x.strip() for x in names.replace("\n", " ").split(",") if x.strip()]:
            last = n.split()[-1]
            if "◌" in last or re.search(r"(?<![\w.'-])" + re.escape(last) + r"(?![\w'-])", text): keep.append(n)
        if keep: out.append(f"use {mod}.{{{', '.join(keep)}}}")
    has = " ".join(out)
    more = [n for n, q in (("sym", r"(?<![\w.'-])sym (?=[^\n]*∙)"), ("ap", r"\(ap not "), ("◌∙◌", "∙")) if re.search(q, text) and not re.search(r"[{ ]" + re.escape(n) + r"[,}]", has)]
    if more: out.insert(0, f"use mathlib.Core.Path.{{{', '.join(more)}}}")
    if "(ap not " in text and not re.search(r"[{ ]not[,}]", has): out.insert(0, "use mathlib.Core.Bool.{not}")
    return "\n".join(out + [extra]) + "\n"

def main():
    a = sys.argv[1:]
    crate_dir, names, old = a[0], a[1], a[2]
    goals = None
    if "--goals" in a:
        goals = {}
        for m in re.finditer(r"(?m)^fn (\S+?): .*?`search` did not prove ((?:`[^`]+`(?:, | and )?)+)", read(a[a.index("--goals") + 1])):
            path = m.group(1).split("::", 1)[1].replace("::", ".")
            goals[path] = set(re.findall(r"`([^`]+)`", m.group(2)))
    crate = os.path.basename(os.path.abspath(crate_dir))
    clauses = clause_names(os.path.dirname(os.path.abspath(crate_dir)))
    parameters(os.path.dirname(os.path.abspath(crate_dir)))
    d = json.loads(read(names))
    for key, v in d.items():
        m = re.match(r"Rattle-" + crate + r"-proofs\.(.*)\.Lts$", key)
        if not m: continue
        path = m.group(1)
        folder = path.replace(".", "/")
        op = f"{old}/{folder}/Proof.antt"
        if not os.path.exists(op): continue
        wanted = None if goals is None else goals.get(path, set())
        loops = d[key].get("loops")
        if goals is not None and not wanted and not loops: continue
        if "--all" in a: wanted = None
        try:
            head, invs, answers, helpers, notes, unres = convert(crate, path, v, read(op), clauses, wanted)
        except Exception as e:
            print(f"{path}: {type(e).__name__} {e}"); continue
        dest = f"{crate_dir}/proofs/{folder}"
        os.makedirs(dest, exist_ok=True)
        base = f"Rattle.{crate}.proofs.{path}"
        if invs and not os.path.exists(dest + "/Invariants.antt"):
            t = "\n\n".join(invs) + "\n"
            open(dest + "/Invariants.antt", "w").write(uses(head, t, f"use {base}.Given as goal") + "\n" + t)
        if answers and not os.path.exists(dest + "/Answers.antt"):
            used = "\n".join(answers)
            hs = [h for h in helpers]
            t = "\n\n".join(hs + answers + notes) + "\n"
            n = not_tests(t)
            imp = "use Rattle.std.proofs.lemmas.Bool.{not_from_true, not_from_false}\n" if "not_from_" in n else ""
            t = n
            open(dest + "/Answers.antt", "w").write(imp + uses(head, t, f"use {base}.Goals as goal") + "\n" + t)
        print(f"{path}: {len(answers)} answers, {len(invs)} invariants" + (f", unresolved {unres[:3]}" if unres else "") + (f", {len(helpers)} helpers" if helpers else ""))

main()
