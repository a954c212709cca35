#!/usr/bin/env python3
"""Turns a function's Proof.antt of the older Rattle into Invariants.antt and Answers.antt of today's.

usage: tools/port_answers.py NAMES OLD CRATE..

NAMES is the folder that `rt names NAMES` wrote of this repository, OLD a checkout of the last commit in the older Rattle. A Proof.antt
whose lemmas take a whole context, or of functions that call one another, is left, and a line says so.
"""

import glob
import json
import os
import re
import sys

F = r"(?:«[^»\n]*»|[^\s(){}.;,@\"«»\[\]]+)"
WORDSTART = r"(?<![^\s(){};,\[\]])"


def plain(name):
    """A name as an older kit spelled it, before port_names.py, whatever its dashes."""
    return re.sub(r"[-_]+", "-", re.sub(r"(_lem)+$", "", name)).lower()


# Kinds of goals that had a third name still earlier.
ALIASES = [(r"-holds\b", "-init"), (r"-again\b", "-preserved"), (r"-less\b", "-smaller")]


def aliased(need):
    for old, new in ALIASES:
        need = re.sub(old, new, need)
    return need


def split_blocks(text):
    """Comments, `use` lines and declarations at the left margin, each with the lines below it that belong to it."""
    lines = text.split("\n")
    blocks, i = [], 0
    while i < len(lines):
        line = lines[i]
        if not line.strip():
            i += 1
            continue
        if line.startswith("--"):
            blocks.append(["comment", line, None])
            i += 1
            continue
        if line.startswith("use "):
            blocks.append(["use", line, None])
            i += 1
            continue
        m = re.match(r"((?:pub |abbrev |unfoldable )*)(\S+)((?: [({].*)?) :", line)
        k = i + 1
        name = m[2] if m else None
        while k < len(lines):
            nxt = lines[k]
            if not nxt.strip():
                # a blank line ends a block unless what follows is indented
                if k + 1 < len(lines) and lines[k + 1].startswith(" "):
                    k += 1
                    continue
                break
            if nxt.startswith(" ") or nxt.startswith("unfolding ") or (name and re.match(re.escape(name) + r"(\s|$)", nxt)):
                k += 1
                continue
            if nxt.startswith(")") or nxt.startswith("}"):
                k += 1
                continue
            break
        blocks.append(["decl", "\n".join(lines[i:k]).rstrip(), name])
        i = k
    return blocks


class Left(Exception):
    pass


class Names:
    def __init__(self, data):
        self.d = data
        self.place = {}
        for i, p in enumerate(data["places"]):
            self.place.setdefault(plain(p[0]), i)
        self.needs = {plain(o): n for o, n in data["needs"]}
        self.order = [n for _, n in data["needs"]]
        # The names of an answer's parts stand under the goal's older name.
        self.asked = {self.needs[plain(o)]: fields for o, fields in data["asked"].items() if plain(o) in self.needs}

    def parent(self, i):
        p = self.d["places"][i][1]
        return None if p is None else self.place[plain(p)]

    def step(self, i):
        return self.d["places"][i][2]


def field_of(fields, path):
    """The field that a path of pairs leads to, with what is left of the path; or None where it stops early."""
    n = len(fields)
    for k in range(n):
        want = ["1"] * k + (["0"] if k < n - 1 else [])
        if path[: len(want)] == want:
            return fields[k], path[len(want) :]
    return None


def tuple_of(prefix, fields, path):
    """What a path that stops early stands for, written as pairs."""
    k = 0
    while path[k : k + 1] == ["1"]:
        k += 1
    if path[k:]:
        raise Left("pair path " + ".".join(path))
    rest = [f"{prefix}.{f}" for f in fields[k:]]
    out = rest[-1]
    for r in reversed(rest[:-1]):
        out = f"({r}, {out})"
    return out


class Turn:
    def __init__(self, names, where):
        self.n, self.where, self.said = names, where, []
        self.helpers, self.wanted = {}, []

    # A state is ("place", i), ("path", i, [fields]) : a step's fields behind place i, whose emitted root may be a variable.
    def walk(self, state, fields):
        """Follows fields from a state; returns ("place", i) or ("text", emitted) or ("open", i, fields)."""
        n = self.n
        kind = state[0]
        if kind == "place":
            i = state[1]
            fields = list(fields)
            while fields and fields[0] == "before":
                # An older kit had a step more at some starts.
                i = n.parent(i) or 0
                fields.pop(0)
            if not fields:
                return ("place", i, state[2] if len(state) > 2 else state[1])
            f = fields[0]
            if f in ("args", "lifetimes", "ranges", "well_formed"):
                return ("text", "c." + ".".join({"ptr": "ref_ptr"}.get(x, x.replace("-", "_")) for x in fields))
            if f in ("requires", "pre"):
                fields[0] = "requires"
                pre = n.d.get("pre")
                if pre:
                    got = field_of(pre["fields"], fields[1:])
                    if got:
                        return ("text", "c.requires." + ".".join([got[0]] + got[1]))
                    return ("text", tuple_of("c.requires", pre["fields"], fields[1:]))
                return ("text", "c." + ".".join(fields))
            j = i
            while j is not None and plain(n.step(j)[0]) != plain(f):
                j = n.parent(j)
            if j is None:
                # An older kit had more steps on some ways, so that as many `before` lead too far.
                base = state[2] if len(state) > 2 else state[1]
                j = base
                while j is not None and plain(n.step(j)[0]) != plain(f):
                    j = n.parent(j)
            if j is None:
                raise Left(f"no step {f} at {n.d['places'][i][0]}")
            return self.at_step(j, fields[1:])
        if kind == "open":
            return self.at_step(state[1], state[2] + list(fields))
        raise Left("state")

    def at_step(self, j, rest):
        n = self.n
        new = n.step(j)[1]
        old = n.step(j)[0]
        # Words of a step that were others still earlier.
        if rest:
            rest = [{"last": "new", "inv": "invariant", "taken": "true", "left": "false", "post": "ensures"}.get(rest[0], rest[0])] + rest[1:]
        arm = n.d["arms"][j]
        clause = n.d["clauses"][j]
        if arm:
            for to, step, path in sorted(arm[2], key=lambda a: -len(a[2])):
                if plain(step) == plain(old) and rest[: len(path)] == path and path:
                    left = rest[len(path) :]
                    return ("text", "c." + ".".join([arm[0], to] + left))
            for k in range(len(arm[2])):
                to, step, path = arm[2][k]
                if plain(step) == plain(old) and path[: len(rest)] == rest and path:
                    return ("open", j, rest)
            # a step that the arm has under a name of its own
            for to, step, path in arm[2]:
                if plain(step) == plain(old) and not path and rest:
                    return ("text", "c." + ".".join([arm[0], "own"] + rest))
        if rest[:1] == ["ensures"] and clause and clause.get("fields"):
            got = field_of(clause["fields"], rest[1:])
            if got:
                return ("text", "c." + ".".join([new, "ensures", got[0]] + got[1]))
            if rest[1:] == [] or set(rest[1:]) == {"1"}:
                return ("open", j, rest)
            raise Left("ensures " + ".".join(rest))
        if rest[:1] in (["new"], ["auto"]) and n.d["places"][j][3]:
            callee = n.d["places"][j][3]
            params = n.d["params"].get(callee)
            if params is None:
                raise Left(f"no parameters of {callee}")
            k = 1
            while rest[k : k + 1] == ["1"]:
                k += 1
            idx = k - 1
            if len(rest) == 1:
                return ("open", j, rest)
            if rest[k : k + 1] == ["0"] or idx == len(params) - 1:
                end = k + 1 if rest[k : k + 1] == ["0"] and idx < len(params) - 1 else k
                if idx == len(params) - 1 and rest[k : k + 1] == ["0"]:
                    end = k + 1
                return ("text", "c." + ".".join([new, rest[0], params[idx]] + rest[end:]))
            return ("open", j, rest)
        if not rest:
            return ("open", j, rest)
        return ("text", "c." + ".".join([new] + rest))

    def emit_open(self, state):
        """The text of a state that stops at a step or inside a tuple."""
        n, j, rest = self.n, state[1], state[2]
        new = n.step(j)[1]
        if not rest:
            return "c." + new
        if rest[0] == "ensures":
            return tuple_of(f"c.{new}.ensures", n.d["clauses"][j]["fields"], rest[1:])
        raise Left(f"whole of {new}.{'.'.join(rest)}")

    def atom(self, text, pos):
        """The end of an atom that begins at pos: a path, or what brackets enclose, with fields behind it."""
        if pos < len(text) and text[pos] in "([{":
            depth, k = 0, pos
            while k < len(text):
                if text[k] in "([{":
                    depth += 1
                elif text[k] in ")]}":
                    depth -= 1
                    if depth == 0:
                        k += 1
                        break
                k += 1
        else:
            m = re.compile(F).match(text, pos)
            if not m:
                raise Left("no argument at " + text[pos : pos + 30])
            k = m.end()
        m = re.compile(rf"(?:\.{F})*").match(text, k)
        return k, m.end()

    def context(self, text, pos, env):
        """The state that a context expression at pos stands for and where it ends; None where there is none."""
        if pos >= len(text):
            return None
        if text[pos] == "(":
            k, end = self.atom(text, pos)
            inner = text[pos + 1 : k - 1].strip()
            got = self.whole_context(inner, env)
            if got is None:
                return None
            return self.walk(got, text[k:end].split(".")[1:]), end
        m = re.compile(F).match(text, pos)
        if not m:
            return None
        k, end = self.atom(text, pos)
        if m[0] in env:
            return self.walk(env[m[0]], text[k:end].split(".")[1:]), end
        h = self.helpers.get(m[0])
        if h and h["place"] is not None and end == k:
            p = re.compile(r"\s+").match(text, k)
            if not p:
                return None
            got = self.context(text, p.end(), env)
            if got is None:
                return None
            return ("place", h["place"]), got[1]
        return None

    def whole_context(self, text, env):
        got = self.context(text, 0, env)
        if got is None or text[got[1] :].strip():
            return None
        return got[0]

    def use_helper(self, h, text, pos, env):
        """A helper's name ends at pos: takes its arguments, and returns what is written for the call and where it ends."""
        args = {}
        for name, place in h["params"]:
            p = re.compile(r"\s+").match(text, pos)
            at = p.end() if p else pos
            if place is not None:
                got = self.context(text, at, env)
                if got is None or got[0][0] != "place":
                    raise Left(f"argument of {h['name']}: {text[at:at+40]}")
                pos = got[1]
                continue
            if h["kind"] == "lemma":
                break
            if not p or at >= len(text) or text[at] in ")]},;=":
                break
            m = re.compile(r"(?:→|×|≡|∙|in|\+\+|∷|≤|<|\+|-|↔|\||↦)(?=\s)").match(text, at)
            if m:
                break
            k, end = self.atom(text, at)
            args[name] = self.body(text[at:end], env)
            pos = end
        if h["kind"] == "lemma":
            self.wanted.append(h["name"])
            return h["name"], pos
        if "out" not in h:
            if h.get("busy"):
                raise Left(h["name"] + " names itself")
            h["busy"] = True
            h["out"] = self.body(h["body"], {n: ("place", pl) for n, pl in h["params"] if pl is not None}).strip()
        out = h["out"]
        rest = [n for n, pl in h["params"] if pl is None and n not in args]
        sub = {n: (v if re.fullmatch(rf"{F}(?:\.{F})*", v) or v.startswith("(") and self.atom(v, 0)[0] == len(v) else f"({v})") for n, v in args.items()}
        if sub:
            def put(m):
                v = sub.get(m[1])
                if v is None:
                    return m[0]
                return v + m[2]
            out = re.sub(rf"{WORDSTART}({F})((?:\.{F})*)", put, out)
        if rest:
            return f"(λ {' '.join(rest)}. {out})", pos
        return (out if re.fullmatch(rf"{F}(?:\.{F})*", out) else f"({out})"), pos

    def body(self, text, env):
        """Rewrites paths; drops `let`s that name a place or a step; writes out what takes a context."""
        env = dict(env)
        out, pos = [], 0
        let = re.compile(rf"let ({F}) =\s+")
        while pos < len(text):
            before = pos == 0 or text[pos - 1] in " \n\t(){};,[]"
            if before and text.startswith("let ", pos):
                m = let.match(text, pos)
                got = self.context(text, m.end(), env) if m else None
                if got:
                    q = re.compile(r"\s+in(\s+)(?=\S)").match(text, got[1])
                    if q:
                        state = got[0]
                        if state[0] == "text":
                            env.pop(m[1], None)
                            out.append(f"let {m[1]} = {state[1]} in{q[1]}")
                        else:
                            env[m[1]] = state
                        pos = q.end()
                        continue
            if before:
                named = re.compile(rf"{F}\s+=\s").match(text, pos)
                got = None if named else self.context(text, pos, env)
                if got:
                    state = got[0]
                    if state[0] == "text":
                        out.append(state[1])
                    elif state[0] == "open":
                        out.append(self.emit_open(state))
                    else:
                        raise Left(f"a whole context: {text[pos:got[1]]}")
                    pos = got[1]
                    continue
                m = re.compile(F).match(text, pos)
                if m and m[0] in self.helpers:
                    k, end = self.atom(text, pos)
                    h = self.helpers[m[0]]
                    # a field that is being given a value has the helper's name by chance
                    if h["place"] is None and not re.compile(r"\s+=\s").match(text, k):
                        written, pos = self.use_helper(h, text, k, env)
                        out.append(written)
                        continue
                if m:
                    k, end = self.atom(text, pos)
                    out.append(text[pos:end])
                    pos = end
                    continue
            out.append(text[pos])
            pos += 1
        return "".join(out)

    def lemmas(self, term):
        """`let`s in front of a term for the lemmas that it wants, each behind those that it wants itself."""
        done, lines, opened = [], [], []

        def visit(name):
            if name in done:
                return
            h = self.helpers[name]
            if "type_out" not in h:
                env = {n: ("place", pl) for n, pl in h["params"] if pl is not None}
                keep, self.wanted = self.wanted, []
                h["type_out"] = self.body(h["type"], env).strip()
                h["body_out"] = self.body(h["body"], env).strip()
                h["wants"], self.wanted = self.wanted, keep
            for w in h["wants"]:
                visit(w)
            done.append(name)
            rest = [n for n, pl in h["params"] if pl is None]
            lam = f"λ {' '.join(rest)}. " if rest else ""
            opened.extend(h["unfolding"])
            ty, bd = h["type_out"], lam + h["body_out"]
            ty = f"({ty})" if ty.startswith("let ") else ty
            bd = f"({bd})" if bd.startswith("let ") or lam else bd
            lines.append(f"let {name} : {ty} = {bd} in")

        for w in list(dict.fromkeys(self.wanted)):
            visit(w)
        self.wanted = []
        return lines, opened


def arrows(text):
    """The parts of a type between the arrows of its own level."""
    depth, parts, start = 0, [], 0
    for k, ch in enumerate(text):
        if ch in "([{":
            depth += 1
        elif ch in ")]}":
            depth -= 1
        elif ch == "→" and depth == 0:
            parts.append((start, k))
            start = k + 1
    parts.append((start, len(text)))
    return parts


def helper_of(names, sig, unf, args, body, name):
    """A helper that takes a context, read; None where it takes none."""
    m = re.match(r"((?:pub |abbrev |unfoldable )*)(\S+)\s*:\s*(.*)\Z", sig, re.S)
    if not m:
        raise Left("signature of " + name)
    kind = "abbrev" if "abbrev" in m[1] else "lemma"
    text = m[3]
    params, used, end = [], 0, 0
    for a, b in arrows(text):
        if used >= len(args):
            break
        part = text[a:b].strip()
        groups = re.findall(r"[({]([^(){}]*?) : ((?:[^(){}]|\([^()]*\))*)[)}]", part) if re.match(r"[({][^(){}]* : ", part) else None
        got = []
        if groups:
            for ns, ty in groups:
                got += [ty.strip()] * len(ns.split())
        else:
            got = [part]
        for ty in got:
            if used >= len(args):
                raise Left("arguments of " + name)
            q = re.match(r"tie\.(\S+)", ty)
            place = names.place.get(plain(q[1])) if q else None
            if q and place is None:
                raise Left(f"{name}: no place {q[1]}")
            if place is not None or kind == "abbrev":
                end = b + 1
            if place is not None and any(pl is None for _, pl in params) and kind == "lemma":
                raise Left(name + " takes a context late")
            params.append((args[used], place))
            used += 1
    if used < len(args):
        raise Left("arguments of " + name)
    rest = text[end:].strip()
    q = re.match(r"tie\.(\S+)", rest)
    place = names.place.get(plain(q[1])) if q else None
    return dict(name=name, kind=kind, params=params, type=rest, body=body, unfolding=unf, place=place)


def top_split(text):
    """Parts of a tuple without its parentheses, at commas of its own level; None where it is no tuple."""
    text = text.strip()
    if not (text.startswith("(") and text.endswith(")")):
        return None
    depth, parts, start = 0, [], 1
    for k, ch in enumerate(text):
        if ch in "([{":
            depth += 1
        elif ch in ")]}":
            depth -= 1
            if depth == 0 and k < len(text) - 1:
                return None
        elif ch == "," and depth == 1:
            parts.append(text[start:k])
            start = k + 1
    parts.append(text[start:-1])
    parts = [p for p in parts if p.strip()]
    return parts if len(parts) > 1 else None


def let_split(text):
    """The `let .. in` prefix of a term and the rest."""
    pos = 0
    while True:
        m = re.compile(r"\s*let\s").match(text, pos)
        if not m:
            break
        depth, k = 0, m.end()
        lets = 1
        while k < len(text):
            if text[k] in "([{":
                depth += 1
            elif text[k] in ")]}":
                depth -= 1
            elif depth == 0 and re.compile(r"(?<=\s)let\s").match(text, k):
                lets += 1
            elif depth == 0 and re.compile(r"(?<=[\s)])in(?=\s)").match(text, k):
                lets -= 1
                if lets == 0:
                    break
            k += 1
        if k >= len(text):
            break
        pos = k + 2
    return text[:pos], text[pos:]


def as_record(body, fields):
    prefix, rest = let_split(body)
    parts = top_split(rest)
    values = []
    term = rest.strip()
    for k in range(len(fields) - 1):
        parts = top_split(term)
        if not parts:
            break
        values.append(parts[0].strip())
        term = parts[1].strip() if len(parts) == 2 else "(" + ", ".join(p.strip() for p in parts[1:]) + ")"
    if len(values) == len(fields) - 1:
        values.append(term)
    elif not values:
        if re.fullmatch(r"search .*|grind .*|omega .*", term):
            return prefix + " " + term
        values = [f"both.{'1.' * k}{'0' if k < len(fields) - 1 else ''}".rstrip(".") for k in range(len(fields))]
        return f"{prefix}\n    let both = {term} in\n    record {{ {'; '.join(f'{f} = {v}' for f, v in zip(fields, values))} }}"
    else:
        rest = len(values)
        more = len(fields) - rest
        values += [f"both.{'1.' * k}{'0' if k < more - 1 else ''}".rstrip(".") for k in range(more)]
        prefix += f"\n    let both = {term} in"
    return prefix + "\n    record {\n" + "\n".join(f"      {f} = {v};" for f, v in zip(fields, values)) + "\n    }"


def clause_parts(block, name):
    """(signature, unfolding lines, arguments, body) of a declaration with one equation."""
    m = re.search(rf"^{re.escape(name)}((?: [^\s=]+)*) =(.*)\Z", block, re.S | re.M)
    if not m:
        raise Left("equation of " + name)
    head = block[: m.start()]
    unf = re.findall(r"^unfolding .*(?:\n .*)*", head, re.M)
    sig = re.sub(r"^unfolding .*(?:\n .*)*", "", head, flags=re.M).strip()
    return sig, unf, m[1].split(), m[2]


def turn(data, old_text, text, module, where):
    n = Names(data)
    blocks = split_blocks(text)
    old_needs = re.findall(r"^(\S+)\s*:\s*(?:\([^)]*\)\s*→\s*)?tie\s*\.\s*Need-(\S+)", old_text, re.M)
    new_goals = [b for b in blocks if b[0] == "decl" and re.search(r":\s*tie\.Need-", b[1].split("\n")[0])]
    if len(old_needs) != len(new_goals):
        raise Left(f"{len(old_needs)} goals before, {len(new_goals)} now")
    goal_of = {}
    for (oname, oneed), b in zip(old_needs, new_goals):
        goal_of[b[2]] = oneed
    inv_names, comments, uses = set(), [], []
    invs, helpers, answers, head = [], [], [], []
    pending = []
    loops = data["loops"]
    changed = data["changed"]
    t = Turn(n, where)
    for kind, body, name in blocks:
        if kind == "comment":
            pending.append(body)
            continue
        if kind == "use":
            uses.append(body)
            if pending:
                head += pending
                pending = []
            continue
        first = body.split("\n")[0]
        if name and name.endswith(("-spec", "_spec")) and "statement M" in body:
            pending = []
            continue
        if re.search(r":\s*tie\.(invariant|decreases)-", first):
            m = re.search(r"tie\.(invariant|decreases)-(\S+)", first)
            which, old_loop = m[1], m[2]
            k = [i for i, l in enumerate(loops) if plain(l[0][0]) == plain(old_loop)]
            if not k:
                raise Left("loop " + old_loop)
            k = k[0]
            sig, unf, args, term = clause_parts(body, name)
            vs = loops[k][1]
            ch = changed[k]
            want = [("initial", v) if c else ("now", v) for v, c in zip(vs, ch)] + [("now", v) for v, c in zip(vs, ch) if c]
            if len(want) != len(args):
                raise Left(f"loop {old_loop} has {len(args)} names, not {len(want)}")
            sub = {}
            for a, (w, v) in zip(args, want):
                sub[a] = f"l.initial.{v}" if w == "initial" else f"l.{v}"
            if any(re.search(rf"{WORDSTART}{re.escape(h)}(?![^\s(){{}};,.\[\]])", term) for h in t.helpers):
                raise Left("an invariant takes a context")
            term = re.sub(rf"{WORDSTART}({F})", lambda q: sub.get(q[1], q[1]), term)
            new_loop = loops[k][0][1]
            invs.append("\n".join(pending + [f"abbrev pub {which}-{new_loop} : goal.{which}-{new_loop}"] + unf + [f"{which}-{new_loop} l ={term}"]))
            inv_names.add(name)
            pending = []
            continue
        if name in goal_of and re.search(r":\s*tie\.Need-", first):
            need = goal_of[name]
            new = n.needs.get(plain(need)) or n.needs.get(plain(aliased(need)))
            sig, unf, args, term = clause_parts(body, name)
            if re.fullmatch(r"\s*search rules\s*", term):
                pending = []
                continue
            if new is None:
                t.said.append(f"{where}: no goal for {need}, dropped: {term.strip()[:100]}")
                pending = []
                continue
            i = n.place[plain(data["asked_at"][n.order.index(new)][0])]
            if args[0] != "c":
                raise Left("first argument " + args[0])
            env = {"c": ("place", i)}
            more = "".join(" " + a for a in args[1:] if a != "κs")
            term = t.body(term, env)
            if new in n.asked:
                term = as_record(term, n.asked[new])
            lets, opened = t.lemmas(term)
            unf = unf + [u for u in dict.fromkeys(opened) if u not in unf]
            if lets:
                term = "\n    " + "\n    ".join(lets) + "\n    " + term.strip()
            answers.append("\n".join(pending + [f"pub {new} : goal.{new}"] + unf + [f"{new} c{more} ={term}"]))
            pending = []
            continue
        if "tie." in body:
            sig, unf, args, term = clause_parts(body, name)
            t.helpers[name] = helper_of(n, sig, unf, args, term, name)
            t.helpers[name]["comment"] = pending
            pending = []
            continue
        helpers.append((name, "\n".join(pending + [body])))
        pending = []
    rest = [u for u in uses if not re.search(r"\.(Statement\.\{statement\}|Tie as tie)$", u)]
    # Lemmas that an invariant names stand beside it.
    inv_text = "\n".join(invs)
    near, grew = set(), True
    while grew:
        grew = False
        seen = inv_text + "\n".join(h for nme, h in helpers if nme in near)
        for nme, _ in helpers:
            if nme and nme not in near and re.search(rf"{WORDSTART}{re.escape(nme)}(?![^\s(){{}};,.\[\]])", seen):
                near.add(nme)
                grew = True
    inv_helpers = [h for nme, h in helpers if nme in near]
    ans_helpers = [h for nme, h in helpers if nme not in near]

    def needed(uses, body):
        kept = []
        for u in uses:
            m = re.match(r"use (\S+?)(?:\.\{([^}]*)\})?(?: as (\S+))?$", u)
            items = [x.strip() for x in re.split(r",\s*", m[2])] if m[2] else None

            def used(item):
                item = item.split(" as ")[-1]
                if "◌" in item:
                    parts = [p for p in item.split("◌") if p]
                    return all(p in body for p in parts)
                return re.search(rf"(?<![^\s(){{}};,.\[\]]){re.escape(item)}(?![^\s(){{}};,.\[\]])", body) is not None

            if items is None:
                if used(m[3] or m[1].split(".")[-1]):
                    kept.append(u)
                continue
            items = [x for x in items if x and used(x)]
            if items:
                kept.append(f"use {m[1]}.{{{', '.join(items)}}}")
        return kept

    files = {}
    if invs:
        body = "\n\n".join([re.sub(r"^(abbrev |unfoldable )?(?=\S+ )", lambda q: (q[1] or "") , h) for h in inv_helpers] + invs)
        if near:
            body = re.sub(rf"^((?:abbrev |unfoldable )?)({'|'.join(re.escape(x) for x in near)})(?=[^\n]* :)", r"\1pub \2", body, flags=re.M)
        files["Invariants.antt"] = "\n".join(head[:1] + needed(rest, body) + [f"use {module}.Given as goal", "", body, ""])
    if answers:
        body = "\n\n".join(ans_helpers + answers)
        more = []
        used_near = [x for x in sorted(near) if re.search(rf"{WORDSTART}{re.escape(x)}(?![^\s(){{}};,.\[\]])", body)]
        if used_near:
            more = [f"use {module}.Invariants.{{{', '.join(used_near)}}}"]
        files["Answers.antt"] = "\n".join(head + needed(rest, body) + more + [f"use {module}.Goals as goal", "", body, ""])
    return files, t.said


def main():
    names, old, crates = sys.argv[1], sys.argv[2], sys.argv[3:]
    done = left = 0
    for crate in crates:
        data = json.load(open(f"{names}/crates/{crate}/names.json", encoding="utf-8"))
        for path in sorted(glob.glob(f"crates/{crate}/proofs/**/Proof.antt", recursive=True)):
            f = os.path.dirname(path)[len(f"crates/{crate}/proofs/") :]
            key = f"Rattle-{crate}-proofs.{f.replace('/', '.')}.Lts"
            if key not in data:
                print(f"left: {path}: no names")
                left += 1
                continue
            was = {"json_read": "json"}.get(crate, crate)
            old_path = f"{old}/crates/{was}/proofs/{f}/Proof.antt"
            if not os.path.isfile(old_path):
                print(f"left: {path}: not in {old_path}")
                left += 1
                continue
            old_text = open(old_path, encoding="utf-8").read()
            text = open(path, encoding="utf-8").read()
            try:
                files, said = turn(data[key], old_text, text, f"Rattle.{crate}.proofs.{f.replace('/', '.')}", path)
            except (Left, KeyError, IndexError) as e:
                print(f"left: {path}: {type(e).__name__} {e}")
                left += 1
                continue
            for s in said:
                print("look:", s)
            os.remove(path)
            for g, body in files.items():
                with open(os.path.join(os.path.dirname(path), g), "w", encoding="utf-8") as it:
                    it.write(body)
            if not os.listdir(os.path.dirname(path)):
                os.rmdir(os.path.dirname(path))
            done += 1
    print(f"turned {done}, left {left}")


main()
