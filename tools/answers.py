#!/usr/bin/env python3
"""Turns the Proof.antt of functions into Answers.antt and Invariants.antt.

usage: tools/answers.py CRATE [FOLDER..]

It asks rt for the old and the new name of each goal and each step of CRATE, and turns each proofs/F/Proof.antt
(or those of the folders that are named) whose goals are listed. An answer that only says 'search rules' goes. A line 'left:' names what is to do by hand.
"""

import json
import os
import re
import subprocess
import sys
import tempfile

NAME = r'[^\s(){}.;,@"«»]+'
PATH = re.compile(r'(?<![^\s(){};,@"«»\[\]|])([a-z]\w*)((?:\.(?:«[^»]*»|[^\s(){}.;,@"«»\[\]]+))+)')


def flat(name):
    return name.replace("_", "-").strip("«»")


def run_names(crate):
    folder = tempfile.mkdtemp(prefix="names-")
    said = subprocess.run(["rt", "check", "--generated", folder, "--old-names"], cwd=os.path.join("crates", crate),
                          stdout=subprocess.PIPE, stderr=subprocess.STDOUT, text=True).stdout
    path = os.path.join(folder, "names.json")
    if not os.path.exists(path):
        print(said[-3000:])
        raise SystemExit("no names")
    return json.load(open(path))


def chunks(text):
    """The top-level parts of a file: lists of lines."""
    out = []
    for line in text.split("\n"):
        if line and not line[0].isspace() and not line.startswith(")"):
            out.append([line])
        elif out:
            out[-1].append(line)
        else:
            out.append([line])
    return ["\n".join(c).rstrip() for c in out]


def steps_of(data):
    old = {"arms": {}}
    for arms in data["arms"]:
        if arms:
            for field, step, path in arms[2]:
                if path and not field.endswith("-own"):
                    field = "ensures" if field.endswith("-ensures") else field
                    old["arms"].setdefault((flat(step), tuple(path)), (arms[0], field))
    for typed in data["typed"]:
        for name, known in typed:
            old[flat(known)] = (f"type_inv.{name}", None, None)
    for (place, before, names, _, _), clauses, arms in zip(data["places"], data["clauses"], data["arms"]):
        if names[0]:
            old.setdefault(flat(names[0]), (names[1], clauses, arms))
    return old


def renamed_paths(body, steps, crate_note):
    def one(m):
        head, parts = m[1], m[2][1:].split(".")
        if all(p == "before" for p in parts):
            return m[0]
        parts = [p for p in parts if p != "before"]
        if head not in ("c", "s"):
            return ".".join([head] + parts)
        if parts[:2] == ["type-inv", "ensures"]:
            parts[0] = "typed"
        for k in range(len(parts), 1, -1):
            arm = steps["arms"].get((flat(parts[0]), tuple(parts[1:k]))) if parts else None
            if arm:
                return ".".join([head, arm[0], arm[1]] + parts[k:])
        if parts and flat(parts[0]) in steps and parts[0] != "arms":
            new, clauses, arms = steps[flat(parts[0])]
            parts[0] = new
            if new.startswith("type_inv.") and parts[1:2] == ["given"]:
                del parts[1]
            if clauses and "ensures" in parts:
                i = parts.index("ensures")
                fields = clauses["fields"]
                rest = parts[i + 1 :]
                k = 0
                while rest and rest[0] == "1" and k < len(fields) - 2:
                    rest, k = rest[1:], k + 1
                if rest and rest[0] in ("0", "1"):
                    k += int(rest[0])
                    parts[i + 1 :] = [fields[k]] + rest[1:]
            if new.startswith("in-") or new.startswith("in_"):
                if parts[1:3] == ["given", "1"]:
                    parts[1:3] = ["is"]
        return ".".join([head] + parts)

    return PATH.sub(one, body)


class Decl:
    def __init__(self, chunk):
        self.sig = chunk
        self.rest = []


def parse(text):
    head, uses, decls, note = [], [], [], []
    for c in chunks(text):
        if c.startswith("--"):
            if not uses and not decls:
                head.append(c)
            else:
                note.append(c)
        elif c.startswith("use "):
            uses.append(c)
        elif re.match(r"(pub |abbrev |unfoldable |ruleset |data |record |mutual|module )*" + NAME + r"(?: " + NAME + r")*(?: \{[^}]*\})*\s*:", c) or re.match(r"(pub )?(module|mutual|data|record|ruleset|abbrev) ", c):
            d = Decl(c)
            d.note = note
            note = []
            decls.append(d)
        elif decls:
            decls[-1].rest.append(c)
        elif c.strip():
            head.append(c)
    return head, uses, decls


def split_top(text):
    """The words of an application, parentheses kept together."""
    words, depth, cur = [], 0, ""
    for ch in text:
        if ch.isspace() and depth == 0:
            if cur:
                words.append(cur)
            cur = ""
            continue
        depth += (ch in "([{") - (ch in ")]}")
        cur += ch
    if cur:
        words.append(cur)
    return words


def commas(text):
    parts, depth, cur = [], 0, ""
    for ch in text:
        if ch == "," and depth == 0:
            parts.append(cur.strip())
            cur = ""
            continue
        depth += (ch in "([{") - (ch in ")]}")
        cur += ch
    parts.append(cur.strip())
    return parts if parts[-1] else parts[:-1]


def is_plain(body):
    return re.sub(r"\s+", " ", body.strip()) in ("search rules", "omega arith")


def bare(word):
    return word[1:-1].strip() if word.startswith("(") and word.endswith(")") else word


def without_plain_lets(body):
    """Drops each 'let a = c in', and writes c for a."""
    while True:
        m = re.search(r"let (\w+) = ((?:c|t|s)(?:\.[^\s(){},;]+)*)\s+in\s+", body)
        if not m:
            return body
        rest = re.sub(r"(?<![^\s(){};,@\"«»\[\]|])" + m[1] + r"(?=[.\s)},;])", m[2], body[m.end() :])
        body = body[: m.start()] + rest


def without_befores(body):
    """Drops 'before' from each path, but from one that has nothing else outside a let."""

    def one(m):
        parts = m[2][1:].split(".")
        if all(p == "before" for p in parts):
            return m[1] if re.search(r"let \w+ = $", body[: m.start()]) else m[0]
        return ".".join([m[1]] + [p for p in parts if p != "before"])

    return PATH.sub(one, body)


def let_prefix(body):
    """The lets in front of a body, and the rest."""
    pre = ""
    while body.startswith("let "):
        depth, i = 0, 4
        while i < len(body):
            ch = body[i]
            depth += (ch in "([{") - (ch in ")]}")
            if depth == 0 and re.match(r"\sin\s", body[i : i + 4]):
                break
            i += 1
        pre += body[: i + 3] + "\n    "
        body = body[i + 3 :].strip()
    return pre, body


def split_clauses(body, fields):
    """Turns 'promised R X Y' and the like into one answer for each clause, or returns None."""
    pre, body = let_prefix(body)
    parts = split_clauses_of(body, fields)
    if parts:
        parts = [(f, "search all_bytes" if f == "bytes" and isinstance(b, str) and b.endswith(".1") else b) for f, b in parts]
    if parts and pre:
        bound = re.findall(r"let (\w+)", pre)
        wants = lambda b: any(re.search(r"(?<![\w.-])" + x + r"(?![\w-])", b) for x in bound)
        parts = [(f, b if isinstance(b, tuple) or is_plain(b) or not wants(b) else "\n    " + pre + b) for f, b in parts]
    return parts


def pieces(term, fields):
    """The fields of a nested pair, each by its projection."""
    if len(fields) == 1:
        return [(fields[0], term)]
    inner = bare(term)
    parts = commas(inner) if term.startswith("(") else []
    if len(parts) < 2 and re.match(r"^\(?search ", term):
        return [(f, bare(term)) for f in fields]
    if len(parts) > 1:
        if len(parts) == 2 and len(fields) > 2:
            return [(fields[0], parts[0])] + pieces(parts[1], fields[1:])
        if len(parts) == len(fields):
            return list(zip(fields, parts))
    term = term if re.match(r"^[\w.]+$", term) or term.startswith("(") and not re.search(r"^\([^()]*\).*\(", term) and closed(term) else f"({term})"
    out, at = [], term
    for k, f in enumerate(fields):
        if k == len(fields) - 1:
            out.append((f, at))
        else:
            out.append((f, at + ".0"))
            at += ".1"
    return out


def closed(term):
    """Whether a term is one pair of brackets."""
    depth = 0
    for i, ch in enumerate(term):
        depth += (ch in "([{") - (ch in ")]}")
        if depth == 0:
            return i == len(term) - 1
    return False


def split_clauses_of(body, fields):
    words = split_top(body)
    head = words[0] if words else ""
    if head == "promised" and len(words) == 4 and len(fields) >= 3:
        return [(fields[0], bare(words[2])), (fields[1], ("ap", words[1]))] + pieces(words[3], fields[2:])
    if head == "reporting" and len(words) == 3 and len(fields) >= 3:
        got = pieces(words[2], [fields[0]] + fields[2:])
        return [got[0], (fields[1], ("ap", words[1]))] + got[1:]
    if head == "reporting_with" and len(words) == 4 and len(fields) == 4:
        got = pieces(words[2], [fields[0], fields[2]])
        return [got[0], (fields[1], ("ap", words[1])), got[1], (fields[3], bare(words[3]))]
    if head in ("two_and", "three_and", "one_and") and len(words) == 3:
        return pieces(words[1], fields[:-1]) + [(fields[-1], bare(words[2]))]
    if head == "reported" and len(words) == 3 and len(fields) == 2:
        return [(fields[0], bare(words[2])), (fields[1], ("ap", words[1]))]
    if head in ("search", "omega", "rw", "simp", "grind"):
        return [(f, body) for f in fields] if head != "rw" else None
    return pieces(body if len(words) == 1 else f"({body})", fields)


def main(argv):
    crate = argv[0]
    names = run_names(crate)
    root = os.path.join("crates", crate, "proofs")
    wanted = argv[1:]
    for folder, dirs, fs in os.walk(root):
        if "Proof.antt" not in fs:
            continue
        rel = os.path.relpath(folder, root)
        if wanted and rel not in wanted:
            continue
        base = f"Rattle-{crate}-proofs." + rel.replace("/", ".")
        found = {k[len(base) + 1 :]: v for k, v in names.items() if k.startswith(base + ".")}
        if not found:
            print(f"left: {rel}: no goals are listed")
            continue
        turn(crate, folder, rel, found)


def turn(crate, folder, rel, found):
    text = open(os.path.join(folder, "Proof.antt")).read()
    if not re.search(r"Need-|\btie\.", text):
        print(f"left: {rel}: a walk by hand")
        return
    head, uses, decls = parse(text)
    cycle = len(found) > 1
    alias = {}
    for u in uses:
        m = re.match(r"use \S+\.(Lts\S*|Tie) as (\S+)", u)
        if m:
            alias[m[2]] = m[1]
    only = next(iter(found)) if not cycle else None
    lines, invs, lefts = [], [], []
    for d in decls:
        sig = re.sub(r"\s+", " ", d.sig)
        m = re.match(r"(?:pub |abbrev )*(\S+) : (?:\(t : ℕ\) → )?(\S+?)\.(Need|invariant|decreases)-(\S+)", sig)
        if not m:
            if re.search(r"statement\b|Measures|: In |\.Claims|→ In ", sig) or re.match(r"(abbrev )?uses\b", sig):
                if "Measures" in sig:
                    invs.append(measure(d, crate, rel, found))
                continue
            whole = "\n".join(d.note + [d.sig] + d.rest)
            if "tie." in whole and only:
                data = found[only]
                spots = {flat(a[0]): b for a, b in zip(data["places"], data["places_by_name"])}
                whole = re.sub(r"\btie\.((?:After|Then|Else|At|In)[^\s(){};,.]*)", lambda x: "goal." + spots.get(flat(x[1]), x[1]), whole)
                whole = renamed_paths(without_plain_lets(without_befores(whole)), steps_of(data), None)
            lines.append(whole + "\n")
            continue
        lts = alias.get(m[2], "Tie" if m[2] == "tie" else None)
        key = "Lts" if lts in ("Tie", None) else lts
        data = found.get(key) or found.get(only) if not cycle else found.get(key)
        if data is None:
            lefts.append(f"{m[1]}: no list for {m[2]}")
            continue
        prefix = ""
        if cycle:
            fn = key[len("Lts-") :]
            prefix = fn + "-"
        steps = steps_of(data)
        rest = "\n".join(d.rest)
        um = re.match(r"(unfolding [^\n]*(?:\n +[^\n]*)*\n)?(.*)", rest, re.S)
        unfold, clause = um[1] or "", um[2]
        cm = re.match(r"(\S+)((?: \S+)*?)\s*=(?=\s)(.*)", clause, re.S)
        if not cm:
            lefts.append(f"{m[1]}: clause not understood")
            continue
        params, body = cm[2].split(), cm[3]
        if m[3] in ("invariant", "decreases"):
            loops = {flat(l[0][0]): (l[0][1], l[1], c) for l, c in zip(data["loops"], data["changed"])}
            new, vars_, changed = loops.get(flat(m[4]), (None, None, None))
            if new is None:
                lefts.append(f"{m[1]}: no loop {m[4]}")
                continue
            count = sum(changed)
            if len(params) != len(vars_) + count:
                lefts.append(f"{m[1]}: {len(params)} parameters for {vars_} {changed}")
            to = {}
            for i, p in enumerate(params):
                if i < len(vars_):
                    to[p] = f"l.initial.{vars_[i]}" if changed[i] else f"l.{vars_[i]}"
            after = [v for v, c in zip(vars_, changed) if c]
            for p, v in zip(params[len(vars_) :], after):
                to[p] = f"l.{v}"
            body = re.sub(r"(?<![^\s(){};,@\"«»])" + r"([^\s(){}.;,@\"«»]+)(?!\s+=\s)", lambda x: to.get(x[1], x[1]), body)
            word = m[3]
            invs.append(f"abbrev pub {word}-{prefix}{new} : goal.{word}-{prefix}{new}\n{unfold}{word}-{prefix}{new} l ={body}\n")
            continue
        goals = {flat(b): b for a, b in data["needs"]} | {flat(a): b for a, b in data["needs"]}
        new = goals.get(flat(m[4]))
        if new is None:
            pre = re.sub(r"^overflow-", "", flat(m[4]))
            new = goals.get(pre)
        if new is None:
            lefts.append(f"{m[1]}: no goal {m[4]}")
            continue
        cparam = [p for p in params if p not in ("κs",)]
        body = renamed_paths(without_plain_lets(without_befores(body)), steps, None)
        if "+" in rel:
            body = re.sub(r"\bc\.requires\.1(?=[.\s,)])", "c.requires", body)
            body = re.sub(r"omega \(\s*arith,\s*c\.requires\.0,?\s*\)", "omega arith", body)
        body = re.sub(r"let (\w+) = c\.well-formed\S* in\s+", "", body)
        body = re.sub(r"\(arrays (?:_ )+g\S* g\S* g[^\s)]*\)", "(arrays c.args.table (omega arith) (omega arith) (omega arith))", body)
        body = re.sub(r"\((?:off|on) _ (c\.[^\s()]+)\)", r"\1", body)
        if not unfold and is_plain(body):
            continue
        fields = (data.get("asked") or {}).get(next((a for a, b in data["needs"] if b == new), None)) or []
        parts = split_clauses(body.strip(), fields) if fields else None
        if parts:
            again = {"arms": {}} | {flat(v[0]): v for k, v in steps.items() if k != "arms"}
            parts = [(f, b if isinstance(b, tuple) else renamed_paths(b, again, None)) for f, b in parts]
        note = "\n".join(d.note) + "\n" if d.note else ""
        p = " ".join(cparam)
        g = prefix + new
        if parts:
            for f, b in parts:
                n = f"{g}-clause-{f}"
                if isinstance(b, tuple):
                    lines.append(f"pub {n} : goal.{n}\n{n} {p} = ap {b[1]} ({g}-clause-{fields[0]} {p})\n")
                elif not is_plain(b) or (f == fields[0] and any(isinstance(x, tuple) for _, x in parts)):
                    lines.append(f"{note}pub {n} : goal.{n}\n{unfold}{n} {p} = {b}\n")
            continue
        if fields:
            lefts.append(f"{g}: clauses {fields}: {body.strip()[:80]}")
        lines.append(f"{note}pub {g} : goal.{g}\n{unfold}{g} {p} ={body}\n")
    drop = re.compile(r"\.(Statement|Tie|Lts\S*|Reads|Kinds|Claims)\b|borrow\.Fn\.(Kinds|PlainCycle)|\.proofs\.\S*\.\{statement\}")
    keep = [u for u in uses if not drop.search(u)]
    path = f"Rattle.{crate}.proofs." + rel.replace("/", ".")
    heading = "\n".join(head)
    need_ap = any(re.search(r"= ap ", x) for x in lines) and not any(re.search(r"[{, ]ap[,}]", u) for u in keep)
    if need_ap:
        keep.append("use mathlib.Core.Path.{ap}")
    if any("omega arith" in x for x in lines) and not any("{arith}" in u or " arith" in u for u in keep):
        keep.append("use native.Mathlib.Omega.{arith}")
    if any("search all_bytes" in x for x in lines) and not any("all_bytes" in u for u in keep):
        keep.append("use Rattle.der.proofs.Promised.{all_bytes}")
    if lines:
        write(os.path.join(folder, "Answers.antt"), heading, keep, f"use {path}.Goals as goal", lines)
    if invs:
        write(os.path.join(folder, "Invariants.antt"), heading if not lines else "", keep, f"use {path}.Given as goal", invs)
    os.remove(os.path.join(folder, "Proof.antt"))
    if not lines and not invs:
        try:
            os.removedirs(folder)
        except OSError:
            pass
    for l in lefts:
        print(f"left: {rel}: {l}")


def measure(d, crate, rel, found):
    """A cycle's measure: an argument by its number becomes the argument by its name."""
    params = {}
    for data in found.values():
        params |= data["params"]
    fn = re.search(r"μ-(\S+)", d.sig)[1]
    mine = {f: ps for f, ps in params.items() if f.split("::")[:-1] == [crate] + rel.split("/")[:-1] and flat(f.split("::")[-1]) == fn}
    full, own = next(iter(mine.items()))
    name = full.split("::")[-1]
    body = "\n".join(d.rest).split("=", 1)[1]
    body = re.sub(r"\ba((?:\.1)*)(\.0)?(?![\w.])", lambda m: "l." + own[len(m[1]) // 2], body)
    return f"abbrev pub decreases-{name} : goal.decreases-{name}\ndecreases-{name} l ={body}\n"


def write(path, head, uses, own, parts):
    body = "\n".join(parts)
    kept = []
    for u in uses:
        m = re.match(r"use (\S+?)\.\{(.*)\}$", re.sub(r"\s+", " ", u))
        if m:
            ns = [n.strip() for n in m[2].split(",")]
            used = [n for n in ns if appears(n.split(" as ")[-1].strip(), body)]
            if used:
                kept.append(f"use {m[1]}.{{{', '.join(used)}}}")
        else:
            kept.append(u)
    with open(path, "w") as f:
        f.write((head + "\n" if head else "") + "\n".join(kept + [own]) + "\n\n" + body)


def appears(name, body):
    if "◌" in name:
        parts = [p for p in name.strip("«»").split("◌") if p]
        return all(p in body for p in parts) or name in body
    return re.search(r"(?<![^\s(){}.;,@\"«»\[\]|])" + re.escape(name.strip("«»")) + r"(?![^\s(){}.;,@\"«»\[\]|])", body) is not None


if __name__ == "__main__":
    main(sys.argv[1:])
