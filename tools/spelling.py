#!/usr/bin/env python3
"""Spells the repository's own definitions and lemmas in snake case, after port.py of the kit has run.

usage: tools/spelling.py [--check]

A name that an .antt file declares and that is spelled as 'bagRow', 'accepted-is-stored' or 'andDigit-below' is written
'bag_row', 'accepted_is_stored', 'and_digit_below', in specs/, proofs/, the clauses of src/ and the edits of must-fail/, and
in the pages between back quotes. Types, facts and modules keep their camel case. What stays:
  a name that a Proof.antt declares for a goal (its type names tie or an Lts), in that file
  a name with a dash behind a dot, but for a field that a record of the repository declares
  a name that a file imports from a library, in that file
Where the new spellings of a definition and a lemma would fall together, the lemma's gets '_lem' behind it.
The crate base64 becomes base64_chars, since the kit has a library base64.
--check writes nothing. The script prints what it renames.
"""

import collections
import os
import re
import sys

NAME = r'[^\s(){}.;,@"«»]+'
DECLARED = re.compile(
    r"(?m)^( *)((?:(?:pub|abbrev|unfoldable|data|record|ruleset)\s+)*)(" + NAME + r"(?: " + NAME + r")*?)"
    r"((?: \{[^{}\n]*\})*)\s*:(?= |$)([^\n]*)"
)
USE = re.compile(r"\buse ([^\s;{]+?)\.?\{([^}]*)\}", re.S)
GOAL = re.compile(r"\btie\b|-lts\b|\bLts|^ ?statement\b|\bstatement M|\bStatement\b|Tie|: In |Measures|Claims")
TOKEN = re.compile(NAME)
CAMEL = re.compile(r"[a-z][a-z0-9]*(?:[A-Z]\w*)")


def is_candidate(name):
    """Whether a declared name may be respelled: words of letters, digits, dashes and underscores with a small letter first."""
    return bool(re.fullmatch(r"[a-z][A-Za-z0-9_]*(?:-[A-Za-z0-9_]+)*'*", name)) and ("-" in name or bool(re.search("[A-Z]", name)))


def in_snake_case(name):
    words = re.sub(r"(?<=[a-z0-9])[A-Z]", lambda m: "_" + m[0].lower(), name)
    words = words.replace("-", "_")
    return re.sub(r"(?<=_)[A-Z]", lambda m: m[0].lower(), words)


def files(root, endings):
    for folder, dirs, names in os.walk(root):
        dirs[:] = sorted(d for d in dirs if d not in ("out", "target", ".git"))
        for f in sorted(names):
            if f.endswith(endings):
                yield os.path.join(folder, f)


def read(path):
    with open(path, encoding="utf-8") as f:
        return f.read()


def without_comments(text):
    return re.sub(r"(?m)--[^\n]*", "", text)


def main(argv):
    write = "--check" not in argv
    top = os.path.dirname(os.path.dirname(os.path.realpath(__file__)))
    crates = os.path.join(top, "crates")
    texts = {p: read(p) for p in files(crates, (".antt",))}
    declared, goals, fields, everywhere = collections.defaultdict(set), collections.defaultdict(set), set(), set()
    for p, text in texts.items():
        in_record = None
        body = without_comments(text)
        for m in DECLARED.finditer(body):
            indent = len(m[1])
            for n in m[3].split(" "):
                everywhere.add(n)
                if p.endswith("/Proof.antt") and (GOAL.search(m[5]) or re.search(r"-(lts|Inv|μ)|-spec$", n + m[5])
                                                  or goal_below(body, m.end())):
                    goals[p].add(n)
                elif is_candidate(n):
                    declared[n].add(p)
        for m in re.finditer(r"(?m)^ *(?:pub |abbrev )*record .*? where\n((?:(?: +[^\n]*)?\n)*)", body):
            fields |= {x for d in DECLARED.finditer(m[1]) for x in d[3].split(" ")}
    new = {n: in_snake_case(n) for n in declared}
    # names that fall together
    back = collections.defaultdict(set)
    for n, x in new.items():
        back[x].add(n)
    # A definition keeps the plain name, and the lemma beside it gets '_lem'.
    stays, older = set(), {}
    for x, ns in back.items():
        camel = [n for n in ns if "-" not in n]
        if len(ns) == 1 and x not in everywhere:
            continue
        if len(camel) > 1:
            stays |= ns
            print(f"stays: {sorted(ns)}: {x}")
            continue
        for n in ns:
            new[n] = x if n in camel else x + "_lem"
        if camel and x in everywhere:
            older[x] = x + "_lem"
        print(f"together: {sorted(ns)}: " + ", ".join(f"{n} is {new[n]}" for n in sorted(ns)) + (f", {x} is {older[x]}" if x in older else ""))
    taken = [x for x in list(new.values()) + list(older.values()) if x.endswith("_lem") and x in everywhere]
    if taken:
        print(f"taken: {taken}")
    imported = {}
    for p, text in texts.items():
        names = set()
        for m in USE.finditer(text):
            path = m[1].split(".")
            if path[0] != "Rattle" or (len(path) > 1 and not os.path.isdir(os.path.join(crates, path[1]))):
                names |= {x.split(" as ")[-1].strip(" «»") for x in m[2].replace("\n", " ").split(",")}
        imported[p] = names - {""}
        tokens = set(TOKEN.findall(without_comments(text)))
        for n in tokens & set(new) - stays - imported[p]:
            if new[n] in tokens:
                where = "import" if new[n] in imported[p] else "token"
                if where == "import":
                    imported[p].add(n)
                    print(f"stays in {p}: {n}, which meets an imported name")
    for n in stays:
        del new[n]
    texts_new = dict(new)
    new |= older
    for x, y in older.items():
        texts_new[x.replace("_", "-")] = y
    changed = 0
    for p, text in texts.items():
        out = turn_antt(text, new, imported[p] | goals[p], fields)
        changed += put(p, text, out, write)
    known = everywhere | set(new.values())
    for p in files(crates, (".rt",)):
        text = read(p)
        changed += put(p, text, turn_rt(text, {n: x for n, x in new.items() if n not in older}), write)
    for p in files(crates, (".edit",)):
        text = read(p)
        changed += put(p, text, turn_any(text, texts_new, known), write)
    for p in list(files(os.path.join(top, "docs"), (".md",))) + [os.path.join(top, "README.md")]:
        text = read(p)
        out = re.sub(r"`[^`\n]*`", lambda m: turn_any(m[0], texts_new, known), text)
        changed += put(p, text, out, write)
    changed += rename_base64(top, write)
    print(f"{len(new)} names, {changed} files")


def rename_base64(top, write):
    """The kit has a library base64, so the crate of that name is called base64_chars."""
    crates, changed = os.path.join(top, "crates"), 0
    for p in list(files(crates, (".antt", ".rt", ".edit"))):
        text = read(p)
        out = re.sub(r"\bbase64(?=::|\.specs\b|\.proofs\b)", "base64_chars", text)
        changed += put(p, text, out, write)
    p = os.path.join(top, "crates.txt")
    text = read(p)
    out = "\n".join(l if l.startswith("#") else re.sub(r"\bbase64\b", "base64_chars", l) for l in text.split("\n"))
    changed += put(p, text, out, write)
    if write and os.path.isdir(os.path.join(crates, "base64")):
        os.rename(os.path.join(crates, "base64"), os.path.join(crates, "base64_chars"))
    return changed


def goal_below(body, at):
    """Whether a declaration whose type is on the next lines names a goal."""
    return bool(re.match(r"\s*\(?(?:t : ℕ\)\s*)?→ \S*(?:-lts|tie)\.", body[at : at + 200]))


def put(path, old, new, write):
    if old == new:
        return 0
    if write:
        with open(path, "w", encoding="utf-8") as f:
            f.write(new)
    return 1


def turn_antt(text, new, keep, fields):
    def one(m, at_dot):
        n = m[0]
        if n not in new or n in keep:
            return n
        if at_dot and ("-" in n or "_" in n) and n not in fields:
            return n
        return new[n]

    lines = []
    for line in text.split("\n"):
        cut = re.search(r"(?<![^\s(){}.;,])--(?!-?>)", line)
        code, note = (line[: cut.start()], line[cut.start() :]) if cut else (line, "")
        code = TOKEN.sub(lambda m: one(m, behind_a_value(code, m.start())), code)
        note = re.sub(r"`[^`]*`", lambda b: TOKEN.sub(lambda m: new.get(m[0].strip("`"), m[0].strip("`")).join(
            (m[0][: len(m[0]) - len(m[0].lstrip("`"))], m[0][len(m[0].rstrip("`")) :])), b[0]), note)
        note = CAMEL.sub(lambda m: new.get(m[0], m[0]), note)
        lines.append(code + note)
    return "\n".join(lines)


def behind_a_value(code, at):
    """Whether the name at 'at' stands behind a dot whose left side is a value and no module."""
    if at == 0 or code[at - 1] != ".":
        return False
    left = re.search(r"(\S*)\.$", code[:at])[1]
    last = re.split(r"[.(\s]", left)[-1]
    return not re.match(r"[A-Z+]", last)


def turn_rt(text, new):
    out = []
    for line in text.split("\n"):
        code, slashes, note = line.partition("//")
        code = CAMEL.sub(lambda m: new.get(m[0], m[0]), code)
        code = re.sub(r"[a-z]\w*(?:-\w+)+", lambda m: new.get(m[0], m[0]), code)
        note = CAMEL.sub(lambda m: new.get(m[0], m[0]), note)
        note = re.sub(r"`([^`]*)`", lambda m: "`" + new.get(m[1], m[1]) + "`", note)
        out.append(code + slashes + note)
    return "\n".join(out)


def turn_any(text, new, known):
    def one(m):
        n = m[0]
        if n in new:
            return new[n]
        return in_snake_case(n) if is_candidate(n) and in_snake_case(n) in known else n

    return re.sub(r"(?<![\w.-])[a-z][A-Za-z0-9_]*(?:-[A-Za-z0-9_]+)*'*|(?<=\.)[a-z][A-Za-z0-9_]*(?:-[A-Za-z0-9_]+)*'*", one, text)


if __name__ == "__main__":
    main(sys.argv[1:])
