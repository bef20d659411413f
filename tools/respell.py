#!/usr/bin/env python3
"""Brings the repository's own names of specs/, proofs/ and clauses to snake case, as Rattle's library has them.

usage: python3 tools/respell.py          at the top, once, behind the port to today's Rattle
       python3 tools/respell.py --list   what it would do: each name, old and new, and those that would fall together

Names of src/ (functions, fields, variants, constants), of the library and of what the check makes keep their spelling.
"""

import os
import re
import sys

IDENT = re.compile(r"[^\W\d][\w'+*/<≤≡-]*", re.UNICODE)
CAMEL = re.compile(r"^[a-z]\w*[A-ZĐ]")
DECLARED = re.compile(r"^(\s*)(?:(?:abbrev|unfoldable|pub|opaque)\s+)*(?:(data|record)\s+)?([^\W\d][\w'-]*)\s*(?:[({:].*)?$")
MADE = re.compile(r"(?:Goals|Given|Tie|Statement|Reads|Walk|Body)\b")

# Laws that port.py gave a name in snake case that a definition now has.
LAWS = ["all_found", "last_step", "none_yet", "out_of_range", "same_bytes"]


def files(end):
    for folder, dirs, names in os.walk("crates"):
        dirs[:] = sorted(d for d in dirs if d != "out")
        for n in sorted(names):
            if n.endswith(end):
                yield os.path.join(folder, n)


def read(path):
    with open(path, encoding="utf-8") as f:
        return f.read()


def crates():
    return {line.split(":")[0].split()[0] for line in read("crates.txt").splitlines() if line.strip() and not line.startswith("#")}


def turned(name):
    """The name in snake case."""
    out = []
    for part in name.split("-"):
        part = re.sub(r"(?<=[a-z0-9'])(?=[A-ZĐ])", "_", part)
        part = re.sub(r"(?<=[A-Z])(?=[A-Z][a-z])", "_", part)
        out.append(part)
    return "_".join(out).lower()


def old(name):
    return bool(CAMEL.match(name)) or ("-" in name and not name[0].isupper())


def code_of(line):
    """The line without its comment."""
    return re.split(r"(?:^|\s)--(?:\s|$)", line)[0]


def uses(text):
    """The imports of a file: (module, [names], alias)."""
    for m in re.finditer(r"(?m)^\s*(?:pub |ghost )?use ([\w.'·]+?)(?:\.\{([^}]*)\})?(?: as ([\w'-]+))?;?$", text):
        names = [n.strip().split(" as ") for n in (m.group(2) or "").split(",") if n.strip()]
        yield m.group(1), names, m.group(3)


def is_own(module, own):
    p = module.split(".")
    return len(p) > 2 and p[0] == "Rattle" and p[1] in own and not ("declared" in p) and not (p[2] == "proofs" and len(p) > 4 and MADE.match(p[-1]))


def free(text):
    """The names of a file that stand behind no dot, paths of imports aside."""
    tokens = set()
    for line in text.split("\n"):
        line = re.sub(r'"[^"]*"', "", code_of(line))
        line = re.sub(r"^(\s*(?:pub )?use )[\w.]+?(?=\.\{| as |$)", r"\1", line)
        tokens |= {m.group(0) for m in IDENT.finditer(line) if not line[: m.start()].endswith(".")}
    return tokens


def survey():
    own = crates()
    mine, fields, foreign = {}, set(), set()
    for path in files(".antt"):
        text = read(path)
        answers = os.path.basename(path) in ("Answers.antt", "Invariants.antt")
        for module, names, alias in uses(text):
            for n in names:
                if not is_own(module, own):
                    foreign.add(n[0])
                if len(n) > 1:
                    mine.setdefault(n[1], path)
        inside = None
        for line in text.split("\n"):
            line = code_of(line)
            if not line.strip() or re.match(r"\s*use ", line):
                continue
            if not line.startswith(" "):
                inside = "record" if re.match(r"(?:(?:abbrev|pub) )*record ", line) else None
            m = re.match(r"^\s*(?:(?:abbrev|unfoldable|pub|opaque|data|record)\s+)*([^\W\d][\w'-]*)(?: [^:=]*)?\s:(?:\s|$)", line)
            if m and not (answers and "goal." in line):
                mine.setdefault(m.group(1), path)
                if inside and line.startswith(" "):
                    fields.add(m.group(1))
            m = re.match(r"^(?:(?:abbrev|pub)\s+)*([^\W\d][\w'-]*) [^:]*=", line)
            if m and line.startswith("abbrev"):
                mine.setdefault(m.group(1), path)
            for m in re.finditer(r"[({]([^\W\d][\w' -]*?) :(?: |$)", line):
                for n in m.group(1).split():
                    mine.setdefault(n, path)
            for m in re.finditer(r"λ ((?:[\w'-]+|\([^()]*\)| )+)\.", line):
                for n in re.findall(r"[^\W\d][\w'-]*", m.group(1)):
                    mine.setdefault(n, path)
            for m in re.finditer(r"\blet ([^\W\d][\w'-]*)", line):
                mine.setdefault(m.group(1), path)
    for path in files(".rt"):
        for module, names, alias in uses(read(path)):
            for n in names:
                if len(n) > 1 and module.startswith("Rattle."):
                    mine.setdefault(n[1], path)
    names = {n: turned(n) for n in mine if old(n) and n not in foreign}
    # A law whose name falls together with that of the definition that it speaks of has `_law` behind it.
    for path in files(".antt"):
        tokens = free(read(path))
        for n in tokens:
            if "-" in n and n in names and any(t != n and names.get(t, t) == turned(n) for t in tokens):
                names[n] = turned(n) + "_law"
    for n in LAWS:
        names[n] = n + "_law"
    return names, fields, {n for n in mine if n in foreign and old(n)}


def respelled(text, names, fields, modules, comments):
    """The text with each own name in its new spelling. Behind a dot only a field, or what a module of the repository has."""

    def one(m):
        n = m.group(0)
        if n not in names:
            return n
        at = m.start()
        if at and m.string[at - 1] == ".":
            front = re.search(r"([\w'·-]+)\.$", m.string[:at])
            if front and (front.group(1)[0].isupper() or front.group(1) in modules):
                return names[n]
            return names[n] if n in fields else n
        return names[n]

    out = []
    for line in text.split("\n"):
        if comments:
            parts = re.split(comments, line, maxsplit=1)
        else:
            parts = [line]
        code = re.sub(r'"[^"]*"', lambda m: "\0" + m.group(0) + "\0", parts[0])
        pieces = code.split("\0")
        code = "".join(p if p.startswith('"') else IDENT.sub(one, p) for p in pieces)
        rest = line[len(parts[0]):]
        if rest:
            rest = re.sub(r"`[^`]*`", lambda m: IDENT.sub(one, m.group(0)), rest)
            rest = re.sub(r"(?<![\w.])[a-z]\w*[A-Z]\w*", lambda m: names.get(m.group(0), m.group(0)), rest)
        out.append(code + rest)
    return "\n".join(out)


def ghost_lines(text, names, fields):
    """A .rt file: its `ghost use` lines and its clauses."""
    out, depth = [], 0
    for line in text.split("\n"):
        clause = re.match(r"\s*(?:ghost|requires|ensures)\b", line)
        if line.startswith("ghost use") or clause or depth:
            bare = line
            if not line.startswith("ghost use"):
                depth += bare.count("{") - bare.count("}")
                depth = max(depth, 0)
            line = respelled(line, names, fields, set(), None)
        elif line.lstrip().startswith("//"):
            line = respelled(line, names, fields, set(), r"(?=//)")
        out.append(line)
    return "\n".join(out)


def apart(text, path):
    """In a .rt file a name that is brought in, and that a function, a parameter or a local of the file has too, gets `_of` behind it."""
    used = set()
    for line in text.split("\n"):
        if line.startswith("ghost use") or line.lstrip().startswith("//"):
            continue
        if re.match(r"\s*(?:requires|ensures|ghost)\b", line):
            continue
        used |= set(re.findall(r"\bfn ([a-z_0-9]+)", line))
        used |= set(re.findall(r"(?<![:\w])(?:mut )?([a-z_0-9]+): ", line))
        used |= set(re.findall(r"\blet (?:mut )?([a-z_0-9]+)", line))
        used |= set(re.findall(r"\b(?:mod|const) ([A-Za-z_0-9]+)", line))
    change = {}
    lines = text.split("\n")
    for i, line in enumerate(lines):
        m = re.match(r"^ghost use (Rattle\.[\w.']+)\.\{(.*)\};$", line)
        if not m:
            continue
        items = []
        for it in m.group(2).split(", "):
            if " as " not in it and it in used and it in apart.names:
                change[it] = it + "_of"
                it = f"{it} as {it}_of"
            items.append(it)
        lines[i] = f"ghost use {m.group(1)}.{{{', '.join(items)}}};"
    if change:
        depth = 0
        for i, line in enumerate(lines):
            clause = re.match(r"\s*(?:ghost|requires|ensures)\b", line) and not line.startswith("ghost use")
            if clause or depth:
                depth = max(depth + line.count("{") - line.count("}"), 0)
                lines[i] = re.sub(r"(?<![\w.'])[a-z_0-9]+(?![\w'])", lambda m: change.get(m.group(0), m.group(0)), line)
        print(f"{path}: {', '.join(sorted(change))}")
    return "\n".join(lines)


def main(argv):
    names, fields, left = survey()
    apart.names = set(names.values())
    if argv == ["--list"]:
        known = {}
        for n in sorted(names):
            known.setdefault(names[n], []).append(n)
            print(f"{n} {names[n]}")
        for n, olds in known.items():
            if len(olds) > 1:
                print(f"fall together: {', '.join(olds)}")
        print("of the library too:", " ".join(sorted(left)))
        return 0
    own = crates()
    for path in files(".antt"):
        text = read(path)
        modules = {a for module, _, a in uses(text) if a and is_own(module, own)}
        tokens = set(IDENT.findall("\n".join(code_of(l) for l in text.split("\n"))))
        for n in sorted(tokens):
            if n in names and names[n] in tokens:
                print(f"{path}: {n} and {names[n]} fall together")
        new = respelled(text, names, fields, modules, r"(?=(?:^|(?<=\s))--(?:\s|$))")
        if new != text:
            with open(path, "w", encoding="utf-8") as f:
                f.write(new)
    for path in files(".rt"):
        text = read(path)
        new = apart(ghost_lines(text, names, fields), path)
        if new != text:
            with open(path, "w", encoding="utf-8") as f:
                f.write(new)
    for path in files(".edit"):
        text = read(path)
        out = []
        for line in text.split("\n"):
            out.append(line if line.startswith("file:") else respelled(line, names, fields, set(), None))
        if "\n".join(out) != text:
            with open(path, "w", encoding="utf-8") as f:
                f.write("\n".join(out))
    return 0


if __name__ == "__main__":
    raise SystemExit(main(sys.argv[1:]))
