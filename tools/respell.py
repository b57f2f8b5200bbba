#!/usr/bin/env python3
"""Brings this repository's own definitions, lemmas, fields and constructors to one spelling.

usage: python3 tools/respell.py [--check]      at the top, once, right after the kit's port.py

Types and facts are in upper camel case, everything else in snake case; a dash joins two names, as in `agree-length`,
or a type to a name, as in `All-append`. It goes by text, over .antt, .rt and .edit files and, inside backticks, over the papers.
Names of src/, exported names, strings, inputs and outputs stay. It stops where two names would fall together.
"""

import os
import re
import subprocess
import sys
from collections import defaultdict

# words of the library that a dash may join: the names of functions and constructors
WORDS = set(
    "length take drop append set get_or map reverse sum replicate suc zero min max some none true false fold insert sort from all put paste"
    " add sub mul div mod not nat_le nat_lt head tail".split()
)
# where two names would fall together otherwise
OTHER = {
    "Exact-reads": "ExactReadsDeliver",
    "Exact-pages": "ExactPagesDeliver",
    "Point-3": "Point3Holds",
    "same-name": "has_same_name",
    "Starts-at": "StartsPageAt",
    "structure-size": "has_structure_size",
    "on-target": "is_on_target",
}
# fields of a struct of src/ and of the record of specs/ that it means
BESIDE = {"aoi_locals_refused", "instance_ids", "multi_service", "other_table"}
CUT = re.compile(r"([\s(){}\[\],;.\"`]+)")
HEAD = re.compile(r"^(\s*)((?:(?:unfoldable|abbrev|pub|private)\s+)*)(ruleset\s+|data\s+|record\s+)?(?:pub\s+)?([^\s:=(){}.,;]+(?:\s+[^\s:=(){}.,;]+)*?)\s*(?::(?=\s)|=(?=\s)|\(|where\b|\{)")


def files(root, ends):
    for folder, dirs, names in os.walk(root):
        dirs[:] = sorted(d for d in dirs if d not in ("out", ".git", "target"))
        for f in sorted(names):
            if f.endswith(ends):
                yield os.path.join(folder, f)


def text(p):
    with open(p, encoding="utf-8") as f:
        return f.read()


def code_lines(t):
    return [l for l in t.split("\n") if not l.lstrip().startswith("--")]


def declared(t):
    """What a file declares: name -> its kind ('type', 'field' or 'value')."""
    got = {}
    lines = code_lines(t)
    inside = None  # the indentation of a record or data whose members follow
    for i, l in enumerate(lines):
        s = l.strip()
        if not s or s.startswith(("use ", "pub use", "mod ", "pub mod", "infix", "unfolding", "module", "→", "where", "let ", "(", "λ", "|")):
            continue
        indent = len(l) - len(l.lstrip())
        if inside is not None and indent <= inside:
            inside = None
        m = re.match(r"^\s*(?:(?:unfoldable|abbrev|pub)\s+)*(data|record)\s+(?:pub\s+)?([^\s:({]+)", l)
        if m and not s.startswith("record {"):
            got[m.group(2)] = "type"
            inside = indent
            continue
        m = re.match(r"^\s*(?:(?:unfoldable|abbrev|pub)\s+)*ruleset\s+([^\s=]+)\s*=", l)
        if m:
            got[m.group(1)] = "value"
            continue
        if inside is not None:
            m = re.match(r"^\s*(?:pub\s+)?([^:={}()]+?)\s*:\s", l)
            if m:
                for n in m.group(1).split():
                    got[n] = "field"
            continue
        m = re.match(r"^\s*((?:(?:unfoldable|abbrev|pub)\s+)*)([^\s:={}().,;]+)\s*:(\s.*)?$", l)
        if m and m.group(2) not in ("else", "in"):
            # a signature goes on over deeper lines
            sig, j = (m.group(3) or ""), i + 1
            while j < len(lines) and lines[j].strip() and len(lines[j]) - len(lines[j].lstrip()) > indent and not lines[j].strip().startswith("unfolding"):
                sig += " " + lines[j].strip()
                j += 1
            got[m.group(2)] = "type" if re.search(r"(^|[\s→)])Type \d+\s*$", sig) else "value"
    return got


def snake(n):
    n = re.sub(r"([a-z0-9])([A-Z])", r"\1_\2", n)
    n = re.sub(r"([A-Z]+)([A-Z][a-z])", r"\1_\2", n)
    return n.lower()


def camel(n):
    return "".join(p[:1].upper() + p[1:] for p in n.split("-"))


def spelled(n, kind, names):
    if not re.match(r"^[A-Za-z][A-Za-z0-9_-]*'?$", n):
        return n
    if n[0].isupper():
        if kind == "type":
            return camel(n) if "-" in n else n
        if "-" not in n:
            return n
        head, rest = n.split("-", 1)
        return head + "-" + spelled(rest, "value", names)
    if kind == "type":
        return n
    parts = [snake(p) for p in n.split("-")]
    if kind == "field":
        return "_".join(parts)
    joined = "-" if len(parts) == 2 and all(p in names for p in parts) else "_"
    return joined.join(p if q[:1].islower() else q for p, q in zip(parts, n.split("-")))


def table(root):
    kinds, where = {}, defaultdict(set)
    for p in files(os.path.join(root, "crates"), (".antt",)):
        if p.endswith("Proof.antt"):
            continue  # its names are those of goals, or its own
        for n, k in declared(text(p)).items():
            if kinds.get(n) == "type" and k != "type":
                continue
            kinds[n] = k if kinds.get(n) in (None, k) or k == "type" else "value"
            where[n].add(p)
    names = WORDS | {snake(n) for n, k in kinds.items() if "-" not in n and n[:1].islower() and any("/specs/" in p for p in where[n])}
    names -= {"is", "by", "of", "at", "as", "one", "two", "three", "more", "rest", "same", "first", "next", "last", "end", "start", "part", "none_of", "step", "bound", "name", "value", "no", "found", "left"}
    to = {n: OTHER.get(n) or spelled(n, k, names) for n, k in kinds.items()}
    # a lemma that would have its function's name gets _lem
    back = defaultdict(list)
    for n, m in to.items():
        back[m].append(n)
    for m, ns in back.items():
        if len(ns) == 2:
            lemmas = [n for n in ns if kinds[n] == "value" and "-" in n or kinds[n] == "value" and (n == m and all("/proofs/" in p for p in where[n]))]
            if len(lemmas) == 1:
                to[lemmas[0]] = m + "_lem"
    return {n: m for n, m in to.items() if n != m}, kinds, where


def turned(line, to, strings, kinds={}):
    """A line with each name that stands alone between cuts turned; text in quotes stays, and after a dot what is no field of ours."""
    out, quoted, before = [], False, ""
    for piece in CUT.split(line):
        if '"' in piece and strings:
            quoted ^= piece.count('"') % 2 == 1
            out.append(piece)
        elif quoted or before == "." and kinds.get(piece) != "field" and ("-" in piece or to.get(piece, "").endswith("_lem")):
            out.append(piece)
        else:
            out.append(to.get(piece, piece))
        before = piece
    return "".join(out)


def comment(c, to):
    """In prose a name is turned where it stands in backticks, or is plainly a name."""
    c = re.sub(r"`[^`\n]*`", lambda m: turned(m.group(0), to, False), c)
    sure = {n: m for n, m in to.items() if re.search(r"[a-z0-9][A-Z]", n) or (n[0].isupper() and "-" in n)}
    return turned(c, sure, False)


def for_file(p, t, to, where, root):
    """The table for a file: a lemma gets _lem only where it is declared or imported."""
    out = {}
    for n, m in to.items():
        if m.endswith("_lem"):
            at = [re.search(r"crates/(\w+)/proofs/(\w+)\.antt$", w) for w in where[n]]
            names = {f"Rattle.{a.group(1)}.proofs.{a.group(2)}" for a in at if a}
            told = any(u.group(1) in names and n in re.split(r"[,\s]+", u.group(2)) for u in re.finditer(r"use ([\w.+-]+)\.\{([^}]*)\}", t))
            if not p.endswith(".antt") or not (p in where[n] or told):
                m = snake(m[:-4])
        out[n] = m
    return out


def rewrite(p, t, to):
    if p.endswith(".antt"):
        return "\n".join(comment(l, to) if l.lstrip().startswith("--") else turned(l, to, False, KINDS) for l in t.split("\n"))
    if p.endswith(".rt"):
        out = []
        for l in t.split("\n"):
            at = l.find("//")
            code, rest = (l, "") if at < 0 or '"' in l[:at] else (l[:at], l[at:])
            out.append(turned(code, to, True, KINDS) + comment(rest, to))
        return "\n".join(out)
    if p.endswith(".edit"):
        return "\n".join(turned(l, to, ".rt" in t.split("old:")[0], KINDS) if l.startswith(("old:", "new:")) else comment(l, to) if l.startswith("#") else l for l in t.split("\n"))
    return re.sub(r"`[^`\n]*`", lambda m: turned(m.group(0), to, False), t)


KINDS = {}


def main(argv):
    root = subprocess.run(["git", "rev-parse", "--show-toplevel"], capture_output=True, text=True, check=True).stdout.strip()
    to, kinds, where = table(root)
    KINDS.update(kinds)
    every = list(files(os.path.join(root, "crates"), (".antt", ".rt", ".edit"))) + list(files(os.path.join(root, "wrong"), (".edit",)))
    papers = [os.path.join(root, "README.md")] + [p for p in files(os.path.join(root, "docs"), (".md",)) if not p.endswith(("LANDINGS.md", "PORT.md"))]
    # what another library calls so keeps its name, and two names never fall together
    back, bad = defaultdict(set), []
    for n, m in to.items():
        back[m].add(n)
    texts = {p: text(p) for p in every}
    for p, t in texts.items():
        body = "\n".join(code_lines(t)) if p.endswith(".antt") else t
        tokens = set(CUT.split(body))
        here = defaultdict(set)
        for n in tokens & set(to):
            here[to[n]].add(n)
        for m, ns in here.items():
            if len(ns) > 1:
                bad.append(f"{os.path.relpath(p, root)}: {sorted(ns)} would all be {m}")
        for n in tokens & set(to):
            m = to[n]
            stands = re.search(r"(?<![\w.])(let |let mut |\(|, )?" + re.escape(m) + r"\s*:", t) if p.endswith(".rt") else m in tokens and not p.endswith("Proof.antt") and m not in to
            if stands and m not in BESIDE and not p.endswith(".edit"):
                bad.append(f"{os.path.relpath(p, root)}: {n} would be {to[n]}, which stands there")
        for u in re.finditer(r"use ([A-Za-z][\w.+-]*)\.\{([^}]*)\}", t):
            own = re.match(r"Rattle\.(\w+)\.", u.group(1) + ".")
            if not own or own.group(1) in ("std", "core") or not os.path.isdir(os.path.join(root, "crates", own.group(1))):
                for n in re.split(r",\s*", u.group(2).strip()):
                    if n.strip() in to:
                        bad.append(f"{os.path.relpath(p, root)}: {n.strip()} is also a name of {u.group(1)}")
                    if n.strip() in back:
                        for o in back[n.strip()]:
                            if o in tokens:
                                bad.append(f"{os.path.relpath(p, root)}: {o} would be {n.strip()} of {u.group(1)}")
    for b in sorted(set(bad)):
        print("clash: " + b)
    if "--check" in argv:
        for n in sorted(to):
            print(f"{n} -> {to[n]}  ({kinds[n]})")
        return 0
    if bad:
        return 1
    for p in every + papers:
        t = texts.get(p) or text(p)
        new = rewrite(p, t, for_file(p, t, to, where, root))
        if new != t:
            with open(p, "w", encoding="utf-8") as f:
                f.write(new)
    print(f"{len(to)} names")
    return 0


if __name__ == "__main__":
    raise SystemExit(main(sys.argv[1:]))
