#!/usr/bin/env python3
"""Brings this repository's own definitions and lemmas to the spelling of today's Rattle: words in snake case, types and facts in camel case.

usage: tools/port/respell.py [--check]      at the top of the repository, once, right after port.py. --check writes nothing and lists clashes.

It turns every name that a file of specs/ or a lemma file of proofs/ declares (a definition, a lemma, a field, a constructor), wherever a
file of this repository means that name: in specs/ and proofs/, in the clauses of src/, in the must-fail edits, and in the code spans of the
pages. A name that a file takes from another library keeps its spelling there, and so does what the source declares.
"""

import collections
import pathlib
import re
import sys

TOP = pathlib.Path(".")
TOKEN = re.compile(r"[^\s(){}.;,@\"«»]+")
DECLARED = re.compile(r"^(?:(?:abbrev|unfoldable|mutual|pub|data|record|let) +)*([^\s:(){}.,;]+)(?= :| \(| \{)")
FIELD = re.compile(r"^ {2,}(?:pub +)?([^\s:(){}.,;]+) : ")
INNER = re.compile(r"^ {2,}(?:(?:abbrev|unfoldable) +(?:pub +)?|pub +(?:data|record) +)([^\s:(){}.,;]+)(?= :| \(| \{)")
# Where the plain rule would give a name that stands for something else there already: written out.
BY_HAND = {}
# A lemma that was in snake case already and bears the name that its definition gets, by file.
BY_FILE = {
    "crates/laws/proofs/Calls.antt": {"all_small": "all_small_lem"},
    "crates/laws/proofs/Turns.antt": {"at_level": "at_level_lem"},
    "crates/constrain/proofs/Concrete.antt": {"by_arm": "by_arm_lem"},
    "crates/constrain/proofs/constrain_concrete/Proof.antt": {"by_arm": "by_arm_lem"},
}


def respelled(name):
    """The name in today's spelling, or the name itself."""
    if name in BY_HAND:
        return BY_HAND[name]
    if not re.fullmatch(r"[A-Za-z][A-Za-z0-9_']*(?:-[A-Za-z0-9_']+)*", name):
        return name
    if name[0].isupper():
        # a fact or a type: camel case; a plain number goes on without a dash
        return "".join(p[0].upper() + p[1:] for p in name.split("-"))
    words = re.sub(r"(?<=[a-z0-9])(?=[A-Z])", "_", name).replace("-", "_")
    return words.lower()


def antt_files():
    for p in sorted(TOP.glob("crates/*/specs/**/*.antt")) + sorted(TOP.glob("crates/*/proofs/**/*.antt")):
        yield p


def is_lemma_file(p):
    parts = p.parts  # crates NAME specs|proofs ..
    return parts[2] == "specs" or (parts[2] == "proofs" and len(parts) == 4)


def own_crates():
    return {p.name for p in TOP.glob("crates/*") if p.is_dir()}


def declared_names():
    top, fields = collections.Counter(), collections.Counter()
    for p in antt_files():
        if not is_lemma_file(p):
            continue
        for line in p.read_text(encoding="utf-8").splitlines():
            if line.startswith("--") or line.startswith("use ") or line.startswith("unfolding"):
                continue
            m = DECLARED.match(line)
            if m:
                top[m[1]] += 1
            m = INNER.match(line)
            if m:
                top[m[1]] += 1
                continue
            m = FIELD.match(line)
            if m:
                fields[m[1]] += 1
    return top, fields


def used_from_elsewhere(text, crates, ghost):
    """The names that a file takes from another library than this repository's."""
    names = set()
    for m in re.finditer(r"^\s*(?:ghost )?(?:pub )?use ([^;{\n]+?)(?:\.\{([^}]*)\})?;?\s*$", text, re.M):
        path = m[1].split(".")
        own = path[0] == "Rattle" and len(path) > 1 and path[1] in crates
        made = own and len(path) > 2 and (path[2] == "proofs" and path[-1] in ("Statement", "Tie", "Reads", "Lts", "Goals", "Given") or "declared" in path)
        if m[2] and (not own or made):
            for item in m[2].split(","):
                names.update(item.strip().split(" as "))
    return names


def aliases(text, crates):
    """The short names under which a file has this repository's own modules, but for those that Rattle makes."""
    heads = set()
    for m in re.finditer(r"^\s*(?:ghost )?use (Rattle\.[^;{\s]+)(?: as ([^\s;]+))?;?\s*$", text, re.M):
        path = m[1].split(".")
        if path[1] in crates and path[-1] not in ("Statement", "Tie", "Reads", "Lts", "Goals", "Given"):
            heads.add(m[2] or path[-1])
    return heads


def turned(text, table, stays, fields, made_heads, heads=()):
    out, at = [], 0
    for m in TOKEN.finditer(text):
        word = m[0]
        dotted = m.start() > 0 and text[m.start() - 1] == "."
        new = table.get(word)
        if new is None or word in stays:
            continue
        if dotted:
            head = re.search(r"([^\s(){};,@\"«»]+)\.$", text[: m.start()][-200:])
            first = head[1].split(".")[0] if head else ""
            if first in made_heads:
                continue
            # a path of a module ends in a name; else only a field turns
            if first != "Rattle" and not first[:1].isupper() and first not in heads and word not in fields:
                continue
        out.append(text[at : m.start()] + new)
        at = m.end()
    out.append(text[at:])
    return "".join(out)


CLAUSE = re.compile(r"^\s*(?:ghost use\b|requires\b|ensures\b|ghost\b)")


def turn_rt(text, table, stays, fields, made):
    """Only ghost text turns: the lines of ghost uses, clauses and ghost blocks."""
    out, depth, on = [], 0, False
    for line in text.splitlines(keepends=True):
        if not on and CLAUSE.match(line):
            on, depth = True, 0
        if on:
            body, comment = line, ""
            out.append(turned(body, table, stays, fields, made) + comment)
            depth += line.count("{") - line.count("}")
            if depth <= 0:
                on = False
        else:
            out.append(line)
    return "".join(out)


def main():
    check = "--check" in sys.argv
    crates = own_crates()
    top, fields = declared_names()
    table = {}
    for name in list(top) + list(fields):
        new = respelled(name)
        if new != name:
            table[name] = new
    # a lemma that would have its definition's name gets _lem, where a file has both
    with_token = collections.defaultdict(set)
    for p in [*antt_files(), *TOP.glob("crates/*/src/**/*.rt")]:
        for w in set(TOKEN.findall(p.read_text(encoding="utf-8"))):
            with_token[w].add(p)
    taken = collections.defaultdict(list)
    for old, new in table.items():
        taken[new].append(old)
    for new, olds in taken.items():
        for old in olds:
            others = [o for o in olds if o != old] + ([new] if new in top or new in fields else [])
            if "-" in old and any(with_token[old] & with_token[o] for o in others):
                table[old] = new + "_lem"
    taken = collections.defaultdict(list)
    for old, new in table.items():
        taken[new].append(old)
    clash = 0
    for new, olds in sorted(taken.items()):
        if len(olds) > 1 and any(with_token[a] & with_token[b] for a in olds for b in olds if a < b):
            print(f"clash: {' and '.join(olds)} both give {new}")
            clash += 1
        elif (new in top or new in fields) and any(with_token[a] & with_token[new] for a in olds):
            print(f"clash: {olds[0]} gives {new}, which is declared")
            clash += 1
    made = {"tie", "reads", "lts", "goal"}

    def older(text):
        """What edits and pages still call by the name that port.py has turned in the files."""
        def one(m):
            new = respelled(m[0])
            if m[0] in table or m[0] in top or m[0] in fields or new == m[0]:
                return m[0]
            return new if new in top or new in fields or new in table.values() else m[0]
        return TOKEN.sub(one, text)

    for p in antt_files():
        text = p.read_text(encoding="utf-8")
        stays = used_from_elsewhere(text, crates, False)
        tokens = set(TOKEN.findall("\n".join(l for l in text.splitlines() if not l.lstrip().startswith("--"))))
        for w in tokens & set(table):
            if w not in stays and table[w] in tokens:
                print(f"met: {p}: {w} gives {table[w]}, which the file has")
        local = table | BY_FILE.get(p.as_posix(), {})
        new = turned(text, local, stays, set(fields), made, aliases(text, crates))
        if new != text and not check:
            p.write_text(new, encoding="utf-8")
    for p in sorted(TOP.glob("crates/*/src/**/*.rt")):
        text = p.read_text(encoding="utf-8")
        stays = used_from_elsewhere(text, crates, True)
        new = turn_rt(text, table, stays, set(fields), made)
        if new != text:
            ids = set(re.findall(r"\b[a-z_][a-z0-9_]*\b", text))
            for w in set(TOKEN.findall(text)) & set(table):
                if w not in stays and table[w] in ids:
                    print(f"met: {p}: {w} gives {table[w]}, which the file has")
            if not check:
                p.write_text(new, encoding="utf-8")
    # edits: their text is of the files above. port.py does not turn them, so a projection is closed up here as there.
    for p in sorted(TOP.glob("crates/*/must-fail/*.edit")):
        lines = []
        ghost = False
        for line in p.read_text(encoding="utf-8").splitlines(keepends=True):
            if line.startswith("file: "):
                ghost = line.strip().endswith(".antt")
            if ghost and line.startswith(("old:", "new:")):
                line = re.sub(r"\(([^()\s]+(?: [^()\s]+)+) \.(\w+)\)", r"(\1).\2", line) if not re.search(r"\([^()]* [^\w\s()] [^()]* \.\w+\)", line) else line
                line = re.sub(r"(?<=[\w)\]}'])[ ]\.(?=[a-z])", ".", line)
                line = re.sub(r"\(([a-z]+\.[a-z_]+)\)", r"\1", line)
                line = line[:4] + turned(older(line[4:]), table, set(), set(fields), made)
            lines.append(line)
        if not check:
            p.write_text("".join(lines), encoding="utf-8")
    # pages: code spans alone
    for p in [TOP / "README.md", *sorted(TOP.glob("docs/*.md"))]:
        text = p.read_text(encoding="utf-8")
        new = re.sub(r"`[^`\n]+`", lambda m: turned(older(m[0][1:-1]), table, set(), set(fields), made).join("``") if not m[0].startswith("``") else m[0], text)
        if new != text and not check:
            p.write_text(new, encoding="utf-8")
    print(f"{len(table)} names, {clash} clashes")


main()
