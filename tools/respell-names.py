#!/usr/bin/env python3
"""Brings the names of definitions and lemmas to today's spelling: run once, at the top of the checkout, right after the kit's port.py.

A definition, a record's field and a constructor become snake case. A lemma's name is cut into the names of definitions and functions that it is
made of and the plain words between them: a dash joins two names, as in `tokens-blank`, and anything else is joined by `_`, as in `word_true`.
A variable, a parameter of a module and a constructor of two words
become snake case too. Types and modules are in camel case already. Functions of src/, C names, strings, inputs and outputs keep their names. What is imported
from elsewhere is left alone. It prints each renaming, and each two names of a file that fall together: read those (none that did meant two things in one place).
"""
import collections
import os
import re
import sys

NAME = re.compile(r"[A-Za-zℕ0-9_'«»≤≡<◌∷+*^-]+")
DECLARED = re.compile(r"^( *)((?:(?:unfoldable|abbrev|pub|theorem) )*)([a-z][A-Za-z0-9_'-]*)(?: \{[^}]*\})* :(?= |$)")
USE = re.compile(r"^(?:pub |ghost )*use ([A-Za-z0-9_.'+-]+)\.\{([^}]*)\}", re.M)


def files(root):
    for folder, dirs, names in os.walk(root):
        dirs[:] = sorted(d for d in dirs if d not in ("out", "target", ".git"))
        for n in sorted(names):
            yield os.path.join(folder, n)


def read(p):
    with open(p, encoding="utf-8") as f:
        return f.read()


def parts(name):
    return [w for w in re.split("[-_]", name) if w]


def lemma_name(name, known):
    words, out, i = parts(name), [], 0
    while i < len(words):
        for j in range(len(words), i, -1):
            if "_".join(words[i:j]) in known:
                out.append(("_".join(words[i:j]), True))
                i = j
                break
        else:
            out.append((words[i], False))
            i += 1
    text = out[0][0]
    for (a, a_known), (b, b_known) in zip(out, out[1:]):
        text += ("-" if a_known and b_known else "_") + b
    return text + ("_" if name.endswith("_") else "")


def foreign_names(text, own):
    """What a file brings in from elsewhere."""
    return {w.split(" as ")[0].strip() for m in USE.finditer(text) if not (m[1] + ".").startswith(own) for w in m[2].split(",")}


def variables(antt, declared):
    """The other names of two words: variables, parameters and constructors. Proofs by hand are left out, for their names are the check's."""
    found = set()
    for p in antt:
        if os.path.basename(p) == "Proof.antt":
            continue
        text = read(p)
        brought = {w.split(" as ")[0].strip() for m in USE.finditer(text) for w in m[2].split(",")}
        text = USE.sub("", re.sub(r'"[^"\n]*"', "", re.sub(r"--.*", "", text)))
        found |= {w for w in NAME.findall(text) if re.match(r"[a-z][a-z0-9'_]*(-[a-z0-9'_]+)+$", w) and w not in declared and w not in brought}
    return found


def main():
    crates = sorted(os.listdir("crates"))
    own = tuple(f"Rattle.{c}." for c in crates)
    antt = [p for p in files("crates") if p.endswith(".antt")]
    rt = [p for p in files("crates") if p.endswith(".rt")]
    definitions, lemmas, fields = set(), set(), set()
    for p in antt:
        generated = "/proofs/" in p and os.path.basename(p) in ("Proof.antt", "Answers.antt", "Invariants.antt")
        for line in read(p).splitlines():
            if re.match(r" *--", line):
                continue
            m = DECLARED.match(line)
            if not m:
                continue
            name, words = m[3], m[2]
            if generated and re.match(r" (tie|goal)\.", line[m.end() :]):
                continue
            if "/specs/" in p or "abbrev" in words or "unfoldable" in words:
                definitions.add(name)  # a record's fields too, for now
            else:
                lemmas.add(name)
        # a record's fields, of the records that a file declares
        record = None
        for line in read(p).splitlines():
            indent = len(line) - len(line.lstrip())
            if re.match(r" *(pub )?record ", line):
                record = indent
                continue
            if record is not None and line.strip() and indent <= record:
                record = None
            if record is not None and (m := DECLARED.match(line)) and not re.match(r" *--", line):
                fields.add(m[3])
                lemmas.discard(m[3])
    functions = {m for p in rt for m in re.findall(r"\bfn ([a-z_0-9]+)", read(p)) if "_" in m}
    known = {"_".join(parts(n)) for n in definitions - fields} | functions | {"length", "drop", "take", "append", "get_or", "set", "map", "replicate"}
    definitions |= fields
    target = {}
    for n in definitions:
        target[n] = "_".join(parts(n)) + ("_" if n.endswith("_") else "")
    for n in lemmas - definitions:
        target[n] = lemma_name(n, known)
    for n in variables(antt, definitions | lemmas):
        target[n] = "_".join(parts(n))
    renamed = {a: b for a, b in target.items() if a != b}
    # names that fall together in a file
    bad = 0
    for p in antt + rt:
        text = read(p)
        spelled = set(NAME.findall(text))
        by = collections.defaultdict(set)
        for n in spelled:
            by[renamed.get(n, n)].add(n)
        for t, ns in by.items():
            if len(ns) > 1 and any(n in renamed for n in ns):
                print(f"together: {p}: {' '.join(sorted(ns))} -> {t}")
                bad += 1
    if "--dry" in sys.argv:
        for a, b in sorted(renamed.items()):
            print(f"{a} -> {b}")
        print(len(renamed), "names;", bad, "fall together")
        return
    changed = 0
    pages = [p for p in files(".") if p.endswith(".md") and "/PORT" not in p]
    for p in antt + rt + pages:
        text = read(p)
        foreign = set() if p.endswith(".md") else foreign_names(text, own)

        def one(m):
            w = m[0]
            return renamed[w] if w in renamed and w not in foreign else w

        if p.endswith(".md"):
            new = re.sub(r"`[^`\n]*`", lambda m: NAME.sub(one, m[0]), text)
        else:
            new = re.sub(r'"(?:[^"\\\n]|\\.)*"|' + NAME.pattern, lambda m: m[0] if m[0].startswith('"') else one(m), text)
        if new != text:
            with open(p, "w", encoding="utf-8") as f:
                f.write(new)
            changed += 1
    for a, b in sorted(renamed.items()):
        print(f"{a} -> {b}")
    print(f"{len(renamed)} names respelled in {changed} files")


main()
