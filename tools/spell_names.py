#!/usr/bin/env python3
"""Spells the names that this repository defines in specs/ and proofs/ as Rattle's library spells its own.

usage: tools/spell_names.py [--dry]      at the top of the repository, once, after the port's own script

A function, a lemma, a field or a constructor is in snake case; a dash stays in JOINED, where it joins the names
of two functions, and is an underscore elsewhere. A fact or a type is in upper camel case. Names that Rattle
makes (goals, invariants, measures), names of src/ and names of std are left as they are. It says where two names
would fall together, or where a new name stands in a file already.
"""
import os
import re
import sys

# a lemma's name that joins two functions' names
JOINED = set("length-line length-near length-nodes length-steps get_or-map nodes-set decoded-encoded".split())
# names that would fall together with another, which is here still unspelled, and what they become
BESIDE = {
    "by_code": ("byCode", "by_code_lem"),
    "node_at": ("nodeAt", "node_at_lem"),
    "is_open": ("isOpen", "stays_open"),
    "is_name": ("isName", "fits_name"),
}
SPECIAL = {
    "okOr": "ok_or_err",
    "open-count": "counts_open",
    "step-text": "step_text_lem",
    "Not-path": "IsNotPath",
    "Bad-line": "IsBadLine",
}

NAME = r"[^\W\d][\w'-]*"
TOKEN = re.compile(r"(?<![\w'«-])" + NAME)
DEFINED = re.compile(r"^ *(?:abbrev |unfoldable |pub )*(" + NAME + r") : ")
HEAD = re.compile(r"^ *(?:abbrev |pub )*(?:data|record) (" + NAME + r")")
FIELD = re.compile(r"^ +(?:pub )?(" + NAME + r") : ")
ALIAS = re.compile(r"[\w.'-]+ as (" + NAME + r")")
GOAL = re.compile(r" : (goal|given|need)\.")


def files():
    for folder, dirs, names in os.walk("crates"):
        dirs[:] = sorted(d for d in dirs if d not in ("out", "must-fail"))
        for name in sorted(names):
            if name.endswith((".antt", ".rt")):
                yield os.path.join(folder, name)


def read(path):
    with open(path, encoding="utf-8") as f:
        return f.read()


def snake(word):
    return re.sub(r"(?<=[a-z0-9])([A-Z])", lambda m: "_" + m.group(1).lower(), word)


def camel(name):
    return "".join(part[:1].upper() + part[1:] for part in re.split("[-_]", name))


def spelled(name):
    if name[0].isupper():
        return camel(name) if "-" in name or "_" in name else name
    return name if name in JOINED else snake(name.replace("-", "_"))


def main():
    if sys.argv[1:] not in ([], ["--dry"]):
        raise SystemExit(__doc__)
    dry = sys.argv[1:] == ["--dry"]
    texts = {path: read(path) for path in files()}
    defined = set()
    for path, text in texts.items():
        if path.endswith(".antt"):
            for line in text.splitlines():
                if GOAL.search(line):
                    continue
                for form in (HEAD, DEFINED, FIELD):
                    m = form.match(line)
                    if m:
                        defined.add(m.group(1))
                        break
        for line in re.findall(r"(?m)^(?:ghost |pub )?use [^;\n]*", text):
            defined.update(ALIAS.findall(line))
    new = {n: SPECIAL.get(n, spelled(n)) for n in defined}
    new.update((n, to) for n, (other, to) in BESIDE.items() if n in defined and other in defined)
    new = {n: to for n, to in new.items() if n != to}
    wrong = []
    by_target = {}
    for n, to in new.items():
        by_target.setdefault(to, []).append(n)
    for to, old in sorted(by_target.items()):
        if len(old) > 1:
            wrong.append(f"{' and '.join(sorted(old))} would both be {to}")
        if to in defined and to not in new:
            wrong.append(f"{old[0]} would be {to}, which is defined")
    turned = {}
    for path, text in texts.items():
        spec = path.endswith(".antt")
        found = set(TOKEN.findall(text))
        for n in sorted(found & set(new)):
            if new[n] in found and new[n] not in new and spec:
                wrong.append(f"{path}: {n} would be {new[n]}, which stands there")
        if spec:
            turned[path] = TOKEN.sub(lambda m: new.get(m.group(0), m.group(0)), text)
        else:
            turned[path] = code(text, new)
    for w in wrong:
        print("look:", w)
    if dry:
        for n, to in sorted(new.items()):
            print(f"{n} -> {to}")
    else:
        for path, text in turned.items():
            if text != texts[path]:
                with open(path, "w", encoding="utf-8") as f:
                    f.write(text)
    print(f"{len(new)} names, {sum(turned[p] != texts[p] for p in texts)} files, {len(wrong)} to look at")


def code(text, new):
    """In a .rt file only what is ghost: imports, clauses, ghost members and fields."""
    def swap(piece):
        return TOKEN.sub(lambda m: new.get(m.group(0), m.group(0)), piece)

    out, at = [], 0
    form = re.compile(r"ghost use [^;]*;|\b(?:ensures|requires)\*?(?: \w+)? \{|\bghost \w+(?: \w+)*(?: =|:) \{", re.S)
    for m in iter(lambda: form.search(text, at), None):
        out.append(text[at:m.start()])
        if m.group(0).startswith("ghost use"):
            out.append(swap(m.group(0)))
            at = m.end()
            continue
        depth, end = 1, m.end()
        while depth:
            depth += {"{": 1, "}": -1}.get(text[end], 0)
            end += 1
        out.append(m.group(0) + swap(text[m.end():end]))
        at = end
    out.append(text[at:])
    return "".join(out)


main()
