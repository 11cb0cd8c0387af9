#!/usr/bin/env python3
"""Brings this repository's own names in specs/ and proofs/ to today's spelling, after port.py.

usage: python3 tools/respell_names.py        at the top of the checkout, once, right after port.py

Values, lemmas, fields and binders go to snake case (page-model -> page_model), types and facts to
upper camel case (Loads-again -> LoadsAgain). A lemma on a length keeps the dash behind the word
(length-spread-to -> length-spread_to). Names of the library and names that the checker makes stay.
Prints names that fall together with another name; writes nothing then.
"""

import collections
import os
import re
import sys

NAME = r"[A-Za-z_][\w']*(?:-[\w']+)+"
TOKEN = re.compile(r"(?<![\w'-])" + NAME + r"(?![\w'-])")
MADE = re.compile(r"/proofs/.*/(Answers|Invariants)\.antt$")
OWN = {c for c in os.listdir("crates") if os.path.isdir(os.path.join("crates", c))}
DEFINED = re.compile(r"^\s*(?:(?:abbrev|unfoldable)\s+)?(?:pub\s+)?(?:(record|data)\s+)?(" + NAME + r")(?=\s|$)(.*)$")
# facts that are local to a proof and stood in small letters
FACTS = {"pins-fail": "PinsFail", "show-fail": "ShowFail"}
LOCAL_FACTS = {
    "FaultOne.antt": {"three": "Three", "eight": "Eight"},
    "FaultTwo.antt": {"seven": "Seven", "six": "Six", "five": "Five", "shown": "Shown"},
}
# the answer of a call that gives a length: no lemma on a length
VALUES = {"length-or": "length_or"}
# facts that would fall together with a type or a variant of src/
NOUNS = {"Output-record": "IsOutputRecord", "Cut-short": "IsCutShort"}
# spec functions may bear the name of the Rust function whose answer they give, and a fact that of its module
MAY_SHARE = {"LoadsAgain"}
WORDS = {"getD": "get_or"}


def files(ending):
    for folder, dirs, names in os.walk("crates"):
        dirs[:] = sorted(d for d in dirs if d != "out")
        for n in sorted(names):
            if n.endswith(ending):
                yield os.path.join(folder, n)


def code(text):
    return re.sub(r"--[ -].*", "", text)


def read(path):
    with open(path, encoding="utf-8") as f:
        return f.read()


def of_library():
    """Names that a use line takes from elsewhere."""
    found = set()
    for p in files(".antt"):
        for path, names in re.findall(r"^\s*(?:pub )?use ([\w.'+-]+?)\.\{([^}]*)\}", read(p), re.M):
            parts = path.split(".")
            if not (parts[0] == "Rattle" and parts[1] in OWN):
                found |= set(TOKEN.findall(names))
    return found


def own_names(library):
    """The names that this repository gives, and which of them are types."""
    names, types = set(), set()
    for p in files(".antt"):
        text = code(read(p))
        made = MADE.search(p)
        if made:
            names |= set(re.findall(r"\blet\s+(" + NAME + r")", text))
            names |= set(re.findall(r"λ\s*(" + NAME + r")\s*\.", text))
            continue
        for line in text.split("\n"):
            if re.match(r"\s*(pub\s+)?(use|mod|module)\b", line):
                continue
            names |= {t for t in TOKEN.findall(line)}
            m = DEFINED.match(line)
            if m and (m[1] or m[2][0].isupper()):
                types.add(m[2])
    names -= library
    return names, types | {n for n in names if n[0].isupper()} | set(FACTS)


def spelled(name, types):
    for given in (FACTS, NOUNS, VALUES):
        if name in given:
            return given[name]
    parts = [WORDS.get(w, w) for w in name.split("-")]
    if name in types:
        return parts[0] + "".join(w[0].upper() + w[1:] for w in parts[1:])
    if parts[0] == "length":
        return "length-" + "_".join(parts[1:])
    return "_".join(parts)


def main():
    library = of_library()
    names, types = own_names(library)
    turned = {n: spelled(n, types) for n in names}
    turned = {a: b for a, b in turned.items() if a != b}
    seen = collections.defaultdict(set)
    plain = re.compile(r"(?<![\w'-])[A-Za-z_][\w']*(?:-[\w']+)*")
    tokens = set()
    for p in files(".antt"):
        kept = [l for l in code(read(p)).split("\n") if not re.match(r"\s*(pub )?use Rattle\.\w+\.proofs\..*\.(Goals|Given)\b", l)]
        tokens |= set(plain.findall("\n".join(kept)))
    for p in files(".rt"):
        tokens -= {m for m in re.findall(r"\bfn (\w+)", read(p))}
    tokens -= MAY_SHARE
    for a, b in turned.items():
        seen[b].add(a)
        if b in tokens:
            seen[b].add(b)
    together = {b: sorted(a) for b, a in seen.items() if len(a) > 1}
    for b in sorted(together):
        print("falls together:", b, together[b])
    if together:
        return 1

    def turn(text):
        return TOKEN.sub(lambda m: turned.get(m[0], m[0]), text)

    for p in list(files(".antt")):
        old = read(p)
        local = LOCAL_FACTS.get(os.path.basename(p), {}) if p.startswith("crates/charts/") else {}
        old = re.sub(r"(?<![\w'-])(" + "|".join(local) + r")(?![\w'-])", lambda m: local[m[0]], old) if local else old
        new = "\n".join(l if MADE.search(p) and re.search(r"\bgoal\." + NAME, l) else turn(l) for l in old.split("\n"))
        with open(p, "w", encoding="utf-8") as f:
            f.write(new)
    for p in list(files(".rt")) + list(files(".edit")):
        old = read(p)
        new = "\n".join(l if l.lstrip().startswith("//") else turn(l) for l in old.split("\n"))
        if new != old:
            with open(p, "w", encoding="utf-8") as f:
                f.write(new)
    pages = ["README.md"] + ["docs/" + n for n in sorted(os.listdir("docs")) if n.endswith(".md") and not n.startswith("PORT")]
    for p in pages:
        old = read(p)
        new = re.sub(r"`[^`\n]*`", lambda m: turn(m[0]), old)
        if new != old:
            with open(p, "w", encoding="utf-8") as f:
                f.write(new)
    print(f"{len(turned)} names respelled")
    return 0


if __name__ == "__main__":
    sys.exit(main())
