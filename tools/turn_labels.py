#!/usr/bin/env python3
"""In the answers of a function, spells the names that the checker makes from names of src/ with their underscores.

usage: python3 tools/turn_labels.py          at the top of the checkout, after respell_names.py

c.is-finite.ensures -> c.is_finite.ensures, returns-in-default-body-length -> returns-in-default-body_length.
"""

import re

from respell_names import MADE as OF_ANSWERS
from respell_names import files

WORD = re.compile(r"(?<![\w'-])[A-Za-z_][\w']*(?:-[\w']+)+(?![\w'-])")
MADE = {"in-ok": "in_ok", "in-err": "in_err", "overflow-add": "overflow_add", "overflow-mul": "overflow_mul", "overflow-sub": "overflow_sub", "type-inv": "type_inv", "lit-set": "lit_set", "in-default": "in_default", "from-residual": "from_residual", "deref-mut": "deref_mut", "index-mut": "index_mut", "as-slice": "as_slice", "as-mut-slice": "as_mut_slice"}


def main():
    words = set()
    for p in files(".rt"):
        with open(p, encoding="utf-8") as f:
            words |= set(re.findall(r"\b[a-z][a-z0-9]*(?:_[a-z0-9]+)+\b", f.read()))
    known = {w.replace("_", "-"): w for w in words}
    known.update(MADE)

    def turned(m):
        parts = m[0].split("-")
        out, i = [], 0
        while i < len(parts):
            for j in range(len(parts), i + 1, -1):
                w = known.get("-".join(parts[i:j]))
                if w:
                    out.append(w)
                    i = j
                    break
            else:
                out.append(parts[i])
                i += 1
        return "-".join(out)

    for p in [it for it in files(".antt") if OF_ANSWERS.search(it)]:
        with open(p, encoding="utf-8") as f:
            lines = f.read().split("\n")
        new = [l if re.match(r"\s*(pub )?use ", l) and not re.search(r"\.(Goals|Given)\b", l) else WORD.sub(turned, l) for l in lines]
        if new != lines:
            with open(p, "w", encoding="utf-8") as f:
                f.write("\n".join(new))


main()
