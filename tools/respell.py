#!/usr/bin/env python3
"""Respells the repository's own definitions and lemmas: words in snake case, as `no_room` for `noRoom` and `of_refused` for `of-refused`.

Run once, at the top, after port.py. It goes over the names that specs/ and the lemma files of proofs/ define, and turns each
wherever it stands as a whole word in a clause, a specification, a proof or a must-fail edit. Types, modules, functions, exported
names, strings and what a library defines keep their names. It stops where two names would fall together.
"""
import collections
import glob
import re
import sys

DEFINES = re.compile(r"^\s*(?:(?:unfoldable|abbrev|pub|ruleset|opaque)\s+)*([A-Za-z_][\w'₀-₉-]*)\s(?:[^=]*\s)?:\s")
MEMBER = re.compile(r"^\s*(?:pub\s+)?([A-Za-z_][\w'-]*)\s*:\s")
RULESET = re.compile(r"^\s*pub\s+ruleset\s+([A-Za-z_][\w'-]*)\s*=")

# lemmas that port.py spelled as a definition that they are of: where each stands, since the definition is meant elsewhere
FELL_TOGETHER = {
    "bytes_of": ("answer/specs/Bytes.antt", "leb128/proofs/padded_signed/Proof.antt", "relleb_read/proofs/zero_at/Proof.antt"),
    "words_of": ("relr_apply/proofs/StripNeeds.antt",),
    "head_in": ("apr1_read/proofs/EntryNeeds.antt",),
    "no_change": ("relleb_table/specs/Table/Setting.antt", "relleb_table/specs/Table/Laws.antt"),
    "with_first": ("apr1_table/specs/Table/Setting.antt",),
}


def lemma_files():
    for path in glob.glob("crates/*/specs/**/*.antt", recursive=True) + glob.glob("crates/*/proofs/**/*.antt", recursive=True):
        if not path.endswith("/Proof.antt"):
            yield path


def snake(name):
    name = re.sub(r"([a-z0-9])([A-Z])", lambda m: m.group(1) + "_" + m.group(2).lower(), name)
    return name.replace("-", "_")


def apart():
    for name, places in FELL_TOGETHER.items():
        for place in places:
            text = open("crates/" + place).read()
            open("crates/" + place, "w").write(re.sub(rf"(?<![\w'◌·-]){name}(?![\w'-])", name + "_law", text))


def main():
    if "--dry" not in sys.argv:
        apart()
    defined = collections.defaultdict(set)
    borrowed = set()
    for path in lemma_files():
        for line in open(path):
            for pattern in (DEFINES, MEMBER, RULESET):
                m = pattern.match(line)
                if m:
                    defined[m.group(1)].add(path)
    texts = [p for p in glob.glob("crates/**/*", recursive=True) if re.search(r"\.(antt|rt|edit)$", p) and "/out/" not in p]
    for path in texts:
        for line in open(path):
            m = re.match(r"\s*(?:pub )?(?:ghost )?use (?:Rattle\.std|mathlib|borrow|Prim|logic|Lib)[\w.·]*\.\{(.*)\}", line)
            if m:
                borrowed |= {w.strip().split(" as ")[0].strip() for w in m.group(1).split(",")}
    turned = {n: snake(n) for n in defined if not n[0].isupper() and snake(n) != n and n not in borrowed}
    bad = 0
    taken = {new for old, new in turned.items() if "-" not in old} | (set(defined) - set(turned)) | borrowed
    for old in turned:
        if "-" in old and turned[old] in taken:
            turned[old] += "_law"  # a lemma that is named as the definition it is of
    back = collections.defaultdict(list)
    for old, new in sorted(turned.items()):
        back[new].append(old)
        if new in borrowed or new in defined:
            print(f"falls together: {old} -> {new}: {sorted(defined[new])}")
            bad += 1
    for new, olds in back.items():
        if len(olds) > 1:
            print(f"fall together: {olds} -> {new}")
            bad += 1
    if bad and "--anyway" not in sys.argv:
        sys.exit(1)
    if "--dry" in sys.argv:
        return
    count = 0
    for path in texts:
        text = open(path).read()
        new = re.sub(r"(?<![\w'◌·-])[A-Za-z_][\w'-]*", lambda m: turned.get(m.group(0), m.group(0)), text)
        if new != text:
            open(path, "w").write(new)
            count += 1
    print(f"{len(turned)} names in {count} files")


if __name__ == "__main__":
    main()
