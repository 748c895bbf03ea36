#!/usr/bin/env python3
"""Spells the repository's own definitions and lemmas as Rattle's guides do: words in snake case.

    tools/port_names.py         at the top of the repository, after port.py, once

A word of a name that begins in lower case and has a capital inside, as `widthsOf` or `length-pageAt`, gets an
underscore and a small letter for each capital: `widths_of`, `length-page_at`. Types, modules and facts keep theirs.
The names are those of specs/ and proofs/; clauses in src/, the must-fail edits, README.md and docs/ cite them. Where
two of them fall together the script says so and writes nothing. Every plain type of src/ can be copied, as it could.
"""
import collections
import re
import sys
from pathlib import Path

ROOT = Path(__file__).resolve().parent.parent
TOKEN = re.compile(r"[^\s(){}.;,@\"«»\[\]\\λ`]+")
WORD = re.compile(r"[A-Za-z_][\w'₀-₉]*(?:-[\w'₀-₉]+)*")
CAMEL = re.compile(r"[a-z].*?[a-z0-9][A-Z]")
# Names of a file's own that would fall together with a definition that the file cites: they keep their dash.
DASHED = {
    "crates/insert_planned/proofs/FullLaws.antt": "first_key",
    "crates/model/proofs/PointLaws.antt": "meets_at",
    "crates/refutation/proofs/SavedRefuted.antt": "same_keys",
    "crates/shape/proofs/shape_number/Proof.antt": "count_fits",
    "crates/shape/specs/Amiss.antt": "in_bounds",
    "crates/shape/proofs/AmissLaws.antt": "in_bounds",
}


def snake(name):
    """The name with each word in camel case in snake case."""
    def part(word):
        if not CAMEL.match(word):
            return word
        return re.sub(r"(?<=[a-z0-9])[A-Z]", lambda it: "_" + it[0].lower(), word)
    return "-".join(map(part, name.split("-")))


def code(text):
    """The text of a file of antt without its comments."""
    return re.sub(r"--.*", "", text)


def main():
    antt = [it for part in ("specs", "proofs") for it in sorted(ROOT.glob(f"crates/*/{part}/**/*.antt"))]
    tokens = {it for path in antt for it in TOKEN.findall(code(path.read_text(encoding="utf-8")))}
    names = {it: snake(it) for it in tokens if snake(it) != it}
    together = collections.defaultdict(set)
    for old, new in names.items():
        together[new].add(old)
    faults = [f"{new}: {', '.join(sorted(olds))}" for new, olds in sorted(together.items()) if len(olds) > 1]
    if faults:
        print("\n".join(faults))
        return 1
    # a word of a longer name, for texts
    words = {word for it in names for word in it.split("-") if snake(word) != word}

    def turned(text):
        return WORD.sub(lambda it: names.get(it[0]) or "-".join(snake(w) if w in words else w for w in it[0].split("-")), text)

    def outside_strings(text):
        parts = re.split(r'("(?:[^"\\\n]|\\.)*")', text)
        return "".join(it if it.startswith('"') and it.endswith('"') else turned(it) for it in parts)

    changed = 0
    rt = sorted(ROOT.glob("crates/*/src/**/*.rt"))
    edits = sorted(ROOT.glob("crates/*/must-fail/*.edit"))
    texts = [ROOT / "README.md", *sorted(ROOT.glob("docs/*.md"))]
    for path in antt + rt + edits + texts:
        text = path.read_text(encoding="utf-8")
        own = DASHED.get(str(path.relative_to(ROOT)))
        if own:
            text = re.sub(rf"(?<![\w-]){own}(?![\w-])", own.replace("_", "-"), text)
        new = turned(text) if path.suffix != ".rt" else outside_strings(text)
        if path.suffix == ".rt":
            new = new.replace("#[derive(Drop)]", "#[derive(Clone, Copy)]")
        if new != text:
            path.write_text(new, encoding="utf-8")
            changed += 1
    print(f"{len(names)} names in {changed} files")
    return 0


if __name__ == "__main__":
    sys.exit(main())
