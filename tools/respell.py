#!/usr/bin/env python3
"""Brings the names of definitions and lemmas to snake case: `goodTariff` and `every-cons` become `good_tariff` and `every_cons`.

usage: tools/respell.py [--list]      at the top of the repository; --list only prints the names, and where two would fall together

It renames what specs/ and proofs/ declare: functions, lemmas, fields of records and constructors of data. Names of types and
modules stay, and so does whatever src/ declares. Names of goals, which the check makes, are not touched: in a Proof.antt they
are what is declared at a type of `tie`. Besides .antt files it turns clauses, ghost imports and comments of .rt files, the
texts of must-fail edits, and names between backticks in the documents.
"""
import re
import sys
from pathlib import Path

INSIDE = r"[\w\-'≡≢≤≥<>·◌+*/^%&|∷₀-₉]"
DECLARED = re.compile(r"^\s*(?:(?:pub|abbrev|unfoldable|opaque)\s+)*([a-zàé][\w\-'≢≡₀-₉]*)((?:\s*\{[^}]*\})*)\s*:(?:\s(.*))?$")
# what the kit's library declares too, and imports name
LIBRARY = {"or-false"}
GOAL = re.compile(r"^(tie\.|goal\.|\{M : Type 1\} → statement)")
# a name that would fall together with another of its file, and what it becomes instead
OTHERWISE = {
    "flat-map": "flat_map_map",
    "near-side": "near_side_shown",
    "far-side": "far_side_shown",
    "sameBytes": "equal_bytes",
    "field-of": "field_of_local",
    "end-at": "end_at_lem",
    "written-bytes": "written_bytes_lem",
}
# variables, which no file declares
VARIABLES = [
    "nearPresentations", "nearReturns", "farPresentations", "farReturns", "presentationsSent", "returnsSent", "nearEntity", "farEntity",
    "presentedByte", "otherPresentations", "otherReturns", "lotNumber", "notIn", "inList", "keptReply", "detailComputing", "basedGlyph",
]


def texts(root, ending):
    return sorted(p for p in root.glob("crates/**/*" + ending) if "out" not in p.parts)


def snake(name):
    name = re.sub(r"(?<=[a-z0-9])([A-Z])", r"_\1", name)
    parts = [w if re.fullmatch(r"[A-Z]\w*", w) and "_" not in w else w.lower() for w in name.split("-")]
    return re.sub(r"_+", "_", "_".join(parts)).lower()


def declared(path):
    for line in path.read_text().split("\n"):
        line = line.split("--")[0] if line.lstrip().startswith("--") else line
        found = DECLARED.match(line)
        if found and not GOAL.match(found[3] or ""):
            yield found[1]


def table(root):
    names = {name: snake(name) for name in VARIABLES}
    for path in texts(root, ".antt"):
        for name in declared(path):
            if name not in LIBRARY and ("-" in name or re.search(r"[a-z][A-Z]", name)):
                names[name] = OTHERWISE.get(name, snake(name))
    # where a lemma would get the name of what it speaks of, it is the lemma of that name
    for name in names:
        if "-" in name and any(other != name and names[other] == names[name] for other in names):
            names[name] += "_lem"
    return names


def pattern(names):
    longest = sorted(names, key=len, reverse=True)
    return re.compile(rf"(?<!{INSIDE})(" + "|".join(map(re.escape, longest)) + rf")(?!{INSIDE})")


def turn_antt(text, found, names):
    return found.sub(lambda m: names[m[1]], text)


def turn_rt(text, found, names):
    camel = {n: t for n, t in names.items() if "-" not in n}
    return pattern(camel).sub(lambda m: camel[m[1]], text)


def turn_page(text, found, names):
    return re.sub(r"`[^`\n]+`", lambda m: found.sub(lambda n: names[n[1]], m[0]), text)


def main(argv):
    root = Path(__file__).resolve().parent.parent
    names = table(root)
    found = pattern(names)
    if argv == ["--list"]:
        back = {}
        for old, new in names.items():
            back.setdefault(new, []).append(old)
        for new, olds in sorted(back.items()):
            print(" ".join(olds), "->", new, "   FALL TOGETHER" if len(olds) > 1 else "")
        word = re.compile(rf"(?<!{INSIDE})([A-Za-z][\w\-']*)(?!{INSIDE})")
        for path in texts(root, ".antt") + texts(root, ".rt"):
            words = set(word.findall(path.read_text()))
            for old in words & set(names):
                if names[old] in words:
                    print(f"BOTH in {path.relative_to(root)}: {old} and {names[old]}")
        return 0
    for path in texts(root, ".antt"):
        text = path.read_text()
        new = turn_antt(text, found, names)
        if new != text:
            path.write_text(new)
    for path in texts(root, ".rt") + texts(root, ".edit"):
        text = path.read_text()
        new = turn_rt(text, found, names)
        if new != text:
            path.write_text(new)
    for path in [root / "README.md"] + sorted((root / "docs").rglob("*.md")):
        text = path.read_text()
        new = turn_page(text, found, names)
        if new != text:
            path.write_text(new)
    print(f"{len(names)} names")
    return 0


if __name__ == "__main__":
    raise SystemExit(main(sys.argv[1:]))
