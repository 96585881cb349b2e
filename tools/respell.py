#!/usr/bin/env python3
"""Respells the repository's own definitions and lemmas: words in snake case, a dash only between two names.

usage: respell.py [--table FILE]      at the top of the repository; run once, after the kit's own script

A name that some file of specs/ or proofs/ declares is respelled where it stands: in .antt files and in the clauses, imports and comments of
.rt files. `weightedSum` becomes `weighted_sum`. A dash stays where it joins two names (a definition of specs/, a
function of src/, a word of the library, an operator) and becomes `_` beside a plain word, as in `kept_in_place`; a record's field has `_`
alone. Types, modules, the symbols D, P, S, W and the names of src/ stay. Names that may fall together are said: look at them.
"""
import collections
import glob
import re
import sys

WORD = re.compile(r'[^\s(){}.;,:@"«»`\[\]\\]+')
DECLARED = re.compile(r"^(\s*)((?:unfoldable |abbrev |pub |data |record )*)([^\s(){}.;,:@\"«»`\[\]\\]+)((?: \([^()]*\)| \{[^{}]*\})*) :(?: |$)")
PLAIN = re.compile(r"[^\W\d_][\w']*", re.UNICODE)
# Words of plain English that some function of src/ has as its name: beside them a dash joins nothing.
WORDS = set("after across at down in least most of on one own prior spread there up wide within".split())
# Names that the rule alone would spell less well, or like another that stands beside them.
OTHERWISE = {
    "accepted-text": "text_accepted",
    "change-back-1698": "change_back_1698",
    "far-rows-not-counted": "far_rows_not_counted",
    "other-size": "size_other",
    "rows-moved": "rows_moved",
    "two-raised-moved": "two_raised_moved",
    "work-places": "work_places_lent",
}
ANSWER = re.compile(r" : (?:tie\.|\{M : Type 1\} → statement M)")
LIBRARY = set(
    "min max length take drop set map reverse sum get_or replicate pos negsuc nat_abs neg_ℤ to_z of_z floor round remainder fraction zero suc mul add sub div mod quot rem "
    "shr le lt eq neg mag sfits fits true false refl sym cond".split()
)


def texts():
    for part in ("specs", "proofs"):
        for p in sorted(glob.glob(f"crates/*/{part}/**/*.antt", recursive=True)):
            yield p


def snake(word):
    return re.sub(r"(?<=[a-z0-9])([A-Z])", lambda it: "_" + it[1].lower(), re.sub(r"(?<=[a-z])ℤ", "_ℤ", word))


def declared():
    """The names that the repository declares: those of specs/, those of proofs/, and the fields of records."""
    specs, proofs, fields = set(), set(), set()
    for p in texts():
        record = None
        for line in open(p, encoding="utf-8"):
            it = DECLARED.match(line)
            if it and ANSWER.search(line):
                continue
            if not it:
                if line.strip() and not line.startswith(" "):
                    record = None
                continue
            indent, marks, name = it[1], it[2], it[3]
            if "record " in marks or "data " in marks:
                record = len(indent)
                kind = specs if "/specs/" in p else proofs
            elif record is not None and len(indent) > record:
                kind = fields
            else:
                record = None
                kind = specs if "/specs/" in p else proofs
            kind.add(name)
    return specs, proofs, fields


def functions():
    found = set()
    for p in glob.glob("crates/*/src/**/*.rt", recursive=True):
        found |= set(re.findall(r"\bfn (\w+)", open(p, encoding="utf-8").read()))
    return found


def respelled(name, field, names):
    if name[0].isupper() and "-" not in name:
        return name
    parts = re.split(r"(?<=[^-])-(?=[^-])", name)
    parts = [snake(p) if p[:1].islower() or not PLAIN.fullmatch(p) else p for p in parts]
    out = parts[0]
    for left, right in zip(parts, parts[1:]):
        joins = all(not PLAIN.fullmatch(p) or p in names or p[0].isupper() or len(p) == 1 for p in (left, right))
        out += ("-" if joins and not field else "_") + right
    return out


def table():
    specs, proofs, fields = declared()
    names = ({snake(n) for n in specs if "-" not in n} | functions() | LIBRARY) - WORDS
    made = {}
    for name in sorted(specs | proofs | fields):
        new = respelled(name, name in fields, names)
        if new != name:
            made[name] = new
    made.update({name: new for name, new in OTHERWISE.items() if name in specs | proofs | fields})
    taken = collections.Counter(made.values())
    for name, new in made.items():
        if taken[new] > 1 and "-" in name and name not in OTHERWISE:  # a lemma beside the definition of its name
            made[name] = new + "_lem"
    return made


def said_twice(made):
    """Names that fall together: two old names with one new one, or a new one that stands somewhere already."""
    words = collections.defaultdict(set)
    for p in list(texts()) + glob.glob("crates/*/src/**/*.rt", recursive=True):
        for w in WORD.findall(open(p, encoding="utf-8").read()):
            words[w].add(p)
    news = collections.defaultdict(set)
    for old, new in made.items():
        news[new].add(old)
    for new, olds in sorted(news.items()):
        if len(olds) > 1:
            yield f"{', '.join(sorted(olds))} -> {new}"
        elif new in words:
            old = next(iter(olds))
            both = words[old] & words[new]
            yield f"{old} -> {new}, which stands in {len(words[new])} files already, in {len(both)} beside it: {', '.join(sorted(both)[:4])}"


def turned(line, made):
    return WORD.sub(lambda it: made.get(it[0], it[0]), line)


def turned_source(text, made):
    out, depth = [], 0
    for line in text.split("\n"):
        head = line.lstrip()
        clause = depth > 0 or head.startswith(("ghost ", "requires", "ensures", "//"))
        if clause and not head.startswith("//"):
            depth += line.count("{") - line.count("}")
        out.append(turned(line, made) if clause else line)
    return "\n".join(out)


def main(argv):
    made = table()
    if argv[:1] == ["--table"]:
        with open(argv[1], "w", encoding="utf-8") as f:
            f.writelines(f"{old}\t{new}\n" for old, new in sorted(made.items()))
    together = list(said_twice(made))
    print("\n".join(together))
    print(f"respell: {len(made)} names, {len(together)} of them fall together with another")
    if argv[:1] == ["--table"]:
        return 0
    for p in texts():
        text = open(p, encoding="utf-8").read()
        new = "\n".join(turned(line, made) for line in text.split("\n"))
        if new != text:
            open(p, "w", encoding="utf-8").write(new)
    for p in glob.glob("crates/*/src/**/*.rt", recursive=True):
        text = open(p, encoding="utf-8").read()
        new = turned_source(text, made)
        if new != text:
            open(p, "w", encoding="utf-8").write(new)
    return 0


if __name__ == "__main__":
    sys.exit(main(sys.argv[1:]))
