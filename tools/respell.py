#!/usr/bin/env python3
"""Brings the names of definitions and lemmas to the library's spelling, once, after the toolchain's own script has run.

usage: tools/respell.py          rewrites crates/, tests/theorem-edits, README.md and docs/ (its landing notes apart) in place
       tools/respell.py --list   prints each old name with the new one, and writes nothing

Words are in snake case: kindLine becomes kind_line. In a lemma's name a dash stays between two names, as in concat_map-append, and
becomes an underscore before a plain word, as in others_split. Types, modules, and the names of kinds and parts (AND, V') stay. Names
that the toolchain makes, functions of src/ and exported names stay. A lemma that would get the name of what it speaks of ends in _lem; NEW has the
names that would fall together otherwise."""
import collections
import pathlib
import re
import sys

TOP = pathlib.Path(__file__).resolve().parent.parent
# types, and words that would fall together with another one
NEW = {"inputsAre": "InputsAre", "isOne": "IsOne", "allRight": "all_cases_right", "sameAnswer": "answers_agree", "sameKind": "kinds_agree",
       "free_of": "free_of_lem", "word_value": "word_value_lem", "◌andThen◌": "◌and_then◌"}
# words that stand twice, in places of which neither sees the other
APART = {"made_by", "mask_at"}
# names of the library that lemmas here are named after
LIBRARY = "length map append take drop get_or set replicate reverse sum not and or xor cond div mod".split()
WORD = re.compile(r"[^\s(){}.,;«»`\"]+")
CAMEL = re.compile(r"[a-z][a-z0-9_']*[A-Z]")
DEFINED = re.compile(r"^\s*(?:(?:abbrev|unfoldable|pub)\s+)*((?:[^\s:(){}.,]+\s+)+)(?:\{[^}]*\}\s*)?:\s")
MADE = re.compile(r"(-spec|-requires(-\d+)?|-again(-\d+)?|-holds)$|^(invariant|decreases|returns|loop\d?|slice|shared|Need|After|At|In|In)-")


def is_leaf(path):
    """Whether a file proves one function, and so also has names that the toolchain makes."""
    parts = path.relative_to(TOP).parts
    return "proofs" in parts and len(parts) - parts.index("proofs") > 2 or path.stem in ("Proof", "Answers", "Invariants") and len(parts) > 4


def code(line):
    """A line of antt as its code and its comment."""
    found = re.search(r"(^|\s)--(\s|$)", line)
    return (line[:found.start()], line[found.start():]) if found else (line, "")


def snake(word):
    """A word in snake case; names of kinds and parts in capitals become words."""
    word = re.sub(r"([a-z0-9'])([A-Z])", r"\1_\2", word)
    return re.sub(r"_([A-Z]+)", lambda m: "_" + m.group(1).lower(), word)


def names():
    """The names that are defined: of words, those of specs/ apart, of lemmas with a dash, and of fields with a dash."""
    plain, stated, dashed, fields = set(), set(), set(), set()
    for path in sorted(TOP.glob("crates/*/*/**/*.antt")):
        inside = None
        for line in path.read_text(encoding="utf-8").split("\n"):
            text, _ = code(line)
            if re.match(r"\s*(pub )?record\b.*where", text):
                inside = len(text) - len(text.lstrip())
            elif text.strip() and inside is not None and len(text) - len(text.lstrip()) <= inside:
                inside = None
            found = DEFINED.match(text)
            if not found:
                continue
            for name in found.group(1).split():
                if "-" not in name:
                    plain.add(name)
                    if "specs" in path.parts and len(name) > 1:
                        stated.add(name)
                elif inside is not None:
                    fields.add(name)
                elif not MADE.search(name) and not name.startswith("+"):
                    dashed.add(name)
    return plain, stated, dashed, fields


def dashes(name, known):
    """A lemma's name with dashes between names, and underscores before plain words."""
    parts = [snake(part) for part in name.split("-")]
    out = parts[0]
    last = parts[0]
    for part in parts[1:]:
        typed = last[:1].isupper() and len(last) > 1
        joined = (last in known or typed) and (part in known or part.isupper() and len(part) > 1)
        out += ("-" if joined else "_") + part
        last = part
    return out


def table():
    """Old names and new ones; those of fields apart."""
    plain, stated, dashed, fields = names()
    words = {name: snake(name) for path in TOP.glob("crates/*/*/**/*.antt") for line in path.read_text(encoding="utf-8").split("\n")
             for name in WORD.findall(code(line)[0]) if "-" not in name and (CAMEL.match(name) or "◌andThen◌" == name)}
    known = {words.get(name, name) for name in stated} | set(LIBRARY)
    new = words | {name: snake(name.replace("-", "_")) for name in fields}
    taken = set(words.values()) | plain
    for name in dashed - fields:
        to = dashes(name, known)
        new[name] = to + "_lem" if to in taken else to
    new.update(NEW)
    return {old: to for old, to in new.items() if old != to}, fields, plain


def together(new, plain):
    """The new names that two old ones share, or that another name has."""
    olds = collections.defaultdict(set)
    for old, to in new.items():
        olds[to].add(old)
    for name in plain:
        if name in olds and name not in new:
            olds[name].add(name)
    return {to: sorted(found) for to, found in olds.items() if len(found) > 1 and to not in APART}


def turn_antt(text, new, fields, leaf):
    out = []
    for line in text.split("\n"):
        body, comment = code(line)

        def word(found):
            old = found.group(0)
            behind = found.start() and body[found.start() - 1] == "."
            if old not in new or leaf and "-" in old and behind and old not in fields and "proofs." not in body[:found.start()] and "specs." not in body[:found.start()]:
                return old
            return new[old]

        out.append(WORD.sub(word, body) + re.sub(r"`[^`]+`", lambda m: WORD.sub(lambda w: new.get(w.group(0), w.group(0)), m.group(0)), comment))
    return "\n".join(out)


def turn_code(text, new):
    """Source: words in camel case stand in clauses and imports alone; names with a dash in imports and clauses, written without spaces."""
    out = []
    for line in text.split("\n"):
        body, mark, comment = line.partition("//")
        body = WORD.sub(lambda m: new.get(m.group(0), m.group(0)) if CAMEL.match(m.group(0)) or "-" in m.group(0) else m.group(0), body)
        comment = re.sub(r"`[^`]+`", lambda m: WORD.sub(lambda w: new.get(w.group(0), w.group(0)), m.group(0)), comment)
        out.append(body + mark + comment)
    return "\n".join(out)


def turn_page(text, new):
    """Pages: names in back quotes."""
    return re.sub(r"`[^`\n]+`", lambda m: WORD.sub(lambda w: new.get(w.group(0), w.group(0)), m.group(0)), text)


def main():
    new, fields, plain = table()
    same = together(new, plain)
    if "--list" in sys.argv:
        for old in sorted(new):
            print(old, new[old])
        for to, olds in sorted(same.items()):
            print("together:", to, *olds)
        return
    if same:
        sys.exit(f"respell: names fall together: {same}")
    files = 0
    for path in sorted([*TOP.glob("crates/**/*"), *TOP.glob("tests/theorem-edits/*.edit"), TOP / "README.md", *TOP.glob("docs/*.md")]):
        if path.suffix not in (".antt", ".rt", ".edit", ".md") or "out" in path.parts:
            continue
        text = path.read_text(encoding="utf-8")
        if path.suffix == ".antt":
            turned = turn_antt(text, new, fields, is_leaf(path))
        elif path.suffix == ".rt":
            turned = turn_code(text, new)
        elif path.suffix == ".edit":
            turned = turn_code(text, new) if "src/" in text else turn_antt(text, new, fields, False)
        else:
            turned = turn_page(text, new)
        if turned != text:
            path.write_text(turned, encoding="utf-8")
            files += 1
    print(f"respell: {len(new)} names, {files} files")


main()
