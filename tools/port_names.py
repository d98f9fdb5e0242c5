#!/usr/bin/env python3
"""Brings the repository's own names to today's spelling, after the toolchain's script of the port has run.

usage: tools/port_names.py [--list]      at the top of the repository

- A definition, a lemma, a field or a constructor in camel case that begins small gets words joined by `_`:
  `keyBlock` is `key_block`; nor has a definition of specs/ a dash. Names that begin with a capital and the names of functions in src/ stay.
- A lemma's name that is made of names alone keeps a dash between them, as in `take-splice`; in any other one words are
  joined by `_`, as in `mount_twice`. A definition's name that has several words is one name.
- A lemma that would then have the name of a definition or a function ends in `_lem`.
- `old x` and `new x` of specs/Lent in a contract are the language's own `x.old`, `x.new` and, of a `&`, `x.now`.
- A plain struct or enum that only derives `Drop` is `Clone` and `Copy`, as each was before.

It rewrites .rt, .antt and .edit files below crates/ and the pages. In comments and pages it turns what stands between
backticks. --list prints each new name, and writes nothing. A second run changes nothing.
"""

import glob
import os
import re
import sys

WORD = r"[^\s(){}.;,@\"«»\[\]\\:`|/→λ]+"
TOKEN = re.compile(WORD)
HEAD = re.compile(r"\s*(?:\|\s*)?(?:(?:abbrev|unfoldable|pub|private|record|data|enum)\s+)*((?:" + WORD + r"\s+)*" + WORD + r")\s*:(?!=)\s")
CAMEL = re.compile(r"(?<=[a-z0-9'])([A-Z])")
# Lemmas that have their definition's name once it is in snake case.
LEMMAS = {it: it + "_lem" for it in "sub_word place_at with_keys key_right read_length pair_then pairs_of whole_with entries_fit node_at".split()}
# Names that a λ, a let or a where gives.
BOUND = "asGiven recordFits madeInside wholeBook madeIn cutBook argLong".split()
# Names of the library that a lemma's name may join, beside those that the files import.
LIBRARY = set("append add sub mul div mod and or not cond length take drop set map replicate true false eqb ltb leb zero suc get_or".split())


def files(*ends):
    for folder, dirs, names in os.walk("crates"):
        dirs[:] = sorted(d for d in dirs if d != "out")
        for name in sorted(names):
            if name.endswith(ends):
                yield os.path.join(folder, name)


def pages():
    yield from ["README.md", "CONTRIBUTING.md", *sorted(glob.glob("docs/**/*.md", recursive=True))]


def read(path):
    with open(path, encoding="utf-8") as it:
        return it.read()


def write(path, text):
    with open(path, "w", encoding="utf-8") as it:
        it.write(text)


def heads(text):
    """The names that an antt file declares, each with its line."""
    for line in text.split("\n"):
        m = None if line.lstrip().startswith("--") else HEAD.match(line)
        for name in m.group(1).split() if m else ():
            yield name, line
        for name in re.findall(r" as (" + WORD + r")(?=[,}])", line) if re.match(r"(ghost )?use ", line) else ():
            yield name, line


# ---- camel case


def snake(name):
    parts = re.split(r"(-)", name)
    return "".join(CAMEL.sub(lambda m: "_" + m.group(1).lower(), it) if it[:1].islower() else it for it in parts)


def camel_table():
    names = {}
    for path in files(".antt", ".rt"):
        text = read(path) if path.endswith(".antt") else "\n".join(re.sub(r"\s+", " ", it) for it in re.findall(r"(?m)^ghost use [^;]*", read(path)))
        names.update((it, snake(it)) for it in BOUND if re.search(r"\b" + it + r"\b", text))
        for name, _ in heads(text):
            if name[0].islower() and re.search(r"[a-z0-9'][A-Z]", name) and snake(name) != name:
                names[name] = snake(name)
            elif "/specs/" in path and "-" in name:
                names[name] = name.replace("-", "_")
    return names


def renamed(text, names):
    return TOKEN.sub(lambda m: names.get(m.group(0), m.group(0)), text)


def with_lemmas(text, lemmas):
    """A lemma that gets its definition's name is called after it, where it doesn't stand behind a dot."""
    return re.sub(r"(?<![\w.'-])(" + "|".join(lemmas) + r")(?![\w'-])(?!\.[A-Z])", lambda m: LEMMAS[m.group(1)], text)


def lent(text):
    """The two moments of a lent buffer, by the language's own words."""
    out = []
    for part in re.split(r"(?m)^(?=(?:pub(?:\([^)]*\))? )?(?:unsafe )?(?:extern \"C\" )?fn |    (?:pub(?:\([^)]*\))? )?fn )", text):
        mutable = set(re.findall(r"\b(\w+): &(?:'\w+ )?mut\b", part)) | ({"self"} if "&mut self" in part else set())

        def turn(m):
            word, name = m.group(1), m.group(2)
            return f"{name}.{word}" if name in mutable else f"{name}.now"

        part = re.sub(r"\((old|new) (\w+)\)", turn, part)
        part = re.sub(r"(?<![\w.])(old|new) (\w+)(?=[\s.)}\]])", lambda m: turn(m) if re.search(r"\b" + m.group(2) + r": &|&(mut )?self", part) else m.group(0), part)
        out.append(part)
    return "".join(out)


def turn_camel():
    names = camel_table()
    lemmas = sorted(LEMMAS.keys() & names.values())
    for path in files(".rt", ".antt", ".edit"):
        text = before = read(path)
        if path.endswith(".antt") and lemmas:
            text = with_lemmas(text, lemmas)
        text = renamed(text, names)
        if path.endswith(".rt"):
            text = text.replace("#[derive(Drop)]", "#[derive(Clone, Copy)]")
            if "Lent.{" in text:
                text = re.sub(r"ghost use Rattle\.base\.specs\.Lent\.\{[^}]*\};\n", "", text)
                text = lent(text)
        if text != before:
            write(path, text)
    for path in pages():
        text = read(path)
        new = re.sub(r"`[^`\n]+`", lambda m: renamed(m.group(0), names), text)
        if new != text:
            write(path, new)
    if os.path.exists("crates/base/specs/Lent.antt"):
        os.remove("crates/base/specs/Lent.antt")
        text = read("crates/base/specs/Lib.antt")
        write("crates/base/specs/Lib.antt", re.sub(r"--   Lent .*\n", "", text).replace("pub mod Lent\n", ""))


# ---- dashes


def dash_table():
    """The new name of each lemma, and the fields of records among them."""
    definitions, lemmas, fields, kept, taken, imported = set(), set(), set(), set(), set(), set()
    for path in files(".antt"):
        if path.endswith("/Proof.antt"):
            continue
        text = read(path)
        code = re.sub(r"(?m)--.*$", "", text)
        kept.update(re.findall(r"\bgoal\.(" + WORD + ")", code))
        taken.update(TOKEN.findall(code))
        for module, inside in re.findall(r"(?m)^use (\S+?)\.\{([^}]*)\}", code):
            if not module.startswith("Rattle.") or module.startswith("Rattle.std"):
                imported.update(it.strip().split(" as ")[-1] for it in inside.split(","))
        record = None
        for line in text.split("\n"):
            indent = len(line) - len(line.lstrip())
            if re.match(r"\s*(pub )?record\b.*where", line):
                record = indent
            elif line.strip() and record is not None and indent <= record:
                record = None
            for name, _ in heads(line):
                if "-" in name:
                    lemmas.add(name)
                    if record is not None and line.lstrip().startswith("pub "):
                        fields.add(name)
                elif "/specs/" in path and name[0].islower():
                    definitions.add(name)
    for path in files(".rt"):
        taken.update(re.findall(r"\bfn (\w+)", read(path)))
    kept |= {it for it in imported if "-" in it}
    names = definitions | LIBRARY | {it for it in imported if "-" not in it and it[:1].islower()}
    table = {}
    for lemma in sorted(lemmas - kept):
        parts = lemma.split("-")
        if parts[0][:1].isupper():
            continue
        words, at = [], 0
        while at < len(parts):
            end = next((it for it in range(len(parts), at + 1, -1) if "_".join(parts[at:it]) in names), at + 1)
            words.append("_".join(parts[at:end]))
            at = end
        new = ("-" if all(it in names for it in words) else "_").join(words)
        if new != lemma:
            table[lemma] = new + "_lem" if new in taken else new
    return table, fields & table.keys()


def turn_dashes(table, fields):
    aliases = set()

    def one(m):
        name = m.group(0)
        before = re.search(r"([^\s(){},;@.]+)\.$", m.string[: m.start()])
        of_module = before and (before.group(1) in aliases or before.group(1)[:1].isupper())
        return name if name not in table or before and not of_module and name not in fields else table[name]

    def quoted(text):
        return re.sub(r"`[^`\n]+`", lambda m: TOKEN.sub(one, m.group(0)), text)

    def line_of(line, mark):
        at = line.find(mark)
        return TOKEN.sub(one, line) if at < 0 else TOKEN.sub(one, line[:at]) + quoted(line[at:])

    for path in files(".antt", ".edit", ".rt"):
        text = read(path)
        aliases.clear()
        aliases.update(it for it in re.findall(r"(?m)^use \S+ as (\S+)$", text) if it != "goal")
        if path.endswith(".rt"):
            new = quoted(text)
        else:
            new = "\n".join(line_of(it, "--") for it in text.split("\n"))
        if new != text:
            write(path, new)
    for path in pages():
        text = read(path)
        if quoted(text) != text:
            write(path, quoted(text))


def main(argv):
    if "--list" in argv:
        table, _ = dash_table()
        for old, new in sorted({**camel_table(), **table}.items()):
            print(old, new)
        return 0
    turn_camel()
    turn_dashes(*dash_table())
    return 0


if __name__ == "__main__":
    raise SystemExit(main(sys.argv[1:]))
