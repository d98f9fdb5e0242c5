#!/usr/bin/env python3
"""What a commit's statements became: `tools/statements.py COMMIT`, at the top of the repository.

Prints, old and new side by side as Markdown, each function whose signature or clauses differ from those at COMMIT,
each definition of crates/*/specs, and each theorem of crates/*/proofs that README or docs/ name in backquotes.
White space aside, and without a comma before a closing bracket."""
import re
import subprocess
import sys

PATH = re.compile(r"^crates/([^/]+)/(src|specs|proofs)/(.+)\.(rt|antt)$")


def run(*args):
    return subprocess.run(args, check=True, capture_output=True, text=True).stdout


def files_at(commit):
    """The texts of the sources and proofs at a commit, or in the checkout where that is None."""
    names = run("git", "ls-tree", "-r", "--name-only", commit) if commit else run("git", "ls-files")
    texts = {}
    for name in names.splitlines():
        if PATH.match(name):
            texts[name] = run("git", "show", f"{commit}:{name}") if commit else open(name, encoding="utf-8").read()
    return texts


def one_line(text):
    text = re.sub(r"\s+", " ", text).strip()
    return re.sub(r",? ([)\]}])", r" \1", re.sub(r",\s*([)\]])", r"\1", re.sub(r"([(\[]) ", r"\1", text))).replace(" )", ")")


def functions(texts):
    """Each function's place, with its signature and clauses on one line."""
    found = {}
    for name, text in texts.items():
        crate, part, module, kind = PATH.match(name).groups()
        if kind != "rt":
            continue
        owner = None
        lines = text.split("\n")
        i = 0
        while i < len(lines):
            line = lines[i]
            head = re.match(r"^impl(?:<[^>]*>)? (?:.* for )?(\w+)", line)
            if head:
                owner = head.group(1)
            elif line == "}":
                owner = None
            start = re.match(r"^( *)((?:pub(?:\([a-z]+\))? )?(?:const )?(?:extern \"C\" )?fn (\w+).*)$", line)
            if not start:
                i += 1
                continue
            indent, words, fn = start.groups()
            j = i
            while words.count("(") > words.count(")"):
                j += 1
                words += " " + lines[j].strip()
            while not words.endswith("{") or re.search(r"(ensures|requires)( \w+)? \{$", words):
                j += 1
                if lines[j] == indent + "{":
                    break
                words += " " + lines[j].strip()
            place = [crate] + ([] if module in ("lib", "main") else module.split("/")) + ([owner] if owner else []) + [fn]
            found["::".join(place)] = one_line(words.rstrip("{"))
            i = j + 1
    return found


def declarations(text):
    """The declarations of a text of proofs: name, and the lines from it to the next that begins at the margin."""
    text = re.sub(r"--.*", "", text)
    for block in re.split(r"\n(?=\S)", text):
        yield block


def definitions(texts):
    found = {}
    for name, text in texts.items():
        crate, part, module, kind = PATH.match(name).groups()
        if kind != "antt" or part != "specs" or module == "Lib":
            continue
        current = None
        for block in declarations(text):
            head = re.match(r"^(?:abbrev |unfoldable )?pub (?:record |data |unfoldable |abbrev )?([^\s:]+)", block)
            if head and not block.startswith("pub mod"):
                current = f"{crate}.{head.group(1)}"
                found[current] = one_line(block)
            elif current and re.match(r"^[^\s]+ .*=|^[^\s]+ =|^  ", block):
                found[current] += " " + one_line(block)
            elif block.startswith("use "):
                current = None
    return found


def theorems(texts, named):
    found = {}
    for name, text in texts.items():
        crate, part, module, kind = PATH.match(name).groups()
        if kind != "antt" or part == "src" or "/" in module:
            continue
        text = re.sub(r"--.*", "", text)
        for m in re.finditer(r"^ *(?:abbrev )?pub (\S+) : (.*(?:\n +(?!unfolding)[→×(].*)*)", text, re.M):
            if m.group(1) in named:
                found[f"{crate}.{module}.{m.group(1)}"] = one_line(m.group(2))
    return found


def show(title, old, new):
    changed = [k for k in sorted(old.keys() | new.keys()) if old.get(k) != new.get(k)]
    print(f"{title}: {len(changed)}\n")
    for k in changed:
        state = " (new)" if k not in old else " (gone)" if k not in new else ""
        print(f"- {k}{state}\n\n  ```diff")
        if k in old:
            print(f"  - {old[k]}")
        if k in new:
            print(f"  + {new[k]}")
        print("  ```")
    print()


def main():
    old_texts, new_texts = files_at(sys.argv[1]), files_at(None)
    old, new = functions(old_texts), functions(new_texts)
    public = {k for k in old.keys() | new.keys() if "pub fn" in old.get(k, new.get(k)) or "pub extern" in old.get(k, new.get(k))}

    def only(all_of, chosen):
        return {k: v for k, v in all_of.items() if (k in public) == chosen}

    print("### Functions\n")
    show("#### Public functions", only(old, True), only(new, True))
    show("#### Other functions", only(old, False), only(new, False))
    print("### Definitions\n")
    show("#### Changed, new or gone", definitions(old_texts), definitions(new_texts))
    pages = [name for name in run("git", "ls-files", "README.md", "docs/*.md").splitlines() if not name.endswith("DESIGN-PASS.md")]
    words = set(re.findall(r"`([^`\s]+)`", "\n".join(open(name, encoding="utf-8").read() for name in pages)))
    named = words | {w.split(".")[-1] for w in words}
    show("### Theorems that documents name", theorems(old_texts, named), theorems(new_texts, named))


main()
