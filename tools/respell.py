#!/usr/bin/env python3
"""Brings the repository's own definitions, lemmas, fields and constructors to today's spelling: words in snake case, with `_` for a dash.

    python3 tools/respell.py          lists what would be renamed, and the names that would fall together
    python3 tools/respell.py write    renames, in crates/ (sources' ghost parts, specs, proofs, edits)

Only names that specs/*.antt and proofs/*.antt of a crate declare are renamed (and `f-spec`, the proof of a function f, which is `f_spec` now).
Functions, fields and constants of src/, exported names, strings, inputs and outputs keep theirs. It was run once, after the kit's port.py.
"""
import glob
import os
import re
import sys

ROOT = os.path.join(os.path.dirname(os.path.abspath(__file__)), "..")
TOKEN = re.compile(r"[^\s(){}\[\],;.:·|\"«»]+")
HEAD = re.compile(r"([^\s(){}\[\],;.:]+(?:\s+[^\s(){}\[\],;.:→×=∙]+)*)\s*(?:\{[^{}]*\}\s*|\([^()]*\)\s*)*:(?=\s)")
# Where a lemma would fall together with a definition or a function, it gets `_lem`. port.py has respelled these lemmas already.
LEMMAS = ["by_row", "go_on", "left_by", "none_left", "on_list", "node_at"]
# And this one stands in one file.
IN_FILE = {("layout/proofs/Laws.antt", "last_line"): "last_line_lem"}


def read(path):
    with open(path, encoding="utf-8") as f:
        return f.read()


def uncommented(text):
    return "\n".join(re.sub(r"(^|\s)--.*$", "", line) for line in text.split("\n"))


def odd(name):
    if re.search(r"[◌+∷≡]", name):
        return False
    return bool(re.search(r"[\w?']-[\w?]", name) or re.match(r"[a-zα-ω]\w*[A-Z]", name))


def snake(name):
    name = name.replace("-", "_").replace("ML", "Ml")
    name = re.sub(r"(?<=[a-z0-9])([A-Z])(?=[a-z])", lambda m: "_" + m.group(1).lower(), name)
    name = re.sub(r"(?<=[a-z0-9])([A-Z])(?![a-z])", lambda m: "_" + m.group(1).lower(), name)
    return name


def own(pattern):
    return sorted(glob.glob(os.path.join(ROOT, "crates", "*", pattern), recursive=True))


def declared():
    names = set()
    for path in own("specs/*.antt") + own("proofs/*.antt"):
        for m in HEAD.finditer(uncommented(read(path))):
            names.update(w for w in m.group(1).split() if odd(w))
    for path in own("proofs/**/Proof.antt"):
        names.update(re.findall(r"^pub ([^\s:]+-spec)(?= )", read(path), re.M))
    return names


def imported():
    """Names that come from the kit: those of `use` lines whose path is not of this repository's crates."""
    crates = {os.path.basename(p) for p in glob.glob(os.path.join(ROOT, "crates", "*"))}
    names = set()
    for path in own("**/*.antt"):
        for m in re.finditer(r"^use ([^\s{]+?)\.?\{([^}]*)\}", read(path), re.M):
            parts = m.group(1).replace("·", ".").split(".")
            if not (parts[0] == "Rattle" and len(parts) > 1 and parts[1] in crates):
                names.update(w.split(" as ")[0].strip() for w in m.group(2).split(","))
    return names


def main():
    mapping = {name: snake(name) for name in sorted(declared() - imported())}
    files = own("specs/**/*.antt") + own("proofs/**/*.antt") + own("src/**/*.rt") + own("must-fail/*.edit")
    there = {}
    for path in files:
        for w in TOKEN.findall(read(path)):
            there.setdefault(w, path)
    for name, new in mapping.items():
        if "-" in name and (new in there or any(n == new for m, n in mapping.items() if m != name)):
            mapping[name] = new + "_lem"
    mapping.update((name, name + "_lem") for name in LEMMAS)
    back = {}
    for name, new in mapping.items():
        back.setdefault(new, []).append(name)
    together = 0
    for new, names in sorted(back.items()):
        if len(names) > 1 or new in there:
            together += 1
            print("together:", ", ".join(names), "->", new, "(there: %s)" % there[new] if new in there else "")
    print(len(mapping), "names,", together, "that would fall together")
    if sys.argv[1:] != ["write"]:
        return
    pages = [os.path.join(ROOT, p) for p in ("README.md", "CONTRIBUTING.md", "docs/DECISIONS.md", "docs/READINGS.md", "docs/PERFORMANCE.md")]
    for path in files + pages + sorted(glob.glob(os.path.join(ROOT, "docs/notes/*.md"))):
        text = read(path)

        def respelled(m):
            name = m.group(0)
            inside = [new for (p, n), new in IN_FILE.items() if n == name and path.endswith(p)]
            if inside:
                return inside[0]
            if name in LEMMAS and not path.endswith(".antt"):
                return name
            return mapping.get(name, name)

        if path.endswith(".md"):
            new = re.sub(r"`[^`\n]*`", lambda m: TOKEN.sub(respelled, m.group(0).strip("`")).join("``"), text)
        else:
            new = TOKEN.sub(respelled, text)
        if new != text:
            with open(path, "w", encoding="utf-8") as f:
                f.write(new)


main()
