#!/usr/bin/env python3
"""Brings the repository's own names to Rattle's spelling: words in snake case, modules in upper camel case.

usage: tools/respell.py [--check] [FOLDER]

It was run once, at the port to a newer Rattle, after /opt/rattle/port/port.py and before any edit by hand; it is kept
so that the same can be done to an older commit and the two compared. FOLDER, by default this repository, has crates/.

- A word in lower camel case, as `ruleCost`, becomes `rule_cost`: a definition, a field, a constructor or a variable.
- In a name with dashes a dash stays before a name, as in `length-rows_of`; before a plain word it becomes `_`, as in
  `before_asym`. A name is a definition, a field or a constructor of specs/, or a word of the library.
- The module `how` of a crate's definitions becomes `How`.

Names of the library stay, and so does what stands in a proof that walks the code behind a dot, with a dash. A name of
the Rust code is in snake case already. Two names of one file that fall together are shown, and nothing is written.
"""

import os
import re
import sys

# words of the library that our lemmas speak of
LIBRARY = set("length append take drop map filter replicate sum min max suc zero add sub mul cond cons".split())
# lemmas that would fall together with what they speak of
LEMMAS = {
    "left_over": "left_over_lem",
    "index_in": "index_in_lem",
    "no_number": "no_number_lem",
}
TOKEN = re.compile(r"[^\s(){}.;,@\"«»`|\[\]]+")
CAMEL = re.compile(r"[a-z][a-z0-9]*(?:[A-Z][A-Za-z0-9]*)+'*")


def texts(folder, suffixes):
    for at, dirs, files in os.walk(folder):
        dirs[:] = sorted(d for d in dirs if d not in ("out", "target", ".git"))
        for name in sorted(files):
            if name.endswith(suffixes):
                yield os.path.join(at, name)


def read(path):
    with open(path, encoding="utf-8") as f:
        return f.read()


def declared(text):
    """The names that a file of definitions or laws declares, with the fields and the constructors of its types."""
    found = set()
    for line in text.split("\n"):
        m = re.match(r"^ *(?:(?:abbrev|unfoldable|pub) )*(?:(?:record|data) ([A-Za-z]\S*)|([^\s:(){},.=]+) :(?= ))", line)
        if m:
            found.add(m[1] or m[2])
    return {w for w in found if re.fullmatch(r"[A-Za-z0-9_'-]+", w)}


def snake(word):
    word = re.sub(r"([a-z0-9])([A-Z])", r"\1_\2", word)
    return re.sub(r"([A-Z])([A-Z][a-z])", r"\1_\2", word).lower()


def walked(path):
    return path.endswith("/Proof.antt")


def respelled(token, names, taken, walk=False):
    """The token in the new spelling. A lemma that would have the name of something else gets `_lem`."""
    if token in LEMMAS and not walk:
        return LEMMAS[token]
    parts = [snake(p) if CAMEL.fullmatch(p) else p for p in token.split("-")]
    if any(not p for p in parts):
        return token
    out = parts[0]
    for part in parts[1:]:
        out += ("-" if part in names else "_") + part
    return out + "_lem" if len(parts) > 1 and out in taken else out


def main(argv):
    check = "--check" in argv
    argv = [a for a in argv if a != "--check"]
    root = argv[0] if argv else os.path.dirname(os.path.dirname(os.path.abspath(__file__)))
    crates = os.path.join(root, "crates")
    laws = [p for p in texts(crates, (".antt",)) if not walked(p)]
    own = set()
    for path in laws:
        own |= declared(read(path))
    told = set()
    for path in laws:
        if "/specs/" in path:
            told |= declared(read(path))
    names = {snake(w) if CAMEL.fullmatch(w) else w for w in told if "-" not in w} | LIBRARY
    taken = {snake(w) if CAMEL.fullmatch(w) else w for path in laws for w in TOKEN.findall(read(path)) if "-" not in w}
    dashed = {w for w in own if "-" in w.strip("-")}
    said, wrote = [], 0
    for path in texts(crates, (".antt", ".rt")):
        text = read(path)
        walk, code = walked(path), path.endswith(".rt")
        turned = {}

        def one(m):
            token = m[0]
            behind = m.start() and text[m.start() - 1] == "."
            if "-" in token.strip("-"):
                if token not in dashed or (walk and behind):
                    return token
            elif not CAMEL.fullmatch(token) and (walk or code or token not in LEMMAS):
                return token
            new = respelled(token, names, taken, walk)
            turned.setdefault(new, set()).add(token)
            return new

        new = TOKEN.sub(one, text)
        new = re.sub(r"(?<=specs\.)how(?=\.)", "How", new)
        new = re.sub(r"(?m)^(pub )?mod how$", lambda m: (m[1] or "") + "mod How", new)
        there = {m[0] for m in TOKEN.finditer(text)}
        for word, olds in sorted(turned.items()):
            if len(olds) > 1 or (word in there and word not in olds):
                said.append(f"{path}: {', '.join(sorted(olds))} and {word} fall together")
        if new != text:
            wrote += 1
            if not check:
                with open(path, "w", encoding="utf-8") as f:
                    f.write(new)
    for path in [os.path.join(root, "README.md"), *texts(os.path.join(root, "docs"), (".md",))]:
        if not os.path.exists(path):
            continue
        text = read(path)

        def span(m):
            return TOKEN.sub(
                lambda t: respelled(t[0], names, taken)
                if (t[0] in dashed or (CAMEL.fullmatch(t[0]) and t[0] in own))
                else t[0],
                m[0],
            )

        new = re.sub(r"`[^`\n]+`", span, text)
        new = re.sub(r"specs([./])how", r"specs\1How", new)
        if new != text:
            wrote += 1
            if not check:
                with open(path, "w", encoding="utf-8") as f:
                    f.write(new)
    print("\n".join(said))
    print(f"respell: {wrote} files" + (" would change" if check else " changed") + f", {len(said)} places to look at")
    if not check:
        for at, dirs, files in os.walk(crates):
            if os.path.basename(at) == "specs":
                for name in ("how", "how.antt"):
                    if os.path.exists(os.path.join(at, name)):
                        os.rename(os.path.join(at, name), os.path.join(at, "H" + name[1:]))
    return 1 if said and check else 0


if __name__ == "__main__":
    raise SystemExit(main(sys.argv[1:]))
