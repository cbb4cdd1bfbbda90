#!/usr/bin/env python3
"""Respells what the kit's port.py left: the repository's own definitions and lemmas, in snake case.

usage: python3 tools/respell.py     once, at the top of the repository, right after port.py

A name that specs/ or a lemma file of proofs/ declares, and that is no type and no module, is spelled in snake case wherever the
crates, the must-fail edits and the pages cite it. The kit's own names, those that the check makes, and all that is written in Rust
stay. It stops, with nothing changed, where two names would fall together.
"""

import glob
import re
import sys

NAME = re.compile(r"[^\s(){}\[\],;:.`\"]+")
DECLARED = re.compile(r"^\s*(?:abbrev\s+|unfoldable\s+)?(?:pub\s+)?(?:abbrev\s+|unfoldable\s+)?([^\s:(){}\[\]|=λ→]+)\s+:\s")
LEMMA_FILES = re.compile(r"crates/\w+/(specs/.*|proofs/[A-Z]\w*)\.antt$")


def snake(name):
    name = name.replace("getD", "get_or").replace("′", "'")
    name = re.sub(r"(?<=[^\W_])(?=[A-Z])", "_", name.replace("-", "_"))
    return name.replace("∂S", "∂_S").lower()


def is_own(name):
    """A lower-case name with letters, so no type, no module, no operator and nothing quoted."""
    return not name[0].isupper() and "◌" not in name and "«" not in name and any(c.isalpha() for c in name)


def read(path):
    with open(path, encoding="utf-8") as f:
        return f.read()


def declared():
    """Each own name as it is spelled now, with the files that declare it, by crate and by its new spelling."""
    found = {}
    for path in sorted(glob.glob("crates/*/specs/**/*.antt", recursive=True) + glob.glob("crates/*/proofs/*.antt")):
        if LEMMA_FILES.match(path):
            for line in read(path).split("\n"):
                m = DECLARED.match(line)
                if m and not line.lstrip().startswith(("--", "data ", "record ")) and is_own(m.group(1)):
                    found.setdefault((path.split("/")[1], snake(m.group(1))), {}).setdefault(m.group(1), []).append(path)
    return found


def definition(olds):
    """Which of several old spellings is the definition's: one of specs/, or in camel case, or else the one without a dash."""
    for old, paths in olds.items():
        if any("/specs/" in path for path in paths) or re.search(r"[a-z][A-Z]", old):
            return old
    return min(olds, key=lambda old: "-" in old)


def aliases():
    """The names that a line 'use' gives with 'as', which are no words of the kit."""
    found = set()
    for path in glob.glob("crates/**/*.antt", recursive=True) + glob.glob("crates/*/src/**/*.rt", recursive=True):
        if path.endswith(".antt") and not LEMMA_FILES.match(path):
            continue
        for line in read(path).split("\n"):
            if re.match(r"\s*(ghost )?use ", line):
                found.update(a for a in re.findall(r" as ([^\s,{};]+)", line) if is_own(a) and snake(a) != a)
    return found


def spellings():
    """The new spelling of each name: of a whole tree, and of one crate alone where the old one is in snake case already.
    A lemma that would have its definition's name gets _lem."""
    everywhere, within = {a: snake(a) for a in aliases()}, {}
    for (crate, new), olds in declared().items():
        for old, paths in olds.items():
            to = new
            if len(olds) > 1 and old != definition(olds):
                to = new + "_lem"
            if old == new:
                if to != new:
                    within.setdefault(crate, {})[old] = to
            elif everywhere.setdefault(old, to) != to:
                # The same old spelling with a definition beside it in one crate alone: one name for it everywhere.
                everywhere[old] = max(everywhere[old], to, key=len)
    return everywhere, within


def fall_together(everywhere, within):
    clashes = []
    for (crate, new), olds in declared().items():
        to = [within.get(crate, {}).get(old) or everywhere.get(old, old) for old in olds]
        if len(set(to)) < len(to):
            clashes.append(f"{crate}: {', '.join(sorted(olds))} would fall together")
    return clashes


def respelled(text, names, after_dot=lambda before: True):
    """The text with each own name in its new spelling; behind a dot only where after_dot allows it."""

    def one(m):
        word = m.group(0)
        if m.start() and text[m.start() - 1] == "." and not after_dot(text[: m.start() - 1]):
            return word
        return names.get(word, word)

    return NAME.sub(one, text)


def of_module(before):
    """In a function's proof, behind a dot: only of a module, whose name has a capital. The rest are names that the check makes."""
    return bool(re.search(r"(?:^|[\s(.{,])[A-Z]\w*$", before))


def comment_split(line, mark):
    at = line.find(mark)
    return (line, "") if at < 0 else (line[:at], line[at:])


def quoted(text, names):
    """Only what stands between backticks."""
    parts = text.split("`")
    for i in range(1, len(parts), 2):
        parts[i] = respelled(parts[i], names)
    return "`".join(parts)


class Names(dict):
    """Old spelling to new; with older(), also the spellings that port.py had before it turned them."""

    def __init__(self, names, settled):
        super().__init__(names)
        self.settled = settled

    def older(self):
        return Older(self)


class Older(dict):
    def __init__(self, names):
        super().__init__(names)
        self.names = names

    def get(self, word, default=None):
        if word in self.names:
            return self.names[word]
        if is_own(word) and snake(word) != word and snake(word) in self.names.settled:
            return self.names.settled[snake(word)]
        return default


def page(path, text, names):
    return quoted(text, names.older())


def antt(path, text, names):
    walked = re.search(r"proofs/(?![A-Z]\w*\.antt)", path)
    functions = re.compile(r"^pub ([a-z0-9-]+)-spec\b|^([a-z0-9-]+)-spec =", re.M)
    if walked:
        text = functions.sub(lambda m: m.group(0).replace("-", "_"), text)
    lines = []
    for line in text.split("\n"):
        code, comment = comment_split(line, "--")
        lines.append((respelled(code, names, of_module) if walked else respelled(code, names)) + quoted(comment, names))
    return "\n".join(lines)


def rust(path, text, names):
    """Clauses and ghost imports only; what is written in Rust has no name that changes."""
    lines, ghost = [], False
    for line in text.split("\n"):
        code, comment = comment_split(line, "//")
        if re.match(r"\s*(ghost use|ghost\b|requires\b|ensures\b)", code):
            ghost = True
        if ghost:
            code = respelled(code, names)
            if re.match(r"\s*ghost use", code):
                ghost = not code.rstrip().endswith(";")
            elif code.count("}") and re.match(r"^\s*\{\s*$", code):
                ghost = False
        if re.match(r"^\s*\{\s*$", code):
            ghost = False
        lines.append(code + quoted(comment, names))
    return "\n".join(lines)


def edit(path, text, names):
    """An edit of specs/ has text of antt; one of src/ has Rust, and a clause at most."""
    lines, file = [], ""
    for line in text.split("\n"):
        if line.startswith("file: "):
            file = line[6:].strip()
        elif file.endswith(".antt") or "⌝" in line:
            line = respelled(line, names.older())
        lines.append(line)
    return "\n".join(lines)


def main():
    everywhere, within = spellings()
    clashes = fall_together(everywhere, within)
    if clashes:
        print("\n".join(clashes), file=sys.stderr)
        raise SystemExit(2)
    # What port.py respelled already, as it stood: for the edits and the pages, which port.py leaves.
    settled = {}
    for (crate, new), olds in declared().items():
        settled.setdefault(new, within.get(crate, {}).get(new, new))
    changed = 0
    for pattern, turn in [
        ("crates/**/*.antt", antt),
        ("crates/*/src/**/*.rt", rust),
        ("crates/*/must-fail/*.edit", edit),
        ("docs/**/*.md", page),
        ("README.md", page),
    ]:
        for path in sorted(glob.glob(pattern, recursive=True)):
            if "/out/" in path:
                continue
            whole = LEMMA_FILES.match(path)
            here = within.get(path.split("/")[1], {}) if whole else {}
            names = Names({**everywhere, **here}, settled)
            old = read(path)
            new = turn(path, old, names)
            if new != old:
                with open(path, "w", encoding="utf-8") as f:
                    f.write(new)
                changed += 1
    print(f"respell: {changed} files")


if __name__ == "__main__":
    main()
