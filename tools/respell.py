#!/usr/bin/env python3
"""Respells the repository's own names of definitions and lemmas as the library spells its own.

usage: tools/respell.py [FOLDER]

Words are in snake case, each part between dashes by itself: 'upTo-map' becomes 'up_to-map'. A part that begins with
a capital is a type or a fact and keeps its spelling. A record of facts is in camel case, and a field of the worked
amounts has no dash. Words of 'crates/' change, in .rt, .antt and .edit files, but for text between quotation
marks. The word 'All' of a file that took the library's 'AllByRecursion' under that name becomes 'AllByRecursion',
since 'All' is another word of the library.
A second run writes nothing more. It fails, and writes nothing, where two names of one crate would fall together.
"""

import os
import re
import sys

NAMED = {
    "Worked-amounts": "WorkedAmounts",
    "last-getD": "last-get_or",
    "onlyOne": "only_one_of_kind",
}
FIELDS = {
    "below-first": "below_first",
    "cap-over-adder": "cap_over_adder",
    "adder-over-cap": "adder_over_cap",
    "day-ahead": "day_ahead",
    "at-tolerance": "at_tolerance",
    "beyond-tolerance": "beyond_tolerance",
}
WORD = re.compile(r'"(?:[^"\\\n]|\\.)*"|[A-Za-z_][A-Za-z0-9_\']*(?:-[A-Za-z0-9_\']+)*')
DEFINED = re.compile(
    r"^\s*(?:(?:abbrev|unfoldable|data|record)\s+)?(?:pub\s+)?(?:(?:data|record|abbrev|unfoldable)\s+)?"
    r"([^\s:(){}]+)\s*(?:[({][^)}]*[)}]\s*)*:\s",
    re.M,
)
RENAMED = re.compile(r"\bAllByRecursion as All\b")
MADE_FOR_VARIANTS = re.compile(r"^returns-|-requires$|^goal\.")


def snake(part):
    """Returns the spelling of one part, between dashes, of a name."""
    if not re.match(r"[a-z]", part) or not re.search(r"[a-z0-9][A-Z]", part):
        return part
    return re.sub(r"(?<=[a-z0-9])([A-Z])", lambda at: "_" + at[1].lower(), part)


def spelled(name):
    """Returns the spelling of a whole name."""
    if name in NAMED:
        return NAMED[name]
    if MADE_FOR_VARIANTS.search(name):
        return name
    return "-".join(snake(part) for part in name.split("-"))


def respelled(path, text):
    """Returns a file's text with its names respelled."""
    fields = FIELDS if path.endswith(".antt") and f"crates{os.sep}cases{os.sep}" in path else {}
    whole = RENAMED.search(text) is not None
    text = RENAMED.sub("AllByRecursion", text)

    def word(found):
        if found[0].startswith('"'):
            return found[0]
        if whole and found[0] == "All":
            return "AllByRecursion"
        return fields.get(found[0]) or spelled(found[0])

    return WORD.sub(word, text)


def files(top):
    """Yields the files of 'crates/' whose names are respelled."""
    for below, inner, names in os.walk(os.path.join(top, "crates")):
        inner[:] = sorted(it for it in inner if it != "out")
        for name in sorted(names):
            if name.endswith((".rt", ".antt", ".edit")):
                yield os.path.join(below, name)


def fallen_together(texts):
    """Returns the pairs of names defined in one crate that would be one name."""
    pairs = []
    crates = {}
    for path, text in texts.items():
        crate = path.split("crates" + os.sep, 1)[1].split(os.sep)[0]
        if path.endswith(".antt"):
            crates.setdefault(crate, set()).update(DEFINED.findall(text))
    for crate, names in sorted(crates.items()):
        at = {}
        for name in sorted(names):
            other = at.setdefault(spelled(name), name)
            if other != name:
                pairs.append((crate, other, name))
    return pairs


def main(arguments):
    top = arguments[0] if arguments else "."
    texts = {}
    for path in files(top):
        with open(path, encoding="utf-8") as file:
            texts[path] = file.read()
    pairs = fallen_together(texts)
    for crate, one, other in pairs:
        print(f"fall together: {crate}: {one} and {other}", file=sys.stderr)
    if pairs:
        return 1
    for path, text in texts.items():
        new = respelled(path, text)
        if new != text:
            with open(path, "w", encoding="utf-8") as file:
                file.write(new)
            print(path)
    return 0


if __name__ == "__main__":
    sys.exit(main(sys.argv[1:]))
