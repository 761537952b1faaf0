#!/usr/bin/env python3
"""Brings the names that snake_names.py did not see to snake case: constructors declared two on a line, lemmas whose signature begins on the next line,
names that begin with `data-`, and a few names given by an import. Run once, after it, at the top of the repository: `tools/snake_rest.py`.
"""
import glob
import re

REST = """
below-it child-at clear-rest data-apart data-at data-block-one data-hole data-in data-same data-still field-by free-flip in-range is-need
long-blocks need-is new-path noDirectory noVolume off-e off-t pathOf rest-by up-w within-true
""".split()

# Constructors of Led (Laws/Lookup), which these names would fall together with.
LED = {"no_volume": "no_volume_led", "no_directory": "no_directory_led"}


def snake(name):
    return re.sub(r"(?<=[a-z])([A-Z])", lambda m: "_" + m[1].lower(), name).replace("-", "_")


def main():
    edge = r"[^\s(){}\[\],;:∷]"
    old = re.compile(rf"(?<!{edge})(?:{'|'.join(map(re.escape, REST))})(?!{edge.replace(';', ';.')})")
    files = glob.glob("crates/*/specs/**/*.antt", recursive=True) + glob.glob("crates/*/proofs/**/*.antt", recursive=True)
    for path in sorted(files + glob.glob("crates/*/must-fail/*.edit") + glob.glob("edits/*/*.edit")):
        text = open(path, encoding="utf-8").read()
        if path.endswith("model/proofs/Laws/Lookup.antt"):
            new = re.sub(r"(?<![\w.'])(?:no_volume|no_directory)(?![\w'])", lambda m: LED[m[0]], text)
        else:
            new = text
        new = old.sub(lambda m: snake(m[0]), new)
        if new != text:
            open(path, "w", encoding="utf-8").write(new)
            print(path)


main()
