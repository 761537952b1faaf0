#!/usr/bin/env python3
"""Brings the repository's own names of definitions, lemmas and fields to snake case, after the kit's port.py.

Run once, at the top of the repository: `tools/snake_names.py`. It renames what specs/ and proofs/ declare and what cites it
there, in the clauses of src/, and in the edits. Functions of src/, strings, modules and types keep their names. A name that
would fall together with another is said and given a longer one.
"""
import collections
import glob
import re
import sys

NAME = re.compile(r"[^\s(){}\[\],.;:∷⟨⟩]+")
DECLARED = re.compile(r"(?:(?:abbrev|unfoldable|pub|mutual)\s+)*([^\s:(){}\[\],.;]+)\s*:\s")
FIELD = re.compile(r"\s+(?:pub\s+)?([^\s:(){}\[\],.;=λ]+)\s*:\s")
LOCAL = re.compile(r"\s+(?:(?:abbrev|unfoldable|pub)\s+)*([a-z][^\s:(){}\[\],.;=λ]*)\s*:\s")
# Lemmas whose snake case is the name of a definition.
OTHERWISE = {
    "bit-of": "bit_of_law",
    "blocks-of": "blocks_of_law",
    "byte-of": "byte_of_law",
    "directory-faults": "directory_faults_law",
    "directory-key": "directory_key_law",
    "end-set": "end_set_law",
    "eof-most": "eof_most_law",
    "file-byte": "file_byte_law",
    "file-faults": "file_faults_law",
    "grown-key": "grown_key_law",
    "header-slots": "header_slots_law",
    "housed-on": "housed_on_law",
    "in_map": "in_map_law",
    "laid_in": "laid_in_law",
    "limb-at": "limb_at_law",
    "not-directory": "not_directory_law",
    "not-volume": "not_volume_law",
    "on-image": "on_image_law",
    "opened-on": "opened_on_law",
    "path-most": "path_most_law",
    "put-long": "put_long_law",
    "put_word": "put_word_law",
    "rename-number": "rename_number_law",
    "step_end": "step_end_law",
    "written_at": "written_at_law",
    "alike-names": "alike_names_law",
    "decimal-before": "decimal_before_law",
    "each-once": "each_once_law",
    "fresh-bits": "fresh_bits_law",
    "header-named": "header_named_law",
    "hole-between": "hole_between_law",
    "hole-first": "hole_first_law",
    "housed-from": "housed_from_law",
    "info-number": "info_number_law",
    "is-missing": "is_missing_law",
    "is-there": "is_there_law",
    "last-of": "last_of_law",
    "last-part": "last_part_law",
    "map-right": "map_right_law",
    "name-size": "name_size_law",
    "not-prodos": "not_prodos_law",
    "old-bytes": "old_bytes_law",
    "opened-from": "opened_from_law",
    "place-number": "place_number_law",
    "place-of": "place_of_law",
    "read_number": "read_number_law",
    "refused-line": "refused_line_law",
    "run_in": "run_in_law",
    "same_text": "same_text_law",
    "set-eof-number": "set_eof_number_law",
    "space-told": "space_told_law",
    "text-most": "text_most_law",
    "volume-chain": "volume_chain_law",
    "volume-header": "volume_header_law",
    "volume-renamed": "volume_renamed_law",
    "write-number": "write_number_law",
}


def snake(name):
    name = re.sub(r"(?<=[a-z0-9])([A-Z])", lambda m: "_" + m[1].lower(), name)
    return name.replace("-", "_")


def turns(name):
    return re.match(r"[a-z]", name) and (re.search(r"[A-Z]", name) or "-" in name) and not name.startswith("--")


def declared_in(path):
    names, fields = set(), set()
    block = None
    for line in open(path):
        if not line.strip() or line.lstrip().startswith("--"):
            continue
        if not line[0].isspace():
            block = re.match(r"(?:(?:pub|mutual)\s+)*(record|data)\b", line)
            m = DECLARED.match(line)
            if m and not block:
                names.add(m[1])
        elif block:
            m = FIELD.match(line)
            if m:
                fields.add(m[1])
                if block[1] == "data":
                    names.add(m[1])
        else:
            # A member of a `module _ .. where`, or of a `where`.
            m = LOCAL.match(line)
            if m:
                names.add(m[1])
    return names, fields


def foreign_in(text):
    names = set()
    for m in re.finditer(r"^use ([\w.']+)\.\{([^}]*)\}", text, re.M):
        own = re.match(r"Rattle\.(\w+)\.", m[1])
        if not own or own[1] == "std" or ".Goals" in m[1] or ".Given" in m[1]:
            names.update(x.strip() for x in re.split(r",| as ", m[2]))
    return names


def rename(text, names, fields, keep, code):
    def token(m):
        word = m[0]
        after_dot = m.start() > 0 and text[m.start() - 1] == "."
        if word in keep or not (turns(word) or word in OTHERWISE and not code):
            return word
        table = fields if after_dot and not is_path(text, m.start()) else names
        return table.get(word, word)

    def is_path(s, at):
        start = at
        while start > 0 and not s[start - 1].isspace() and s[start - 1] not in "({[,;":
            start -= 1
        return bool(re.match(r"[A-Z]", s[start])) or s[start:at].count(".") == 1 and s[start:at - 1] in aliases(s)

    out = []
    pos = 0
    cuts = []
    if not code:
        for m in re.finditer(r"(^|(?<=\s))--[^\n]*", text, re.M):
            cuts.append((m.start(), m.end()))
    else:
        for m in re.finditer(r"//[^\n]*|\"(?:[^\"\\\n]|\\.)*\"", text):
            cuts.append((m.start(), m.end()))
    for m in NAME.finditer(text):
        if any(a <= m.start() < b for a, b in cuts):
            continue
        out.append(text[pos:m.start()])
        out.append(token(m))
        pos = m.end()
    out.append(text[pos:])
    return "".join(out)


def aliases(text):
    return set(re.findall(r"^use [\w.']+ as (\w+)", text, re.M))


def main():
    antt = [p for p in glob.glob("crates/*/specs/**/*.antt", recursive=True)]
    lemmas = [p for p in glob.glob("crates/*/proofs/**/*.antt", recursive=True)]
    names, fields = set(), set()
    for path in antt + lemmas:
        if path.endswith("/Proof.antt"):
            continue
        n, f = declared_in(path)
        names |= n
        fields |= f
    every = names | fields
    to = collections.defaultdict(set)
    for n in every:
        to[OTHERWISE.get(n, snake(n))].add(n)
    bad = {k: v for k, v in to.items() if len(v) > 1}
    for k, v in sorted(bad.items()):
        print("falls together:", k, sorted(v))
    if bad:
        sys.exit(1)
    name_to = {n: OTHERWISE.get(n, snake(n)) for n in names if turns(n) or n in OTHERWISE}
    field_to = {n: OTHERWISE.get(n, snake(n)) for n in fields if turns(n)}
    both = dict(field_to)
    both.update(name_to)
    changed = 0
    for path in antt + lemmas + glob.glob("crates/*/src/*.rt") + glob.glob("crates/*/must-fail/*.edit") + glob.glob("edits/**/*.edit", recursive=True):
        text = open(path).read()
        keep = foreign_in(text)
        new = rename(text, both, field_to, keep, path.endswith(".rt"))
        if new != text:
            before = set(NAME.findall(text))
            made = {both[w] for w in before if w in both and w not in keep}
            for w in sorted(made & before):
                print("already in", path, ":", w)
            open(path, "w").write(new)
            changed += 1
    print(f"{len(name_to)} names and {len(field_to)} fields to snake case; {changed} files changed")


main()
