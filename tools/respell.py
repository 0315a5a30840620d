#!/usr/bin/env python3
"""Spells the repository's own definitions and lemmas as today's Rattle spells its own: words in snake case, types and modules in camel case.

usage: tools/respell.py            at the top of the repository, once, after the kit's port.py
       tools/respell.py --check    lists names that would fall together, and changes nothing. (A function of src/ may be called as a definition is.)

A name turns that specs/ or a law file of proofs/ declares: `bucketEnd` to `bucket_end`, `drop-more` to `drop_more`. Functions of src/, strings, inputs and outputs
keep theirs, and so does what Rattle itself names in a proof of one function. OTHER has the names that would fall together with another.
"""

import collections
import os
import re
import sys

WORD = re.compile(r'[^\s(){}.;,@"«»]+')
HEAD = re.compile(r'(?m)^ *(?:(?:abbrev|unfoldable|pub|data|record|pattern) )*([^\s(){}.;,@"«»]+)(?: \{[^{}\n]*\})* :(?: |$)')
CAMEL = re.compile(r"[a-z0-9₀-₉][A-Z]")
COMMENT = re.compile(r"(?<!\S)--[^\n]*")
SPAN = re.compile(r"`[^`\n]*`")
OF_A_FUNCTION = re.compile(r"/proofs/.+/(Proof|Answers|Invariants)\.antt$")
# Names that the rule alone would bring together with another name of the same file.
OTHER = {
    "all-below": "all_below_each",
    "any-cell": "any_cell_of",
    "drop-getD": "drop_get_or",
    "eleven-handles": "eleven_handles_are",
    "eleven-prefixes": "eleven_prefixes_are",
    "fattest-from": "fattest_from_trial",
    "fattest-of": "fattest_of_found",
    "in-bucket": "past_bucket",
    "jam-text": "jam_text_told",
    "path-to": "path_to_least",
    "root-to": "root_to_smallest",
    "rule-row": "rule_row_told",
    "shared-by-all": "shared_by_slice",
    "shared-with": "shared_with_slice",
    "slim-handles": "slim_handles_are",
    "split-beside": "split_beside_told",
    "told-by": "told_from_walk",
}


def texts(*ends):
    for folder, dirs, files in os.walk("crates"):
        dirs[:] = sorted(d for d in dirs if d != "out")
        for name in sorted(files):
            if name.endswith(ends):
                yield os.path.join(folder, name)


def read(path):
    with open(path, encoding="utf-8") as file:
        return file.read()


def snake(name):
    parted = re.sub(r"(?<=[a-z0-9])[A-Z](?![A-Z])", lambda m: "_" + m[0].lower(), name)
    return parted.replace("-", "_")


def table():
    """Old names, each with its new one."""
    rows = {}
    for path in texts(".antt"):
        if OF_A_FUNCTION.search(path):
            continue
        for found in HEAD.finditer(read(path)):
            old = found[1]
            if not re.match(r"[a-z]", old) or not re.search(r"[-A-Z]", old):
                continue
            rows[old] = OTHER.get(old, snake(old))
    return {old: new for old, new in rows.items() if old != new}


def turned(text, rows):
    return WORD.sub(lambda m: rows.get(m[0], m[0]), text)


def proof_text(text, rows):
    """Code turns whole; a comment where a name can be nothing else, or stands between backticks."""
    camel = {old: new for old, new in rows.items() if CAMEL.search(old)}
    out, at = [], 0
    for note in COMMENT.finditer(text):
        out.append(turned(text[at : note.start()], rows))
        said = SPAN.sub(lambda m: "`" + turned(m[0][1:-1], rows) + "`", note[0])
        out.append(words(said, camel))
        at = note.end()
    out.append(turned(text[at:], rows))
    return "".join(out)


def words(text, camel):
    return re.sub(r"(?<![\w'-])[a-z][\w'-]*", lambda m: camel.get(m[0], m[0]), text)


def clashes(rows):
    """Names that fall together: two old ones with one new, or a new one that a file has already beside the old."""
    back = collections.defaultdict(set)
    for old, new in rows.items():
        back[new].add(old)
    said = [f"{new}: of {sorted(olds)}" for new, olds in back.items() if len(olds) > 1]
    for path in texts(".antt"):
        have = set(WORD.findall(COMMENT.sub("", read(path))))
        said += [f"{path}: {old} beside {new}" for old, new in rows.items() if old in have and new in have]
    for path in texts(".rt"):
        text = re.sub(r"//[^\n]*", "", read(path))
        for old, new in rows.items():
            if re.search(rf"(?<![\w'-]){re.escape(old)}(?![\w'-])", text):
                if re.search(rf"(?<![\w'.-]){re.escape(new)}(?![\w'(-])(?!::)", text):
                    said.append(f"{path}: {old} beside {new}")
    return said


def main():
    rows = table()
    if "--check" in sys.argv:
        print("\n".join(clashes(rows)))
        print(len(rows), "names")
        return 0
    camel = {old: new for old, new in rows.items() if CAMEL.search(old)}
    count = 0
    for path in texts(".antt", ".rt", ".edit"):
        text = read(path)
        new = proof_text(text, rows) if path.endswith(".antt") else words(text, camel)
        if new != text:
            with open(path, "w", encoding="utf-8") as file:
                file.write(new)
            count += 1
    print(f"{len(rows)} names, {count} files")
    return 0


if __name__ == "__main__":
    raise SystemExit(main())
