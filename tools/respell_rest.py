#!/usr/bin/env python3
"""The names that tools/respell.py passed over, since their signatures go on over lines, or are bound: brings them to the same spelling.

  tools/respell_rest.py

At the top of the repository, once. Each new name stood in no file that has the old one.
"""
import glob
import re

NAMES = {
    "boundaryLen": "boundary_len",
    "caseTag": "case_tag",
    "everyCall": "every_call",
    "firstsThen": "firsts_then",
    "frontReader": "front_reader",
    "hasIfRange": "has_if_range",
    "holesOf": "holes_of",
    "lastsThen": "lasts_then",
    "lineLen": "line_len",
    "refusalOf": "refusal_of",
    "sameBytes": "same_bytes",
    "tagLen": "tag_len",
    "bad-multipart": "bad_multipart",
    "front-parser": "front_parser",
    "splits-at": "splits_at",
    "splits-on": "splits_on",
    "too-many-runs": "too_many_runs",
}
WORD = re.compile(r"[^\s(){}.;,@\"«»\[\]\\:]+")


def main():
    paths = []
    for kind in ("specs/**/*.antt", "proofs/**/*.antt", "src/**/*.rt", "must-fail/*.edit"):
        paths += glob.glob("crates/*/" + kind, recursive=True)
    for path in sorted(p for p in paths if "/out/" not in p):
        with open(path, encoding="utf-8") as f:
            old = f.read()
        new = WORD.sub(lambda m: NAMES.get(m.group(0), m.group(0)), old)
        if new != old:
            with open(path, "w", encoding="utf-8") as f:
                f.write(new)


main()
