#!/usr/bin/env python3
"""gather.py CORPUS: gathers the answers of real servers here, one file for each server, and copies the files that they are answers for.

CORPUS has a folder for each server, with CASE.req (the request as sent) and CASE.http (the answer as it came), and a folder files/.
A gathered file is a list of entries: a line `CASE FILE TAG REQUEST ANSWER`, where FILE is the file asked for, TAG the tag that the server
gives it, REQUEST and ANSWER the lengths of the request and of the answer; then the bytes of both; then a line end.
"""
import os
import shutil
import sys

TAGS = {
    "nginx": {"f.txt": '"6553f100-2710"', "t.txt": '"6553f100-a"', "e.txt": '"6553f100-0"'},
    "apache": {"f.txt": '"2710-60a24181e4000"', "t.txt": '"a-60a24181e4000"', "e.txt": '"0-60a24181e4000"'},
    "go": {"f.txt": '"k1"', "t.txt": '"k1"', "e.txt": '"k1"'},
}

if len(sys.argv) != 2:
    sys.exit(__doc__)
corpus = sys.argv[1]
data = os.path.dirname(os.path.abspath(__file__))


def read(*path):
    with open(os.path.join(corpus, *path), "rb") as f:
        return f.read()


for server, tags in TAGS.items():
    cases = sorted(n[: -len(".http")] for n in os.listdir(os.path.join(corpus, server)) if n.endswith(".http"))
    with open(os.path.join(data, server), "wb") as out:
        for case in cases:
            request, answer = read(server, case + ".req"), read(server, case + ".http")
            file = request.split(b" ")[1].decode().lstrip("/")
            out.write(f"{case} {file} {tags[file]} {len(request)} {len(answer)}\n".encode() + request + answer + b"\n")
for name in sorted(os.listdir(os.path.join(corpus, "files"))):
    shutil.copyfile(os.path.join(corpus, "files", name), os.path.join(data, name))
