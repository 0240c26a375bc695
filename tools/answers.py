#!/usr/bin/env python3
"""Turns files Proof.antt that walk the code goal by goal into Invariants.antt and Answers.antt.

  tools/answers.py turn CRATE [WORD ..]   turns each Proof.antt of the crate (whose path has a WORD), with the names that rt gives for them; the old file goes below ASIDE
  tools/answers.py drop CRATE             after rt check > LOG: takes answers that the check refuses out of Answers.antt, and appends them to ASIDE/CRATE/F/refused.txt

ASIDE is /tmp/aside or $ASIDE, LOG is /tmp/c-CRATE.log or $LOG. A declaration that it cannot turn is kept beside, in ASIDE/CRATE/F/left.txt.
"""
import json
import os
import re
import shutil
import subprocess
import sys

WORD = r"[^\s(){}.;,@\"«»\[\]\\:]+"
ASIDE = os.environ.get("ASIDE", "/tmp/aside")


def read(path):
    with open(path, encoding="utf-8") as f:
        return f.read()


def write(path, text):
    os.makedirs(os.path.dirname(path), exist_ok=True)
    with open(path, "w", encoding="utf-8") as f:
        f.write(text)


def norm(name):
    return name.replace("-", "_")


def blocks(text):
    """The top-level pieces of a file: (name or None, text). Comments go with what follows them."""
    out, cur, name, pend = [], [], None, []
    for line in text.split("\n"):
        if not line.strip():
            if cur:
                cur.append(line)
            continue
        if line.startswith("--"):
            pend.append(line)
            continue
        if line[0].isspace() or line[0] in ")}]":
            if pend:
                cur += pend
                pend = []
            cur.append(line)
            continue
        m = re.match(r"(?:use|open)\s", line)
        first = None if m else re.match(r"(?:(?:abbrev|unfoldable)\s+)?(?:pub\s+)?(?:(?:record|data|ruleset)\s+)?(" + WORD + ")", line)
        this = first.group(1) if first else None
        if this == "unfolding" or (this is not None and this == name and not re.match(r"(?:abbrev|unfoldable|pub)\s", line)):
            cur += pend + [line]
            pend = []
            continue
        if cur:
            out.append((name, "\n".join(cur).rstrip()))
        cur, name, pend = pend + [line], this, []
    if cur:
        out.append((name, "\n".join(cur).rstrip()))
    return out


def comment_and_rest(text):
    lines = text.split("\n")
    n = 0
    while n < len(lines) and lines[n].startswith("--"):
        n += 1
    return lines[:n], "\n".join(lines[n:])


def split(text):
    """The items of a tuple, or None of another text in brackets."""
    parts, depth, start = [], 0, 1
    for i, ch in enumerate(text):
        if ch in "({[":
            depth += 1
        elif ch in ")}]":
            depth -= 1
            if depth == 0 and i != len(text) - 1:
                return None
        elif ch == "," and depth == 1:
            parts.append(text[start:i])
            start = i + 1
    parts.append(text[start:-1])
    if not parts[-1].strip():
        parts.pop()
    return parts


class Function:
    def __init__(self, info):
        self.goals = {norm(a): b for a, b in info["needs"]}
        self.fields = {}
        for _, _, (old, new), _, _ in info["places"]:
            if old:
                self.fields.setdefault(norm(old), new)
        self.loops = {}
        for k, ((old, new), names) in enumerate(info["loops"]):
            self.loops[norm(old)] = (new, names, info["changed"][k])
            self.fields.setdefault(norm(old), new)
        self.settled = set(info.get("settled") or [])
        self.asked = {norm(k): v for k, v in (info.get("asked") or {}).items()}
        self.params = {}
        for old, new in info.get("args") or []:
            m, n = re.fullmatch(r"\.args \.(\S+)", old), re.fullmatch(r"\.args \.(\S+)", new)
            if m and n:
                self.params[norm(m.group(1))] = n.group(1)
        self.typed, self.arms = {}, {}
        for pairs in info.get("typed") or []:
            for variable, step in pairs:
                self.typed[norm(step)] = variable
        for arm in info.get("arms") or []:
            if arm:
                for field, step, path in arm[2]:
                    self.arms[(norm(step), tuple(path))] = [arm[0], field]
        self.clauses = {}
        self.callee = {}
        for _, _, (old, new), callee, _ in info["places"]:
            if callee and callee in (info.get("params") or {}):
                self.callee[new] = info["params"][callee]
        for (_, _, (old, new), _, _), clause in zip(info["places"], info.get("clauses") or []):
            if clause and clause.get("fields"):
                self.clauses[new] = clause["fields"]
        self.places = {norm(a[0]): b for a, b in zip(info["places"], info["places_by_name"])}

    def path(self, kind, path):
        """The fields behind a name that stands for all that is known (`place`), or for the arguments (`args`), by today's names."""
        if kind == "place":
            while path and path[0] == "before":
                path = path[1:]
            if not path:
                return path
            if path[0] == "args":
                return ["args"] + self.path("args", path[1:])
            for n in range(len(path), 0, -1):
                key = (norm(path[0]), tuple(path[1:n]))
                if key in self.arms:
                    return self.arms[key] + path[n:]
            if len(path) > 1 and path[1] == "given" and norm(path[0]) in self.typed:
                return ["type_inv", self.typed[norm(path[0])]] + path[2:]
            rest = [norm(p) if p in ("type-inv", "well-formed") else p for p in path[1:]]
            return [self.fields.get(norm(path[0]), norm(path[0]))] + rest
        if path:
            return [self.params.get(norm(path[0]), norm(path[0]))] + path[1:]
        return path

    def aliases(self, base, body):
        """The names of a proof that stand for all that is known, or for the arguments."""
        owners = {base: "place"} if base else {}
        for m in re.finditer(r"\blet\s+(" + WORD + r")\s*=\s*(" + WORD + r")((?:\." + WORD + r")*)\s+in\b", body):
            kind = owners.get(m.group(2))
            path = [p for p in m.group(3).split(".") if p and p != "before"]
            if kind and not path:
                owners[m.group(1)] = kind
            elif kind == "place" and path == ["args"]:
                owners[m.group(1)] = "args"
        return owners

    def walk(self, body, base="c"):
        """A proof's text with today's names of the steps."""
        owners = self.aliases(base, body)

        def chain(m):
            kind = owners.get(m.group(1))
            path = m.group(2)[1:].split(".")
            if kind is None:
                return m.group(0)
            return ".".join([m.group(1)] + self.path(kind, path))

        body = re.sub(r"(?<![\w.'-])(" + WORD + r")((?:\." + WORD + ")+)", chain, body)
        body = re.sub(r"\.result-1(?![\w-])", ".result", body)
        # what a test on a negated value says is a fact of the value
        body = re.sub(r"\bnot-(?:true|false)\s+(?:\([^()]*\)|[^\s()]+)\s+([\w.-]*if-[\w.-]+\.(?:true|false))(?![\w-])", r"\1", body)
        # nested paths
        def nested(digits, names):
            i = k = 0
            while k < len(names) - 1 and i < len(digits) and digits[i] == "1":
                k += 1
                i += 1
            if k < len(names) - 1:
                if i >= len(digits) or digits[i] != "0":
                    return None
                i += 1
            return ".".join([names[k]] + digits[i:])

        steps, ensured = {}, {}
        bases = set(k for k, v in self.aliases(base, body).items() if v == "place")
        for m in re.finditer(r"\blet\s+(" + WORD + r")\s*=\s*(" + WORD + r"(?:\." + WORD + r")*)\s+in\b", body):
            parts = m.group(2).split(".")
            if len(parts) == 2 and parts[0] in bases:
                steps[m.group(1)] = parts[1]
            elif len(parts) == 3 and parts[0] in bases and parts[2] == "ensures":
                ensured[m.group(1)] = parts[1]
            elif len(parts) == 2 and parts[1] == "ensures" and parts[0] in steps:
                ensured[m.group(1)] = steps[parts[0]]
            elif len(parts) == 1 and parts[0] in steps:
                steps[m.group(1)] = steps[parts[0]]

        def deeper(m):
            path = m.group(0).split(".")
            if path[0] in bases and len(path) > 3 and path[2] in ("ensures", "new", "auto"):
                step, at = path[1], 2
            elif path[0] in steps and len(path) > 2 and path[1] in ("ensures", "new", "auto"):
                step, at = steps[path[0]], 1
            elif path[0] in ensured:
                step, at = ensured[path[0]], 0
            else:
                return m.group(0)
            kind = path[at] if at else "ensures"
            names = self.clauses.get(step) if kind == "ensures" else self.callee.get(step)
            digits = path[at + 1:]
            if not names or not digits or not digits[0].isdigit():
                return m.group(0)
            if kind == "ensures" and len(names) < 2:
                return m.group(0)
            got = nested(digits, names)
            if got is None:
                return m.group(0)
            return ".".join(path[: at + 1] + [got])

        body = re.sub(r"(?<![\w.'-])(" + WORD + r")((?:\." + WORD + ")+)", deeper, body)
        # a callee's clauses have names
        owners = {}
        for m in re.finditer(r"\blet\s+(" + WORD + r")\s*=\s*" + WORD + r"\.(" + WORD + r")\s+in\b", body):
            owners[m.group(1)] = m.group(2)
        for name, fields in self.clauses.items():
            for k, f in enumerate(fields):
                body = re.sub(r"\." + re.escape(name) + r"\.ensures\." + str(k) + r"(?![\w-])", lambda m: f".{name}.ensures.{f}", body)
                for alias, owner in owners.items():
                    if owner == name:
                        body = re.sub(r"(?<![\w.'-])" + re.escape(alias) + r"\.ensures\." + str(k) + r"(?![\w-])", lambda m: f"{alias}.ensures.{f}", body)
        return body

    def record(self, decl, body):
        """An answer that is a tuple, where the clauses have names."""
        fields = self.asked.get(norm(decl))
        if not fields or len(fields) < 2:
            return body
        depth, cut = 0, 0
        for m in re.finditer(r"[({\[]|[)}\]]|(?<![\w'-])in(?![\w'-])", body):
            if m.group(0) in "({[":
                depth += 1
            elif m.group(0) in ")}]":
                depth -= 1
            elif depth == 0:
                cut = m.end()
        head, last = body[:cut], body[cut:]
        text = last.strip()
        if not (text.startswith("(") and text.endswith(")")):
            return body
        parts = split(text)
        if parts is None:
            return body
        while len(parts) < len(fields) and parts[-1].strip().startswith("(") and parts[-1].strip().endswith(")"):
            more = split(parts[-1].strip())
            if not more or len(more) < 2:
                break
            parts = parts[:-1] + more
        if len(parts) != len(fields):
            return body
        white = last[: len(last) - len(last.lstrip())]
        return head + white + "record { " + "; ".join(f"{f} = {p.strip()}" for f, p in zip(fields, parts)) + " }"

    def goal(self, decl, need):
        for key in (need, re.sub(r"^overflow-", "", need), decl):
            if norm(key) in self.goals:
                return self.goals[norm(key)]
        return None


def invariant(function, loop, body_text, kind):
    new, names, changed = function.loops[norm(loop)]
    m = re.match(re.escape(f"{kind}-{loop}") + r"\s+(.*?)\s*=(?=\s)(.*)$", body_text, re.S)
    if not m:
        return None
    args = m.group(1).split()
    slots = [f"l.initial.{n}" if ch else f"l.{n}" for n, ch in zip(names, changed)] + [f"l.{n}" for n, ch in zip(names, changed) if ch]
    if len(args) != len(slots) or any(not re.fullmatch(WORD, a) for a in args):
        return None
    sub = {a: s for a, s in zip(args, slots) if a != "_"}
    body = m.group(2)
    bound = set(re.findall(r"λ\s*\(?(" + WORD + ")", body)) | set(re.findall(r"\((" + WORD + r")\s*:", body)) | set(re.findall(r"\blet\s+(" + WORD + ")", body))
    if bound & set(sub):
        return None
    body = re.sub(r"(?<![\w.'-])(" + WORD + r")(?!\s*=\s)", lambda k: sub.get(k.group(1), k.group(1)), body)
    return f"abbrev pub {kind}-{new} : goal.{kind}-{new}\n{kind}-{new} l ={body}"


def turn_file(crate, path, info, module):
    function = Function(info)
    text = read(path)
    folder = os.path.dirname(path)
    head, invariants, answers, left = [], [], [], []
    first_comment = []
    for k, (name, block) in enumerate(blocks(text)):
        comment, rest = comment_and_rest(block)
        if rest.startswith(("use ", "open ")):
            if k == 0:
                first_comment = comment
            if not re.search(r"\.(Statement|Tie)(\.\{statement\}| as tie)", rest):
                head.append(rest)
            continue
        lines = rest.split("\n")
        m = re.match(r"(?:abbrev\s+)?(?:pub\s+)?(" + WORD + r")\s*:\s*tie\.(invariant|decreases)-(\S+)", rest)
        if m:
            body = "\n".join(lines[1:])
            got = invariant(function, m.group(3), body, m.group(2)) if norm(m.group(3)) in function.loops else None
            if got:
                invariants.append("\n".join(comment + [got]))
            else:
                left.append(block)
            continue
        m = re.match(r"(?:pub\s+)?(" + WORD + r")\s*:\s*tie\.Need-(\S+)", rest)
        if m:
            goal = function.goal(m.group(1), m.group(2))
            unf, body = "", lines[1:]
            # the type may go on over lines
            while body and not body[0].startswith((m.group(1) + " ", "unfolding ", m.group(1) + "\n")) and body[0] != m.group(1):
                body = body[1:]
            if body and body[0].startswith("unfolding "):
                n = 1
                while n < len(body) and body[n][:1].isspace():
                    n += 1
                unf, body = "\n".join(body[:n]) + "\n", body[n:]
            clause = "\n".join(body)
            mm = re.match(re.escape(m.group(1)) + r"((?:\s+(?!=\s)" + WORD + r")*)\s+=(?=\s)(.*)$", clause, re.S)
            if goal is None or not mm:
                if goal is None and re.fullmatch(r"\s*search rules\s*", mm.group(2) if mm else ""):
                    continue
                left.append(f"-- goal {goal}\n" + block)
                continue
            args = mm.group(1).split()
            text_of = function.record(m.group(1), function.walk(mm.group(2), args[0] if args else None))
            one = args[0] if args else None
            if one is None:
                left.append(f"-- goal {goal}\n" + block)
                continue
            answers.append("\n".join(comment + [f"pub {goal} : goal.{goal}", f"{unf}{goal} {one} ={text_of}"]))
            continue
        if re.search(r"\btie\.close\b", rest):
            continue
        if "tie." in rest:
            left.append(block)
            continue
        answers.append("\n".join(comment + [rest]))
    aside = os.path.join(ASIDE, crate, os.path.relpath(folder, os.path.join("crates", crate, "proofs")))
    write(os.path.join(aside, "Proof.antt"), text)
    os.remove(path)
    imports = "\n".join(head)
    top = "\n".join(first_comment)
    if invariants:
        write(os.path.join(folder, "Invariants.antt"), "\n".join(x for x in (top, imports) if x) + f"\nuse Rattle.{module}.Given as goal\n\n" + "\n\n".join(invariants) + "\n")
    if answers:
        write(os.path.join(folder, "Answers.antt"), "\n".join(x for x in (top, imports) if x) + f"\nuse Rattle.{module}.Goals as goal\n\n" + "\n\n".join(answers) + "\n")
    if left:
        write(os.path.join(aside, "left.txt"), "\n\n".join(left) + "\n")
    return len(invariants), len(answers), len(left)


def turn(crate, only):
    names = f"/tmp/names-{crate}"
    shutil.rmtree(names, ignore_errors=True)
    r = subprocess.run(["rt", "check", "--generated", names, "--old-names"], cwd=os.path.join("crates", crate), capture_output=True, text=True)
    if not os.path.isfile(names + "/names.json"):
        print(r.stdout[-3000:], r.stderr[-500:])
        return 1
    info = json.loads(read(names + "/names.json"))
    by_path = {}
    for key, value in info.items():
        m = re.fullmatch(r"Rattle-(\w+)-proofs\.(.*)\.Lts.*", key)
        if m and "needs" in value:
            by_path.setdefault(m.group(2), value)
    for folder, _, files in os.walk(os.path.join("crates", crate, "proofs")):
        if "Proof.antt" not in files:
            continue
        rel = os.path.relpath(folder, os.path.join("crates", crate, "proofs")).replace(os.sep, ".")
        if only and not any(w in rel for w in only):
            continue
        if rel not in by_path:
            print("no names:", rel)
            continue
        print(rel, turn_file(crate, os.path.join(folder, "Proof.antt"), by_path[rel], f"{crate}.proofs.{rel}"))
    return 0


def drop(crate):
    log = read(os.environ.get("LOG", f"/tmp/c-{crate}.log"))
    bad = {}
    for m in re.finditer(r"^\./(proofs/\S+?/Answers\.antt):(\d+):\d+: error: (.*)$", log, re.M):
        if "that depend on" in m.group(3):
            continue
        bad.setdefault(m.group(1), []).append((int(m.group(2)), m.group(3)))
    for rel, errors in sorted(bad.items()):
        path = os.path.join("crates", crate, rel)
        text = read(path)
        pieces = blocks(text)
        # where each piece stands
        at, spans = 0, []
        lines = text.split("\n")
        for name, block in pieces:
            first = block.split("\n")[0]
            while lines[at] != first:
                at += 1
            n = len(block.split("\n"))
            spans.append((at + 1, at + n, name, block))
            at += 1
        gone = []
        for line, said in errors:
            for a, b, name, block in spans:
                # a piece ends where the next begins
                if a <= line <= b and block not in gone and not comment_and_rest(block)[1].startswith(("use ", "open ")):
                    gone.append(block)
                    rel_f = os.path.relpath(os.path.dirname(path), os.path.join("crates", crate, "proofs"))
                    aside = os.path.join(ASIDE, crate, rel_f, "refused.txt")
                    os.makedirs(os.path.dirname(aside), exist_ok=True)
                    with open(aside, "a", encoding="utf-8") as f:
                        f.write(f"-- {said}\n{block}\n\n")
        for block in gone:
            text = text.replace(block + "\n", "", 1)
        text = re.sub(r"\n{3,}", "\n\n", text)
        if not re.search(r"^pub ", text, re.M):
            os.remove(path)
            print(rel, "all", len(gone))
        else:
            write(path, text)
            print(rel, len(gone))
    return 0


if __name__ == "__main__":
    if len(sys.argv) >= 3 and sys.argv[1] == "turn":
        raise SystemExit(turn(sys.argv[2], sys.argv[3:]))
    if len(sys.argv) == 3 and sys.argv[1] == "drop":
        raise SystemExit(drop(sys.argv[2]))
    print(__doc__)
    raise SystemExit(2)
