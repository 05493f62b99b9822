#!/usr/bin/env python3
"""Respells the names that port.py left as the older Rattle had them: words in snake case.

usage: tools/respell.py [--show] [FOLDER]     rewrites crates/ of FOLDER (the working folder if none is named); --show only prints the table

Run once, after port.py. Which names are turned is read from the files alone, so that a copy turns as the repository did:
 - `fooBar` becomes `foo_bar` wherever it stands in code and comments: a definition, a lemma, a field, a variable.
 - `foo-bar`, where the repository itself binds the name, becomes `foo_bar`. It keeps its dash where both sides are names (`drop-take`), where
   another name of the repository has the new spelling already, and where a library has the name.
Strings, paths of modules, names of libraries and the names of goals, which Rattle makes, stay.
"""
import os
import re
import subprocess
import sys

TOKEN = re.compile(r"[^\s(){}\[\],.;:«»\"`|]+")
CAMEL = re.compile(r"[a-z][a-z0-9]*(?:[A-Z][A-Za-z0-9]*)+'*$")
DASHED = re.compile(r"[a-z][A-Za-z0-9_']*(?:-[A-Za-z0-9_']+)+$")
OWN = re.compile(r"use Rattle\.(?!std\b|core\b)")


def snake(name):
    name = re.sub(r"([A-Z]+)([A-Z][a-z])", r"\1_\2", name)
    return re.sub(r"([a-z0-9])([A-Z])", r"\1_\2", name).lower()


def files(root):
    for folder, dirs, names in os.walk(os.path.join(root, "crates")):
        dirs[:] = sorted(d for d in dirs if d not in ("out", "must-fail"))
        for name in sorted(names):
            if name.endswith((".antt", ".rt")):
                yield os.path.join(folder, name)


def pieces(line, is_antt):
    """The line in pieces: (kind, text) with kind code, string or comment."""
    mark = "--" if is_antt else "//"
    at, start, out = 0, 0, []
    while at < len(line):
        if line[at] == '"':
            out.append(("code", line[start:at]))
            end = at + 1
            while end < len(line) and line[end] != '"':
                end += 2 if line[end] == "\\" else 1
            out.append(("string", line[at:end + 1]))
            at = start = end + 1
        elif line.startswith(mark, at) and (not is_antt or (at + 2 == len(line) or line[at + 2] == " ") and (at == 0 or line[at - 1] == " ")):
            out.append(("code", line[start:at]))
            out.append(("comment", line[at:]))
            return out
        else:
            at += 1
    out.append(("code", line[start:]))
    return out


def code_of(text, is_antt):
    return "\n".join("".join(t for k, t in pieces(line, is_antt) if k == "code") for line in text.split("\n"))


def foreign_names(code):
    """Names that the file has from a library."""
    names = set()
    for line in code.split("\n"):
        line = line.strip()
        if line.startswith(("use ", "pub use ", "ghost use ")) and not OWN.search(line):
            names.update(TOKEN.findall(line))
    return names


BINDERS = [
    re.compile(r"^\s*(?:(?:abbrev|unfoldable|pub|module)\s+)*((?:[^\s(){}\[\],.;:]+\s+)*[^\s(){}\[\],.;:]+)\s*:(?!:)(?!\s*tie\.)", re.M),
    re.compile(r"[({]((?:[^\s(){}\[\],.;:=→]+\s+)*[^\s(){}\[\],.;:=→]+)\s+:\s"),
    re.compile(r"\blet\s+([^\s(){}\[\],.;:=]+)\s*(?:[:=])"),
    re.compile(r"\blet\s+\(([^()]*)\)\s*="),
    re.compile(r"λ\s+([^.()]*)\."),
    re.compile(r"λ\s+\(([^()]*)\)"),
    re.compile(r"\bas\s+([^\s(){}\[\],.;:=]+)"),
]
FIELD = re.compile(r"^\s*(?:pub\s+)?([^\s(){}\[\],.;:]+)\s*:(?!:)", re.M)


def bound_names(code):
    names = set()
    for binder in BINDERS:
        for found in binder.findall(code):
            names.update(t for t in re.split(r"[\s,]+", found) if t)
    return names


def words_of_libraries():
    """What the Prelude and the lemmas that proofs cite are called."""
    names = set()
    kit = os.path.dirname(subprocess.run(["rt", "doc"], stdout=subprocess.PIPE, text=True, check=True).stdout.split()[0])
    for path in ("std/specs/Prelude.antt", "std/proofs/Common.antt"):
        path = os.path.join(kit, "rattle", path)
        if os.path.exists(path):
            with open(path, encoding="utf-8") as f:
                names.update(TOKEN.findall(code_of(f.read(), True)))
    return names | {"add", "sub", "mul", "div", "mod", "append", "cons", "nil", "suc", "zero"}


def joined(parts, library, defined):
    """The parts as two names with a dash between them, one of a library and one of a library or a definition, or None."""
    for cut in range(1, len(parts)):
        left, right = "_".join(parts[:cut]), "_".join(parts[cut:])
        if left in library and right in library | defined or left in defined and right in library:
            return left + "-" + right
    return None


def table(root):
    bound, foreign, defined, camel, plain = set(), set(), set(), set(), set()
    for path in files(root):
        is_antt = path.endswith(".antt")
        with open(path, encoding="utf-8") as f:
            code = code_of(f.read(), is_antt)
        outside = foreign_names(code)
        foreign |= outside
        own = "\n".join(l for l in code.split("\n") if not re.match(r"\s*(?:pub |ghost )?use ", l))
        tokens = set(TOKEN.findall(code)) - outside
        camel |= {t for t in tokens if CAMEL.match(t)}
        plain |= {t for t in tokens if re.fullmatch(r"[a-z][a-z0-9_']*", t)}
        if is_antt:
            bound |= bound_names(own) - outside
            if "/specs/" in path:
                defined |= {snake(n) for n in re.findall(r"^(?:abbrev |unfoldable |pub )+(\S+)\s*:", own, re.M)}
    turned = {t: snake(t) for t in camel}
    library = words_of_libraries()
    taken = plain | set(turned.values()) | foreign
    dashed = {}
    for name in sorted(t for t in bound if DASHED.match(t) and t not in foreign and not re.match(r"returns-\d", t)):
        parts = [snake(p) for p in name.split("-")]
        dashed[name] = joined(parts, library, defined) or "_".join(parts)
    seen = {}
    for name, new in dashed.items():
        seen.setdefault(new, []).append(name)
    for name, new in dashed.items():
        if new in taken or len(seen[new]) > 1:
            new = "-".join(snake(p) for p in name.split("-"))
        if new != name:
            turned[name] = new
    return turned


def turn(code, turned, outside, fields):
    def one(found):
        name = found.group(0)
        if "◌" in name and name not in outside:
            return "◌".join(turned.get(p, snake(p) if CAMEL.match(p) else p) for p in name.split("◌"))
        if name in outside or name not in turned:
            return name
        before = code[:found.start()]
        if before.endswith(".") and "-" in name and name not in fields:
            return name
        return turned[name]
    return TOKEN.sub(one, code)


def main(argv):
    show = "--show" in argv
    rest = [a for a in argv if a != "--show"]
    root = rest[0] if rest else "."
    turned = table(root)
    if show:
        for name in sorted(turned):
            print(name, turned[name])
        return
    fields = set()
    for path in files(root):
        if path.endswith(".antt"):
            with open(path, encoding="utf-8") as f:
                for block in re.split(r"(?m)^(?:pub )?record ", code_of(f.read(), True))[1:]:
                    block = re.split(r"(?m)^\S", block.split("\n", 1)[1] if "\n" in block else "", maxsplit=1)[0]
                    fields |= set(FIELD.findall(block))
    for path in files(root):
        is_antt = path.endswith(".antt")
        with open(path, encoding="utf-8") as f:
            text = f.read()
        outside = foreign_names(code_of(text, is_antt))
        lines = []
        for line in text.split("\n"):
            if re.match(r"\s*(?:pub |ghost )?use ", line) and not OWN.search(line):
                lines.append(line)
                continue
            out = ""
            for kind, piece in pieces(line, is_antt):
                if kind == "code":
                    piece = turn(piece, turned, outside, fields)
                elif kind == "comment":
                    piece = turn(piece, {n: t for n, t in turned.items() if "-" not in n}, outside, fields)
                out += piece
            lines.append(out)
        new = "\n".join(lines)
        if new != text:
            with open(path, "w", encoding="utf-8") as f:
                f.write(new)


if __name__ == "__main__":
    main(sys.argv[1:])
