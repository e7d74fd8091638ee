#!/usr/bin/env python3
"""Respells the repository's own definitions and lemmas: words in snake case, types and facts in camel case, a prime as an apostrophe.

    tools/respell.py           rewrites in place: specs, proofs, contracts and must-fail edits; in comments and in the pages of docs/ what stands
                               between backticks, but for the notes of landings
    tools/respell.py --list    prints each name with its new spelling, and the names that would fall together

It is run once, on what port/port.py of the kit leaves. Functions of src/, their goals and their proof folders keep their names.
"""
import re
import sys
from collections import defaultdict
from pathlib import Path

ROOT = Path(__file__).resolve().parent.parent
WORD = re.compile(r"[A-Za-z_\u0370-\u03ff][A-Za-z0-9_'\u2032\u2080-\u2089\u0370-\u03ff\-]*")
# a declaration: names, a colon, and a type, which may begin on the next line; at the left edge, or in modules, a record or a data type
HEAD = re.compile(r"^ *(?=\S)((?:pub |abbrev |unfoldable )*)((?:[^\s(){}\[\].:=,]+ )+):(?: |$)")
RECORD = re.compile(r"^\s*(?:(?:pub|abbrev|unfoldable) )*(?:record|data) ([^\s(){}]+)")
# a name that holds in one place alone: of an import, a `let` or a parameter
LOCAL = re.compile(r"\bas ([a-z][\w'-]*-[\w'-]*)|\blet ([a-z][\w'-]*-[\w'-]*)|\(((?:[\w'-]+ )*[a-z][\w'-]*-[\w'-]*(?: [\w'-]+)*) : ")
# names that would fall together with another, or that the rule alone would spoil
CHOSEN = {"get_or-map": "get_or-map"}


def modules():
    for path in sorted(ROOT.glob("crates/*/specs/*.antt")) + sorted(ROOT.glob("crates/*/proofs/*.antt")):
        yield path


def declared(text):
    """Each name that a file declares, and whether it is a type: a record, a data type, or what ends in `Type 0`."""
    lines = text.split("\n")
    for i, line in enumerate(lines):
        record = RECORD.match(line)
        if record:
            yield record[1], True
            continue
        head = HEAD.match(line)
        if not head:
            continue
        signature, indent = line, re.match(" *", line)[0]
        for later in lines[i + 1:]:
            if not later.startswith(indent + " "):
                break
            signature += later
        for name in head[2].split():
            yield name, bool(re.search(r"Type \d\s*$", signature))


def camel(name):
    return "".join(part[:1].upper() + part[1:] for part in re.split("[-_]", name))


def respelled(name, is_type):
    name = name.replace("\u2032", "'")
    if name in CHOSEN:
        return CHOSEN[name]
    if is_type:
        return camel(name)
    return name.replace("-", "_").lower() if "-" in name else name


def local(text):
    for line in text.split("\n"):
        for found in LOCAL.finditer("" if line.lstrip().startswith("--") else line):
            yield from (found[1] or found[2] or found[3]).split()


def names():
    kinds = defaultdict(set)
    where = defaultdict(set)
    for path in modules():
        for name, is_type in declared(path.read_text()):
            kinds[name].add(is_type)
            where[name].add(path.relative_to(ROOT).as_posix())
    for path in [*modules(), *sorted(ROOT.glob("crates/*/src/**/*.rt"))]:
        for name in local(path.read_text()):
            if name not in kinds:
                kinds[name].add(False)
                where[name].add(path.relative_to(ROOT).as_posix())
    return kinds, where


def mapping():
    kinds, where = names()
    return {name: respelled(name, True in kind) for name, kind in kinds.items() if respelled(name, True in kind) != name}, kinds, where


def listed():
    new, kinds, where = mapping()
    back = defaultdict(set)
    for name in kinds:
        back[new.get(name, name)].add(name)
    for name in sorted(new):
        print(name, "->", new[name], "type" if True in kinds[name] else "", "BOTH" if len(kinds[name]) > 1 else "")
    for name, olds in sorted(back.items()):
        if len(olds) > 1:
            print("TOGETHER", name, {old: sorted(where[old]) for old in olds})
    for name in sorted(kinds):
        if "-" not in name and True not in kinds[name] and name[:1].isupper():
            print("UPPER", name, sorted(where[name]))
        if "-" not in name and True in kinds[name] and name[:1].islower():
            print("LOWER TYPE", name, sorted(where[name]))



def words(text, new):
    return WORD.sub(lambda found: new.get(found[0], found[0]).replace("\u2032", "'"), text)


def quoted(text, new):
    return re.sub(r"`[^`\n]*`", lambda found: words(found[0], new), text)


def line_of_code(line, new, comment, strings):
    """Code is respelled, a comment between its backticks alone, and text in quotes not at all."""
    at = line.find(comment) if not line.lstrip().startswith("///") else line.find("///")
    code, rest = (line, "") if at < 0 else (line[:at], line[at:])
    parts = re.split(r'("(?:[^"\\]|\\.)*")', code) if strings else [code]
    return "".join(part if part.startswith('"') else words(part, new) for part in parts) + quoted(rest, new)


def edit_line(line, new):
    for mark in ("old: ", "new: "):
        if line.startswith(mark):
            return mark + words(line[len(mark):], new)
    return quoted(line, new)


def rewrite(path, turn):
    text = path.read_text()
    turned = turn(text)
    if turned != text:
        path.write_text(turned)


def run():
    new, _, _ = mapping()
    lines = lambda turn: lambda text: "\n".join(turn(line) for line in text.split("\n"))
    for path in sorted(ROOT.glob("crates/**/*.antt")):
        rewrite(path, lines(lambda line: line_of_code(line, new, "--", False)))
    for path in sorted(ROOT.glob("crates/**/*.rt")):
        rewrite(path, lines(lambda line: line_of_code(line, new, "//", True)))
    for path in sorted(ROOT.glob("crates/*/must-fail/*.edit")):
        rewrite(path, lines(lambda line: edit_line(line, new)))
    for path in [ROOT / "README.md", *sorted(ROOT.glob("docs/*.md"))]:
        rewrite(path, lines(lambda line: quoted(line, new)))


if __name__ == "__main__":
    if sys.argv[1:] == ["--list"]:
        listed()
    elif not sys.argv[1:]:
        run()
    else:
        print(__doc__, file=sys.stderr)
        sys.exit(2)
