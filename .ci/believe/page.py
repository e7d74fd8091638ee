"""docs/TRUST.md: what its section 'What a reader must believe' and its tables say, against what the tree has."""
import re
from believe.tree import Wrong, quoted

PAGE = "docs/TRUST.md"
BEGIN, END = "<!-- written by .ci/trust --write -->", "<!-- end of what .ci/trust writes -->"


def rows_of(tree, entries):
    """A row for each file: its lines that a reader must believe, and all that it has."""
    believed = {}
    for item in tree.in_order(tree.reached(entries)):
        believed[item.path] = believed.get(item.path, 0) + item.lines
    return [(path, lines, len(tree.text(path).splitlines())) for path, lines in believed.items()]


def total(rows):
    return sum(lines for _, lines, _ in rows)


def table_of(tree, entries):
    """What is to stand between the marks, line by line."""
    alone = [f"`{entry}` {total(rows_of(tree, [entry]))}" for entry in entries]
    rows = rows_of(tree, entries)
    kit = [f"{module} ({quoted(names)})" for module, names in sorted(tree.kit.items())]
    return [
        "",
        "| file | lines to believe | lines in all |",
        "|---|---|---|",
        *[f"| {path[len('crates/'):]} | {lines} | {whole} |" for path, lines, whole in rows],
        f"| together | {total(rows)} | {sum(whole for _, _, whole in rows)} |",
        "",
        f"Each entry by itself: {', '.join(alone)}.",
        "",
        "Of the kit's libraries the definitions use:",
        *[f"{line}{';' if line != kit[-1] else '.'}" for line in kit],
        "",
    ]


def apart(page):
    """The page before the marks, between them, and behind them."""
    if page.count(BEGIN) != 1 or page.count(END) != 1 or page.index(END) < page.index(BEGIN):
        raise Wrong(f"{PAGE} wants one line '{BEGIN}' and, below it, one line '{END}'")
    before, rest = page.split(BEGIN)
    between, behind = rest.split(END)
    return before, between, behind


def table_wrongs(tree, entries):
    said = apart(tree.text(PAGE))[1].strip("\n").splitlines()
    right = table_of(tree, entries)
    if said == right[1:-1]:
        return []
    differ = [f"{PAGE} says '{line}'" for line in said if line not in right]
    differ += [f"{PAGE} does not say '{line}'" for line in right if line not in said]
    return (differ or [f"{PAGE} has the right lines, but not as they should stand"]) + ["\n".join(["--write would make it:", *right])]


def named_in(page):
    """What the first columns of tables name: `crate::function`, and after that, in the same cell, `function` alone."""
    named = set()
    for cell in re.findall(r"^\|([^|]*)\|", page, re.M):
        prefix = None
        for name in re.findall(r"`([^`]+)`", cell):
            if re.fullmatch(r"\w+(::[\w*]+)+", name):
                prefix = name.rpartition("::")[0]
                named.add(name)
            elif prefix and re.fullmatch(r"[a-z]\w*", name):
                named.add(f"{prefix}::{name}")
    return named


def names_wrongs(tree):
    named, functions = named_in(tree.text(PAGE)), tree.functions()
    said = []
    for function in dict.fromkeys(functions.values()):
        paths = [path for path in functions if functions[path] is function]
        if not named & set(paths):
            said.append(f"no row of {PAGE} names {quoted(paths)}, a public function of {function.path}")
        if function.has("requires"):
            said.append(f"{quoted(paths)} is public and has a `requires`")
        if not function.has("ensures"):
            said.append(f"{quoted(paths)} is public and has no `ensures`")
    return said + [f"a row of {PAGE} names `{name}`, and no public function is called so" for name in sorted(named - set(functions))]


def wrongs(tree, entries):
    """All that is wrong, in words."""
    return table_wrongs(tree, entries) + names_wrongs(tree)


def write(tree, entries):
    before, _, behind = apart(tree.text(PAGE))
    (tree.root / PAGE).write_text("\n".join([before + BEGIN, *table_of(tree, entries), END + behind]))
    return 0
