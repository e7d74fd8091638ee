"""Files of definitions (.antt): what each defines, and what each definition speaks of."""
import re
from believe.names import free_in, head_of, is_name, tokens_of

MODIFIERS = {"pub", "unfoldable", "abbrev"}


class Wrong(Exception):
    """What the page or the tree has wrong, in words."""


class Uses:
    """What the `use` lines of a file bring in: a visible name with the module it is from and its name there; and modules renamed."""

    def __init__(self, path):
        self.path, self.names, self.modules = path, {}, {}

    def read(self, line):
        listed = re.fullmatch(r"use (.+?)\.\{(.*)\};?", line)
        renamed = re.fullmatch(r"use (.+) as (.+?);?", line)
        if listed:
            for name in listed[2].split(","):
                there, _, here = name.strip().partition(" as ")
                # an operator, as ◌+◌, is seen by its signs
                for visible in filter(None, (here or there).split("◌")):
                    self.names[visible] = (listed[1], there)
        elif renamed:
            self.modules[renamed[2]] = renamed[1]
        else:
            raise Wrong(f"{self.path}: '{line}' is a `use` of a form that .ci/trust does not know")

    def find(self, tree, name):
        """An item, or the kit's own name for it, or nothing. Behind a name stand fields, and behind a renamed module what it has."""
        head, _, behind = name.partition(".")
        if head in self.names:
            return tree.defined(*self.names[head], self.path)
        return tree.defined(self.modules[head], head_of(behind), self.path) if head in self.modules else None


class Definition:
    """A function, a record or data. Its parts are its type and its equations, or its head and its fields or constructors."""

    def __init__(self, file, name, kind, bound):
        self.file, self.path, self.name, self.kind = file, file.path, name, kind
        self.lines, self.parts, self.bound = 0, [], set(bound)

    def constructors(self):
        return [word for part in self.parts[1:] for word in part.split(" :")[0].split()]

    def targets(self, tree):
        """The items that it speaks of."""
        names = self.names_of_fields() if self.kind else self.names_of_equations(tree)
        return tree.found(names, self, lambda name: self.file.find(tree, name))

    def names_of_fields(self):
        names, bound = free_in(tokens_of(self.parts[0])[2:], self.bound)
        for part in self.parts[1:]:
            fields, _, type_ = part.partition(" :")
            names += free_in(tokens_of(type_), bound)[0]
            bound |= set(fields.split())
        return [name for name in names if name != "where"]

    def names_of_equations(self, tree):
        names, _ = free_in(tokens_of(self.parts[0])[2:], self.bound)
        for part in self.parts[1:]:
            tokens = tokens_of(part)
            if tokens[0] == "unfolding":
                continue
            left = [token for token in tokens[1:tokens.index("=")] if is_name(token)]
            known = [token for token in left if self.file.is_constructor(tree, token)]
            names += known + free_in(tokens[tokens.index("="):], self.bound | set(left) - set(known))[0]
        return names


class Definitions:
    """A file of definitions."""

    def __init__(self, path, text):
        self.path, self.items, self.uses = path, {}, Uses(path)
        if "{-" in text:
            raise Wrong(f"{path}: .ci/trust does not know comments in braces")
        self.read(text.splitlines())

    def read(self, lines):
        item, comments, bound = None, 0, set()
        for line in lines:
            text = re.sub(r"(^|\s)--( .*|$)", "", line).rstrip()
            if not text:
                comments = comments + 1 if line.strip() else 0
                continue
            step = len(text) - len(text.lstrip())
            if step == 0:
                # the end of a `module _ {A : ..} where`, whose definitions stand two columns in
                bound = set()
            words = [word for word in text.split() if word not in MODIFIERS]
            if words[0] in ("use", "mod", "module"):
                bound = set(re.findall(r"[{(](\w+) :", text)) if words[0] == "module" else set()
                if words[0] == "use":
                    self.uses.read(text)
            else:
                item = self.add(item, words, step - (2 if bound else 0), comments, bound)
            comments = 0

    def add(self, item, words, step, comments, bound):
        """A line of the definition that it begins, or else of the one before."""
        kind = words[0] if words[0] in ("record", "data") else None
        if step == 0 and (kind or words[1:2] == [":"]):
            item = Definition(self, words[1] if kind else words[0], kind, bound)
            self.items[item.name] = item
        elif item is None:
            raise Wrong(f"{self.path}: '{' '.join(words)}' belongs to no definition")
        item.lines += comments + 1
        if not item.parts or (step <= (2 if item.kind else 0) and words[0] != "}"):
            item.parts.append(" ".join(words))
        else:
            item.parts[-1] += " " + " ".join(words)
        return item

    def item(self, name):
        """What is defined under a name: data also under those of its constructors."""
        data = [item for item in self.items.values() if item.kind == "data" and name in item.constructors()]
        return self.items.get(name) or (data[0] if data else None)

    def find(self, tree, name):
        return self.item(head_of(name)) or self.uses.find(tree, name)

    def is_constructor(self, tree, name):
        """Whether a name in a pattern is one that is known, and no variable; of the kit's any name is taken for one."""
        found = self.find(tree, name)
        return isinstance(found, str) or getattr(found, "kind", None) == "data"
