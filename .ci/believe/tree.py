"""The repository as a whole: its files, what a path stands for, the public functions, and what contracts reach."""
import re
from pathlib import Path
from believe.code import Code
from believe.definitions import Definitions, Wrong


def quoted(names):
    return ", ".join(f"`{name}`" for name in sorted(names))


class Tree:
    def __init__(self, root):
        self.root, self.files = Path(root), {}
        self.kit = {}  # names of the kit's, by module, that were met on the way
        lines = self.text("crates.txt").splitlines()
        # behind a name may stand what kind of crate it is, as `staticlib`
        self.crates = [line.split(":")[0].split()[0] for line in lines if ":" in line and not line.startswith("#")]

    def text(self, path):
        return (self.root / path).read_text()

    def file(self, path, make):
        """The file at a path, read once, or nothing."""
        if path not in self.files:
            self.files[path] = make() if (self.root / path).is_file() else None
        return self.files[path]

    def definitions(self, crate, modules):
        path = f"crates/{crate}/specs/{'/'.join(modules)}.antt"
        return self.file(path, lambda: Definitions(path, self.text(path)))

    def source(self, crate, modules):
        path = f"crates/{crate}/src/{'/'.join(modules) or 'lib'}.rt"
        return self.file(path, lambda: Code(path, self.text(path), crate, modules))

    def defined(self, module, name, by):
        """What a module of the definitions has under a name: an item, or nothing. Of the kit, the name in full."""
        own = re.fullmatch(r"Rattle[.](\w+)[.](\w+)[.](.+)", module)
        if own is None or own[1] not in self.crates:
            self.kit.setdefault(module, set()).add(name)
            return f"{module}.{name}"
        crate, folder, rest = own[1], own[2], own[3].split(".")
        if folder != "specs":
            raise Wrong(f"{by} speaks of `{name}` of crates/{crate}/{folder}/{'/'.join(rest)}.antt: a contract rests on specs/ alone")
        if rest[0] == "declared":
            file = self.source(crate, rest[1:-1])
            return file and file.structs.get(name)
        file = self.definitions(crate, rest)
        return file and file.item(name)

    def found(self, names, item, find):
        """The items that names stand for; those of the kit are left out."""
        targets = []
        for name in dict.fromkeys(names):
            target = find(name)
            if target is None:
                raise Wrong(f"{item.path}: {item.name} speaks of `{name}`, which nothing defines")
            if not isinstance(target, str):
                targets.append(target)
        return targets

    def code(self, file, path, kind):
        """The function or struct that a path stands for in a file of code, or nothing."""
        *modules, name = path
        if not modules:
            if name in getattr(file, kind):
                return getattr(file, kind)[name]
            return self.code(file, file.uses[name][0], kind) if name in file.uses else None
        if modules[0] == "crate":
            inside = self.source(file.crate, modules[1:])
        elif modules[0] in file.inner:
            inside = self.source(file.crate, file.modules + modules)
        else:
            inside = self.source(modules[0], modules[1:])
        return inside and self.code(inside, [name], kind)

    def public(self, crate, modules):
        """Every function that is reached from outside its crate, with each path that reaches it."""
        file = self.source(crate, modules)
        if file is None:
            return
        prefix = "::".join([crate] + modules)
        for name in file.public:
            yield f"{prefix}::{name}", file.functions[name]
        for name, struct in file.structs.items():
            yield from self.methods(prefix, struct) if struct.text.startswith("pub ") else []
        for name, (path, public) in file.uses.items():
            function = public and self.code(file, path, "functions")
            struct = public and self.code(file, path, "structs")
            if function:
                yield f"{prefix}::{name}", function
            elif struct:
                yield from self.methods(prefix, struct)
        for name, public in file.inner.items():
            if public:
                yield from self.public(crate, modules + [name])

    def inside(self, crate, modules):
        """Every file of code of a crate, from a module on."""
        file = self.source(crate, modules)
        if file is not None:
            yield file
            for name in file.inner:
                yield from self.inside(crate, modules + [name])

    def methods(self, prefix, struct):
        """The public methods of a struct, wherever they stand in its crate, by the path of the struct."""
        for file in self.inside(struct.file.crate, []):
            for name, method in file.methods.get(struct.name, {}).items():
                yield f"{prefix}::{struct.name}::{name}", method

    def functions(self):
        """The public functions and methods by path."""
        return {path: function for crate in self.crates for path, function in self.public(crate, [])}

    def reached(self, entries):
        """All that the entries' contracts reach, themselves too."""
        functions = self.functions()
        missing = set(entries) - set(functions)
        if missing:
            raise Wrong(f"there is no public function {quoted(missing)}")
        todo = [functions[entry] for entry in entries]
        seen = set(todo)
        while todo:
            item = todo.pop()
            new = [target for target in dict.fromkeys(item.targets(self)) if target not in seen]
            seen |= set(new)
            todo += new
        return seen

    def in_order(self, items):
        """By crate as crates.txt has them, then by file and name."""
        return sorted(items, key=lambda item: (self.crates.index(item.path.split("/")[1]), item.path, item.name))
