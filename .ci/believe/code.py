"""Files of code (.rt): functions and methods with their contracts, structs, constants, modules."""
import re
from believe.definitions import Uses, Wrong
from believe.names import free_in, tokens_of


class Piece:
    """A function's signature with its contract, or a struct or a constant."""

    def __init__(self, file, name, lines, text):
        self.file, self.path, self.name, self.lines, self.text = file, file.path, name, lines, text

    def has(self, word):
        """Whether its contract has a part that begins so."""
        return re.search(rf"^\s*{word}\b", self.text, re.M) is not None

    def targets(self, tree):
        """The structs of its types, and what its contract speaks of."""
        # a clause's name, where it has one, stands before its brace
        signature, *promises = re.split(r"\b(?:ensures|requires)\b[^{]*", self.text)
        structs = [tree.code(self.file, [name], "structs") for name in re.findall(r"\b[A-Z]\w+", signature) if name != self.name]
        arguments = {"result", "self", *re.findall(r"(\w+):", signature)}
        names = [name for promise in promises for name in free_in(tokens_of(promise), arguments)[0]]

        def find(name):
            """A constant of the same file, which a clause may name, or what a `use` line brings in."""
            return self.file.structs.get(name) or self.file.ghosts.find(tree, name)

        return [struct for struct in structs if struct] + tree.found(names, self, find)


def uses_of(path, text):
    """The paths that the `use` lines bring in, each with whether it is public: `a::b` one, and `a::{b, c}` two."""
    lines = re.findall(r"^(pub )?(?:pub\(\w+\) )?use ([\w:]+?)(?:::\{([\w\s,]*)\})?;", text, re.M)
    if len(lines) != len(re.findall(r"^(?:pub(?:\(\w+\))? )?use ", text, re.M)):
        raise Wrong(f"{path}: a `use` of a form that .ci/trust does not know")
    for public, first, listed in lines:
        for name in re.findall(r"\w+", listed) or ["self"]:
            yield [part for part in [*first.split("::"), name] if part != "self"], bool(public)


class Code:
    """A file of code: crate and modules say where it stands, as `book` and [`bytes`]."""

    def __init__(self, path, text, crate, modules):
        self.path, self.crate, self.modules, self.lines = path, crate, modules, text.splitlines()
        self.inner = {name: bool(public) for public, name in re.findall(r"^(pub )?mod (\w+);", text, re.M)}
        self.uses = {used[-1]: (used, public) for used, public in uses_of(path, text)}
        self.ghosts = Uses(path)
        self.functions, self.structs, self.public = {}, {}, []
        # the public methods of each type, which stand in blocks `impl Type {`
        self.methods, own = {}, None
        for at, line in enumerate(self.lines):
            function = re.match(r'(pub )?(?:extern "C" )?fn (\w+)', line)
            method = re.match(r"    pub (?:const )?fn (\w+)", line)
            struct = re.match(r"(?:pub )?(?:struct|const) (\w+)", line)
            block = re.match(r"impl(?:<.*>)? (\w+)(?:<.*>)? \{$", line)
            own = block[1] if block else None if line == "}" else own
            if line.strip().startswith("ghost use "):
                self.ghosts.read(line.strip()[len("ghost "):])
            elif function:
                self.functions[function[2]] = self.piece(function[2], at, self.before_body(at))
                self.public += [function[2]] if function[1] else []
            elif method and own:
                self.methods.setdefault(own, {})[method[1]] = self.piece(method[1], at, self.before_body(at))
            elif struct:
                self.structs[struct[1]] = self.piece(struct[1], at, self.first(at, r".*[};]$") + 1)

    def piece(self, name, at, to):
        """The lines from one place to another, with comment and attributes right above."""
        top = at
        while 0 < top and re.match(r"\s*(//|#\[)", self.lines[top - 1]):
            top -= 1
        return Piece(self, name, to - top, "\n".join(self.lines[at:to]))

    def first(self, at, form):
        for to in range(at, len(self.lines)):
            if re.match(form, self.lines[to]):
                return to
        raise Wrong(f"{self.path}: '{self.lines[at]}' has no end")

    def before_body(self, at):
        """The body's brace stands alone behind a contract, and else at the end of the signature."""
        brace = self.first(at, r"\s*\{$|(?!\s*(ensures|requires)).*\{$")
        return brace if self.lines[brace].strip() == "{" else brace + 1
