"""The names that a piece of a definition speaks of, without those that are bound where they stand."""
import re

# words and signs of the language itself and of its prelude, which no `use` line brings in
LANGUAGE = set("→ × ¬ = : _ | ↦ λ let in record elim Type Unit ( ) { } [ ] ; , .".split())


def tokens_of(text):
    """Words, brackets and marks. `b.field` stays one token, and so does the `.field` of `(f x).field`; a dot that ends the names after a λ
    is one of its own."""
    tokens = []
    for word in re.findall(r"\[\]|[()\[\]{};,]|[^\s()\[\]{};,]+", text):
        tokens += [word[:-1], "."] if len(word) > 1 and word.endswith(".") else [word]
    return tokens


def is_name(token):
    return token not in LANGUAGE and not token.startswith(".") and not token[0].isdigit()


def head_of(name):
    """`b` of `b.field`."""
    return name.partition(".")[0]


def binders_at(tokens, at):
    """x and y where `x y :` stands at a place, else nothing."""
    to = at
    while to < len(tokens) and is_name(tokens[to]):
        to += 1
    return set(tokens[at:to]) if to < len(tokens) and tokens[to] == ":" else set()


def free_in(tokens, bound):
    """The names that are not bound, and the names that hold behind the tokens. `(x y : T)` binds x and y behind it, to the end of the
    bracket around it; so do `λ x y.` and `let x = .. in`. `name =` in a record's braces is a field."""
    scopes = [set(bound)]
    brackets = []  # of each open bracket, what it binds behind it, and whether it is a record's
    lets = []
    lambda_in = 0  # between a λ and its dot, how many scopes are open: its names stand right there
    free = []
    for at, token in enumerate(tokens):
        before = tokens[at - 1] if at else ""
        after = tokens[at + 1] if at + 1 < len(tokens) else ""
        if token in ("(", "{", "["):
            binders = binders_at(tokens, at + 1)
            brackets.append((binders, before == "record"))
            scopes.append(set(binders))
        elif token in (")", "}", "]"):
            scopes.pop()
            scopes[-1] |= brackets.pop()[0]
        elif token in ("λ", "."):
            lambda_in = len(scopes) if token == "λ" else 0
        elif token == "in" and lets:
            scopes[-1].add(lets.pop())
        elif not is_name(token):
            continue
        elif lambda_in == len(scopes):
            scopes[-1].add(token)
        elif before == "let":
            lets.append(token)
        elif after == "=" and brackets and brackets[-1][1]:
            continue
        elif not any(head_of(token) in scope for scope in scopes):
            free.append(token)
    return free, scopes[0]
