"""Which kind a name of a program is of, and which kind is wanted where `check` answers WrongKind. It reads tokens, and parses nothing."""
import re
from typing import NamedTuple

TOKEN = re.compile(r"#[^\n]*|[A-Za-z_]\w*|\d+|[<>=!]=|\S")
INTEGER, BLOCK = "an integer", "a block"
# How an argument is written, by the word before the name of its parameter.
FORMS = {"": "a number", "use": "a lent block, `use NAME`", "own": "a block that is given, `own NAME`"}


class Token(NamedTuple):
    text: str
    line: int


class Function(NamedTuple):
    """A function: its parameters as pairs of `use`, `own` or nothing and the name, and whether it returns a block."""

    parameters: list
    returns_block: bool


def tokens_of(text):
    found, line, at = [], 1, 0
    for match in TOKEN.finditer(text):
        line += text.count("\n", at, match.start())
        at = match.start()
        if not match[0].startswith("#"):
            found.append(Token(match[0], line))
    return found


def in_brackets(words, start):
    """The pieces between the bracket at `start` and its end, cut at the commas outside of other brackets."""
    pieces, depth = [[]], 0
    for word in words[start:]:
        depth += {"(": 1, "[": 1, ")": -1, "]": -1}.get(word, 0)
        if depth == 0:
            break
        if word == "," and depth == 1:
            pieces.append([])
        elif not (word == "(" and depth == 1 and pieces == [[]]):
            pieces[-1].append(word)
    return [piece for piece in pieces if piece]


def form_of(piece):
    return piece[0] if piece[0] in ("use", "own") else ""


def functions_of(tokens):
    words, found = [it.text for it in tokens], {}
    starts = [at for at, word in enumerate(words) if word == "fn"] + [len(words)]
    for at, end in zip(starts, starts[1:]):
        parameters = [(form_of(piece), piece[-1]) for piece in in_brackets(words, at + 2)]
        found.setdefault(words[at + 1], Function(parameters, words[end - 5 : end - 3] == ["return", "own"]))
    return found


class Scopes:
    """The names that are declared at a place: a list of scopes, each with the kind of its names and the line of the declaration."""

    def __init__(self):
        self.scopes, self.waiting = [{}], {}

    def declare(self, token, kind):
        self.scopes[-1][token.text] = (kind, token.line)

    def step(self, tokens, at):
        """Takes in what the token at this place declares, opens or closes."""
        before = tokens[at - 1].text if at else ""
        token = tokens[at]
        if token.text == "fn":
            self.scopes, self.waiting = [{}], {}
            self.declare_parameters(tokens, at)
        elif token.text == "into":
            self.waiting = {it.text: (BLOCK, it.line) for it in (tokens[at + 1], tokens[at + 3])}
        elif token.text == "{":
            self.scopes.append(self.waiting)
            self.waiting = {}
        elif token.text == "}":
            self.scopes.pop()
        elif before == "let":
            self.declare(token, INTEGER)
        elif before == "alloc" or before == "own" and tokens[at - 2].text == "call":
            self.declare(token, BLOCK)

    def declare_parameters(self, tokens, at):
        for place in range(at + 3, len(tokens)):
            if tokens[place].text == ")":
                return
            if tokens[place].text not in ("use", "own", ","):
                self.declare(tokens[place], BLOCK if tokens[place - 1].text in ("use", "own") else INTEGER)

    def kind_of(self, name):
        return next((scope[name] for scope in reversed(self.scopes) if name in scope), None)


def kind_at(tokens, line, name):
    """The kind of a name and the line of its declaration, at the end of a line; None if it is not visible there."""
    scopes, found = Scopes(), None
    for at, token in enumerate(tokens):
        if token.line > line:
            break
        scopes.step(tokens, at)
        found = scopes.kind_of(name) if token.line < line or token.text == name else found
    return found


def of_call(words, functions, name):
    """What a call has to say of a name: that of its function, or that of a parameter whose argument is written in another form."""
    at = words.index("call")
    bracket = words.index("(", at)
    callee = words[bracket - 1]
    function = functions.get(callee)
    if function is None:
        return None
    if callee == name:
        wanted = f"`call own x = {callee}(..);`" if function.returns_block else f"`call x = {callee}(..);` or `call {callee}(..);`"
        return f"`{callee}` returns {BLOCK if function.returns_block else INTEGER}: write {wanted}."
    for (form, parameter), argument in zip(function.parameters, in_brackets(words, bracket)):
        if parameter == name and form_of(argument) != form:
            return f"The parameter `{name}` of `{callee}` takes {FORMS[form]}; the argument is {FORMS[form_of(argument)]}."
    return None


def wrong_kind(text, line, name):
    """What is wrong with the kind of a name in a line, as a sentence; nothing if that is not clear."""
    tokens = tokens_of(text)
    words = [it.text for it in tokens if it.line >= line]
    on_line = sum(it.line == line for it in tokens)
    while "call" in words[:on_line]:
        told = of_call(words, functions_of(tokens), name)
        if told:
            return told
        at = words.index("call")
        words, on_line = words[at + 1 :], on_line - at - 1
    found = kind_at(tokens, line, name)
    if not found:
        return ""
    kind, declared = found
    wanted = BLOCK if kind == INTEGER else INTEGER
    return f"`{name}` is {kind}, declared in line {declared}; {wanted} is wanted here."
