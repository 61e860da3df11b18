"""Which tokens may come at a place of a text, found out by asking the program itself, and a hint on what was meant."""
import re
import subprocess

KEYWORDS = "fn let alloc free if else while call print par and split at into return use own len".split()
SYMBOLS = "( ) { } [ ] , ; = + - * / % < <= > >= == !=".split()
# A token for each kind; a name and a number stand for all of theirs.
TOKENS = {"a name": "x", "a number": "1", **{f"`{word}`": word for word in SYMBOLS + KEYWORDS}, "the end of the text": ""}
REFUSED = re.compile(rb"syntax Expected at (\d+)\n")


def may_come(program, before, token):
    """Whether the program takes this token after these bytes: it does not refuse it, nor anything before it."""
    # A line end, and not a space, in case the bytes end with a comment.
    front = before + b"\n" if token else before
    ran = subprocess.run([program, "check"], input=front + token.encode(), stdout=subprocess.PIPE, check=False)
    refusal = REFUSED.fullmatch(ran.stdout)
    return refusal is None or int(refusal[1]) > len(front)


def possible(program, before):
    """What may come after these bytes, in words."""
    return [name for name, token in TOKENS.items() if may_come(program, before, token)]


def token_at(text, at):
    word = re.compile(rb"\w+|[<>=!]=|\S|\Z").search(text, at)
    return word[0].decode("ascii", "replace") if word else ""


def token_before(text, at):
    """The last token before a place, if it is a word."""
    found = re.search(r"[A-Za-z_]\w*\Z", code_before(text, at))
    return found[0] if found else ""


def code_before(text, at):
    """The text before a place, without comments and the blanks at its end."""
    return re.sub(rb"#[^\n]*", b"", text[:at]).rstrip().decode("ascii", "replace")


LOOP = (
    "`par call` is a parallel loop, which is no statement: `dfd loops` plays it. For other commands write it out first: "
    "`dfd expand < FILE | dfd peak`."
)
# What begins no token, and what to write instead.
INSTEAD = {
    "&": "There is no `&&`: put one `if` into another, or multiply the comparisons: `if (a < b) * (c < d) { .. }`.",
    "|": "There is no `||`: add the comparisons: `if (a < b) + (c < d) { .. }`.",
    "!": "There is no `!`: write `x == 0`.",
    '"': "There are no texts: `print e;` prints a number.",
    "'": "There are no texts: `print e;` prints a number.",
}


def hint_of_token(text, at):
    """What to write instead of a token without a form, or nothing."""
    return INSTEAD.get(text[at : at + 1].decode("ascii", "replace"), "")


def hint_of_statement(text, at, names):
    """What to write instead of a statement that is written as in another language, or nothing."""
    token, code = token_at(text, at), code_before(text, at)
    declared = re.search(r"(\w+) =\Z", re.sub(r"\s*=\Z", " =", code))
    if token == "call" and re.search(r"\bpar\Z", code):
        return LOOP
    is_after_return = token and names == ["`}`"] and re.search(r"\breturn [^;{}]*;\Z", code)
    if is_after_return or token == "return" and "`let`" in names:
        return "`return` may only be the last statement of a function: put the answer into an integer `r` before, and end with `return r;`."
    if declared and token == "alloc":
        return f"A block is made by a statement of its own: `alloc {declared[1]} = e;`."
    if declared and token == "call":
        return f"A call is a statement of its own: `call {declared[1]} = f(..);`, after `let {declared[1]} = 0;`."
    return ""


def hint(text, at, names):
    """What was probably meant, or nothing."""
    token, before = token_at(text, at), token_before(text, at)
    meant = hint_of_statement(text, at, names)
    if meant:
        return meant
    if text[at : at + 2] == b"//" or text[max(at - 1, 0) : at + 1] == b"//":
        return "A comment begins with `#`."
    if token == "if" and before == "else":
        return "`else` is followed by a block: `else { if e { .. } }`."
    if token == "(" and before and before not in KEYWORDS:
        return f"A call is a statement of its own: `call {before}(..);` or `call x = {before}(..);`."
    if "a name" in names and token in KEYWORDS:
        return f"`{token}` is a keyword, so it cannot be a name."
    if token == "=" and "`==`" in names:
        return "Two numbers are compared with `==`."
    if re.match(rb"[-+*/%]=", text[at : at + 2]) and before:
        return f"Write `{before} = {before} {token} e;`."
    if before and names == ["`[`", "`=`"]:
        return f"A statement that begins with a name assigns to it: `{before} = e;` or `{before}[i] = e;`. `{before}` is no keyword."
    return ""
