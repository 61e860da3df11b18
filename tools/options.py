"""Which word of the arguments is wrong where the program answers with its usage line, and what may be there instead."""
from typing import NamedTuple


class Range(NamedTuple):
    least: int
    most: int
    factor: int = 1

    def words(self):
        """The range in words."""
        of = "" if self.factor == 1 else f"a multiple of {self.factor} "
        return f"{of}from {self.least:,} to {self.most:,}"

    def has(self, number):
        return self.least <= number <= self.most and number % self.factor == 0

    def nearest(self, number):
        """The nearest numbers of the range: two if the number lies between them."""
        below = min(max(number // self.factor * self.factor, self.least), self.most)
        above = min(max(-(-number // self.factor) * self.factor, self.least), self.most)
        return f"{below}" if below == above else f"{below} or {above}"


OPTIONS = {
    "k": Range(16, 1_048_576, 16),
    "p": Range(1, 64),
    "arena": Range(16, 67_108_864, 16),
    "steps": Range(1, 4_000_000),
    "deques": Range(1, 4_096),
    "seed": Range(0, (1 << 64) - 1),
}
STEPS_OF_TRAIL = Range(1, 400_000)
GROUPS = Range(1, 8_000)
ALL = tuple(OPTIONS)
COMMANDS = {
    "check": (),
    "peak": ("k", "steps"),
    "play": ALL,
    "run": ALL,
    "async": tuple(it for it in ALL if it != "deques"),
    "make": ALL,
    "trail": ALL,
    "verify": (),
    "loops": ALL,
    "expand": (),
}
MOST_DIGITS = 20
DEFAULTS = {"arena": 1_048_576}


def quoted(words):
    return ", ".join(f"`{word}`" for word in words)


def like(word, words):
    """The known word that is most like this one, as a question; nothing if none is."""
    # It is needed only here, and takes a while to load.
    import difflib

    found = difflib.get_close_matches(word, words, 1)
    return f" Did you mean `{found[0]}`?" if found else ""


def range_of(command, option):
    return STEPS_OF_TRAIL if (command, option) == ("trail", "steps") else OPTIONS[option]


def is_number(text):
    return text.isascii() and text.isdigit() and len(text) <= MOST_DIGITS


def wrong_number(shown, text, due):
    """What is wrong with a number; nothing if it is in its range."""
    if not is_number(text):
        return f"`{shown}`: `{text}` is no number of at most {MOST_DIGITS} digits; {due.words()} is wanted."
    number = int(text)
    return "" if due.has(number) else f"`{shown}` is wrong: a number is wanted that is {due.words()}. The nearest is {due.nearest(number)}."


def wrong_option(command, name):
    """What is wrong with the name of an option; nothing if the command has it."""
    known = COMMANDS[command]
    if name in known:
        return ""
    if not known:
        return f"`--{name}` is wrong: `{command}` has no options."
    of = f"`{command}` has no option `--{name}`, but {quoted(f'--{it}' for it in known)}."
    return of if name in OPTIONS else of + like(f"--{name}", [f"--{it}" for it in known])


def pairs_of(words):
    """The options of these words, in order: as they are shown, their names and values; a plain word has no name, and a missing value is None."""
    rest = iter(words)
    for word in rest:
        if not word.startswith("--"):
            yield word, None, word
            continue
        name, sign, value = word[2:].partition("=")
        value = value if sign else next(rest, None)
        yield word if sign else f"{word} {value}", name, value


def wrong_pair(command, shown, name, value, seen):
    """What is wrong with one option or plain word, after those that were seen; nothing if it is right."""
    if name is None:
        if command == "make" and None not in seen:
            return wrong_number(f"make {value}", value, GROUPS)
        meant = "" if is_number(value) else like(f"--{value}", [f"--{it}" for it in COMMANDS[command]])
        return f"`{value}` is wrong: an option is written `--name value` or `--name=value`.{meant}"
    if wrong_option(command, name):
        return wrong_option(command, name)
    if value is None:
        return f"`--{name}` has no value: {range_of(command, name).words()}."
    return f"`--{name}` is there twice." if name in seen else wrong_number(shown, value, range_of(command, name))


def wrong(words):
    """The first word that is wrong, and what may be there; nothing if none is."""
    if not words:
        return f"There is no command. It is one of {quoted(COMMANDS)}."
    command, *rest = words
    if command not in COMMANDS:
        return f"`{command}` is no command.{like(command, list(COMMANDS)) or f' It is one of {quoted(COMMANDS)}.'}"
    seen = []
    for shown, name, value in pairs_of(rest):
        told = wrong_pair(command, shown, name, value, seen)
        if told:
            return told
        seen.append(name)
    return f"`make` needs a number of groups, {GROUPS.words()}." if command == "make" and None not in seen else ""


def value_of(words, name):
    """The number of an option, as it was given or by default."""
    return next((int(value) for _, it, value in pairs_of(words[1:]) if it == name), DEFAULTS.get(name))
