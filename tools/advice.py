"""What `./explain` adds to the sentence of docs/ERRORS.md: what was probably meant, and what it found out by running the program or the
reference once more."""
import os
import subprocess
from typing import NamedTuple

import expected
import kinds
import options
from player import REFERENCE


class Asked(NamedTuple):
    """What was asked of the program: its path, the arguments, and the text that the answer speaks of, None if it cannot be read again."""

    program: str
    words: list
    text: bytes


def written(program, words, text):
    """The text and the status of a program; nothing if it cannot be started."""
    try:
        ran = subprocess.run([program, *words], input=text, stdout=subprocess.PIPE, check=False)
    except OSError:
        return "", None
    return ran.stdout.decode("ascii", "replace"), ran.returncode


def fields(line):
    """The words of a line after the first two, by pairs."""
    words = line.split()[2:]
    return dict(zip(words[::2], words[1::2]))


def of_expected(found, asked):
    at = int(found["at"])
    names = expected.possible(asked.program, asked.text[:at])
    return ["Here may come: " + ", ".join(names) + ".", expected.hint(asked.text, at, names)]


def of_bad_token(found, asked):
    return [expected.hint_of_token(asked.text, int(found["at"]))]


def of_wrong_kind(found, asked):
    return [kinds.wrong_kind(asked.text.decode("ascii", "replace"), int(found["line"]), found["name"])]


def met_by(word, found, asked):
    """What the reference met at this fault of the program, if it is there and agrees on the word and the line."""
    if not os.access(REFERENCE, os.X_OK):
        return {}
    text, status = written(REFERENCE, ["fault"], asked.text)
    met = fields(text) if status == 0 and text.startswith(f"fault {word} ") else {}
    return met if met.get("line") == found["line"] else {}


def counted(length):
    return "1 number" if length == "1" else f"{length} numbers"


def of_index(found, asked):
    met = met_by("Index", found, asked)
    if "place" not in met:
        return []
    last = int(met["length"]) - 1
    places = "no place" if last < 0 else "only the place 0" if last == 0 else f"the places 0 to {last}"
    return [f"In `{met['function']}` the place {met['place']} of `{met['name']}` is asked for, which has {counted(met['length'])}: {places}."]


def of_split(found, asked):
    met = met_by("Split", found, asked)
    if "place" not in met:
        return []
    at, length = int(met["place"]), int(met["length"])
    nearest = options.Range(0, length // 16 * 16, 16).nearest(at)
    return [f"In `{met['function']}` the block `{met['name']}` has {counted(met['length'])} and is cut at {at}; the nearest place is {nearest}."]


def of_divide(found, asked):
    met = met_by("Divide", found, asked)
    return [f"In `{met['function']}` the left side is {met['left']}, and the right side is 0."] if "left" in met else []


def of_size(found, asked):
    met = met_by("Size", found, asked)
    return [f"In `{met['function']}` a block `{met['name']}` of {met['size']} numbers is asked for."] if "size" in met else []


def of_full_arena(_found, asked):
    """Compares the arena with the depth-first peak."""
    arena = options.value_of(asked.words, "arena")
    report, status = written(asked.program, ["peak"], asked.text) if asked.words[0] != "make" else ("", None)
    if status not in (0, 6):
        return []
    peak = int(report.split()[-1])
    if peak <= arena:
        return [f"The depth-first run takes {peak:,} words, and the arena has {arena:,}."]
    return [
        f"The depth-first run takes {peak:,} words, more than the {arena:,} of the arena. A smaller K brings a run nearer to that one, so do not expect",
        f"one to help: raise --arena to at least {(peak + 15) // 16 * 16}, or change the program. `tools/where FILE` shows which lines hold the words.",
    ]


def of_usage(_found, asked):
    return [options.wrong(asked.words)]


# By the beginning of the form of a row: what finds the lines. They come before what the row says to do.
MORE = {
    "syntax Expected": of_expected,
    "syntax BadToken": of_bad_token,
    "check WrongKind": of_wrong_kind,
    "end fault Index": of_index,
    "end fault Split": of_split,
    "end fault Divide": of_divide,
    "end fault Size": of_size,
    "stop ArenaFull": of_full_arena,
    "usage:": of_usage,
}
# This needs no text.
USAGE = "usage:"


def lines(form, found, asked):
    """The lines that are added to the row of this form."""
    start = next((it for it in MORE if form.startswith(it)), None)
    if start is None or asked.text is None and start != USAGE:
        return []
    return [line for line in MORE[start](found, asked) if line]
