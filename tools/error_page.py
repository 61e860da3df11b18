"""The tables of docs/ERRORS.md."""
import os
import re

PAGE = f"{os.path.dirname(os.path.dirname(os.path.realpath(__file__)))}/docs/ERRORS.md"


def cells_of(line):
    """The cells of a line of a table, without the marks around them."""
    return [cell.strip() for cell in re.split(r"(?<!\\)\|", line)[1:-1]]


def rows():
    """The rows of all tables: the heading above each, and its cells by the names of their columns."""
    heading, names = "", None
    with open(PAGE, encoding="utf-8") as lines:
        for line in lines:
            if line.startswith("## "):
                heading, names = line, None
            elif line.startswith("|"):
                cells = cells_of(line)
                if names is None:
                    names = cells
                elif not cells[0].startswith("---"):
                    yield heading, dict(zip(names, cells))
