"""What tools/lint and tools/definitions share: the files of the crates, and what an .antt file defines."""
import os
import re

TOP = os.path.dirname(os.path.dirname(os.path.abspath(__file__)))
CRATES = os.path.join(TOP, "crates")


def files(*endings):
    for base, folders, names in os.walk(CRATES):
        folders[:] = sorted(folder for folder in folders if folder != "out")
        for name in sorted(names):
            if name.endswith(endings):
                yield os.path.join(base, name)


def read(path):
    with open(path, encoding="utf-8") as file:
        return file.read()


# what an .antt file defines: a signature, a record or a data type, or a field of a record
DEFINED = re.compile(r"( *)((?:abbrev |unfoldable )?)(pub )?((?:record|data) )?([^\s(){}\[\],;=λ]+)(?= |$)(.*)")


def definitions(lines):
    """Each definition of an .antt file: its line, from 0, its indent, whether it is public, and its name."""
    for number, line in enumerate(lines):
        match = DEFINED.match(line)
        if not match or match.group(5) in ("use", "mod", "module", "let", "unfolding", "record", "data", "elim", "--"):
            continue
        indent, _, is_public, kind, name, rest = match.groups()
        if kind or rest.startswith(" :"):
            yield number, len(indent), bool(is_public), name


def is_in_module(lines, number):
    """Whether an indented line stands right in a module, and not in a record, a definition or a signature."""
    depth = len(lines[number]) - len(lines[number].lstrip())
    above = (line for line in reversed(lines[:number]) if line.strip() and not line.lstrip().startswith("--"))
    parent = next((line for line in above if not line.startswith(" " * depth)), "")
    return bool(re.match(r"\s*(pub )?module\b", parent))


def comment_above(lines, number):
    """The comment right above a line, in one line, without section marks."""
    begin = number
    while begin and re.match(r"\s*--(?! ----)", lines[begin - 1]):
        begin -= 1
    return " ".join(line.strip()[2:].strip() for line in lines[begin:number])
