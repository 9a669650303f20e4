"""Rows of texts in files, as texts/README.md describes them."""

import re


def repeated(line):
    """The line, with each text between braces written as often as the number before it says."""
    return re.sub(r"\\\*(\d+)\{(.*?)\}", lambda found: found[2] * int(found[1]), line)


def bytes_of(text):
    """The bytes of a text with escapes."""
    parts = re.split(r"\\x([0-9a-f]{2})", repeated(text))
    return b"".join(bytes.fromhex(part) if at % 2 else part.encode() for at, part in enumerate(parts))


def blocks_of(file):
    """The lines between empty ones, with their numbers, without comments."""
    block = []
    for number, line in enumerate([*file.read_text(encoding="utf-8").split("\n"), ""], 1):
        if line.strip():
            block += [] if line.startswith("#") else [(number, line.rstrip())]
        elif block:
            yield block
            block = []


# The characters around what is found at each place: of one byte and of three, with how many there are at most.
AROUND = (("x", 130), ("\u5c71", 43))


def places(text, dump):
    """The texts of a row that has one for each place, in bytes, and the dump of each."""
    text, dump = re.split(r"\\([<>])", text), re.split(r"\\([<>]|\([\dabAB+]+\))", dump)
    text = [part if at % 2 else bytes_of(part) for at, part in enumerate(text)]
    for character, most in AROUND:
        for before in range(most + 1):
            for behind in range(most - before + 1) if ">" in text else [0]:
                yield filled(text, dump, character, before, behind)


def filled(text, dump, character, before, behind):
    """A text and its dump, with so many characters before what is sought and behind it."""
    byte, width = character.encode(), len(character.encode())
    shown = character if width == 1 else "".join(f"\\x{it:02x}" for it in byte)
    bytes_in, shown_in = {"<": byte * before, ">": byte * behind}, {"<": shown * before, ">": shown * behind}
    numbers = {"b": before * width, "a": behind * width, "B": before, "A": behind}

    def shows(slot):
        if slot in shown_in:
            return shown_in[slot]
        return str(sum(numbers[it] if it in numbers else int(it) for it in slot[1:-1].split("+")))

    return (
        b"".join(bytes_in[part] if at % 2 else part for at, part in enumerate(text)),
        "".join(shows(part) if at % 2 else part for at, part in enumerate(dump)),
    )
