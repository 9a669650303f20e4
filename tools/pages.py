"""What `tools/calls`, `tools/quotes` and `tools/doc-tests` share: the items of sources, the examples in their comments, what a crate
passes on, and whether a source has some lines."""
import pathlib
import re

TOP = pathlib.Path(__file__).resolve().parent.parent
ITEM = re.compile(r"^pub (struct|enum|trait|fn|const) (\w+)")
IMPL = re.compile(r"^impl\b")
CLAUSE = re.compile(r"^\s*(requires|ensures)\*? ?(\w+ )?\{")
COMMENT = re.compile(r"\s*//[/!](?: (.*)|)$")
USE = re.compile(r"^pub use ([\w:]+)::(?:\{([^}]*)\}|(\w+));", re.M | re.S)
ALIAS = re.compile(r"^pub type (\w+) = ([\w:]+)::(\w+)<", re.M)


def sources(crate):
    """The text of each file of a crate."""
    for file in sorted((TOP / "crates" / crate / "src").rglob("*.rt")):
        yield file.read_text()


def items(lines, indent):
    """The items of a block of lines that are indented so: the comment of each, and its header up to its body."""
    comment, number = [], 0
    while number < len(lines):
        line = lines[number]
        rest = line[len(indent) :]
        if line.startswith(indent + "///"):
            comment.append(rest[3:].removeprefix(" ").rstrip())
        elif line.startswith(indent) and rest[:1] not in (" ", "#", "}", "/", "") and not rest.startswith("ghost"):
            header = [rest]
            while not re.search(r"[{;,]$|^\s*(requires|ensures)\b", header[-1]) or header[-1].rstrip().endswith(","):
                if number + 1 == len(lines) or re.fullmatch(r"[\w(].*,", header[0]):
                    break
                number += 1
                header.append(lines[number])
            yield comment, header
            comment = []
        elif line.startswith(indent) and rest[:1] == "#":
            pass
        else:
            comment = []
        number += 1


def blocks(text):
    """The items at the top of a file: the comment, the attributes, the header and the body of each."""
    lines = text.splitlines()
    comment, attributes, number = [], [], 0
    while number < len(lines):
        line = lines[number]
        if line.startswith("///"):
            comment.append(line[3:].removeprefix(" ").rstrip())
        elif line.startswith("#["):
            attributes.append(line)
        elif ITEM.match(line) or IMPL.match(line):
            header = [line]
            while not re.search(r"[{};]$", header[-1]) and not re.match(r"\s*(requires|ensures)\b", header[-1]):
                number += 1
                header.append(lines[number])
            body = []
            if not header[-1].endswith(";"):
                while lines[number] not in ("}", "{}") and not header[-1].endswith("{}"):
                    number += 1
                    body.append(lines[number])
            yield comment, attributes, header, body[:-1]
            comment, attributes = [], []
        else:
            comment, attributes = [], []
        number += 1


def without_clauses(lines):
    """The lines, without those of clauses."""
    kept, depth = [], 0
    for line in lines:
        if depth or CLAUSE.match(line):
            depth += line.count("{") - line.count("}")
        else:
            kept.append(line)
    return kept


def dedented(lines):
    """The lines without the indentation that all have, and without empty lines at both ends."""
    lines = [line.rstrip() for line in lines]
    while lines and not lines[0]:
        lines.pop(0)
    while lines and not lines[-1]:
        lines.pop()
    spaces = min((len(line) - len(line.lstrip()) for line in lines if line), default=0)
    return [line[spaces:] for line in lines]


def has(lines, block):
    """Whether a block is among some lines."""
    first = block[0].strip()
    return any(
        line.strip() == first and dedented(lines[at : at + len(block)]) == block for at, line in enumerate(lines)
    )


def files(pattern):
    """The lines of each file of the crates that has such a path, once with and once without its clauses, and its examples."""
    for file in sorted(TOP.glob(f"crates/*/{pattern}")):
        lines = file.read_text().splitlines()
        yield lines
        yield without_clauses(lines)
        yield from (example for _, example in examples_of(lines))


def is_quoted(kind, block):
    """Whether a block is in a source, or, of antt, in `specs` or `proofs`."""
    paths = ("src/**/*.rt",) if kind == "rust" else ("specs/**/*.antt", "proofs/**/*.antt")
    block = dedented(block.splitlines())
    return any(has(lines, block) for path in paths for lines in files(path))


def examples_of(lines):
    """The examples in the comments of a source: the number of the first line of each, from 1, and its lines. An example is between
    a line of ``` and the next such line, or the end of the comment. What begins with a word, as ```text, is none."""
    fence, example = None, []
    for number, line in enumerate([*lines, ""], 1):
        found = COMMENT.match(line)
        said = (found[1] or "").rstrip() if found else None
        if said is None or said.startswith("```"):
            if fence == "```":
                yield number - len(example), example
            fence, example = said if fence is None else None, []
        elif fence:
            example.append(said)


def exports(crate):
    """The names that a crate passes on, each with the crate that it is of."""
    text = (TOP / "crates" / crate / "src/lib.rt").read_text()
    names = {}
    for path, several, one in USE.findall(text):
        home = path.split("::")[0]
        for name in (several or one).replace("\n", " ").split(","):
            if name.strip():
                names[name.strip()] = crate if home == "crate" else home
    for name, path, _ in ALIAS.findall(text):
        names[name] = path.split("::")[0]
    # a crate in between may pass the name on
    return {name: home if home == crate else exports(home).get(name, home) for name, home in names.items()}


def examples(comment):
    """The examples in the lines of a comment."""
    return re.findall(r"^```\n(.*?)^```$", "\n".join(comment) + "\n", re.M | re.S)
