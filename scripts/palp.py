"""Reports of palp in Python: `read` reads a report, `run` runs a command over items. Only the standard library is used.

    import palp
    for record in palp.run("poly -n", [[5, 1, 1, 1, 1, 1], [3, 1, 1, 1]]):
        print(record.weights, record.points)

The layouts that are read, and the text grammar by which items are cut, are those of docs/formats.md and docs/help.txt.
"""

import sys

if sys.version_info < (3, 8):
    sys.stderr.write("palp: the scripts need Python 3.8 or a later one, and this is %d.%d\n" % sys.version_info[:2])
    sys.exit(69)

import operator
import os
import re
import shlex
import shutil
import signal
import subprocess
from dataclasses import dataclass, field
from fractions import Fraction
from pathlib import Path
from typing import Any, Callable, Dict, Iterable, Iterator, List, NoReturn, Optional, Sequence, Tuple, Union

Matrix = List[List[int]]


class ReportFault(Exception):
    """A line that no report has. The message names the line."""


class ProgramFault(Exception):
    """The program ended with a status that isn't about an item. `status` is that status, and the message its note."""

    def __init__(self, status: int, note: str):
        super().__init__(note)
        self.status = status


@dataclass
class Partition:
    """One nef partition: its number, the part of each vertex of the dual, and the Hodge numbers where they are printed."""

    number: int
    parts: List[int]
    hodge: Optional[List[int]] = None
    euler: Optional[int] = None
    diamond: Matrix = field(default_factory=list)


@dataclass(repr=False)
class Record:
    """What a report says of one item. What it doesn't say is None, or empty.

    `item` counts from 1: the items of a run, or the records of a report. `weights` has the numbers of a weight line. `hodge` has the
    numbers behind `H:`. Points, vertices, dual points and normals are lists of points, one list of coordinates for each; an equation is its
    normal and then its constant. `reflexive` is None where the report doesn't say it, as a line of `poly -n`. `cause` says why an item was
    refused or faulty.
    """

    item: int
    weights: Optional[List[int]] = None
    points: Optional[int] = None
    vertices: Optional[int] = None
    facets: Optional[int] = None
    dual_points: Optional[int] = None
    dual_vertices: Optional[int] = None
    reflexive: Optional[bool] = None
    codim: Optional[int] = None
    pic: Optional[int] = None
    cor: Optional[int] = None
    h11: Optional[int] = None
    h21: Optional[int] = None
    h31: Optional[int] = None
    hodge: Optional[List[int]] = None
    euler: Optional[int] = None
    systems: Optional[int] = None
    reflexive_systems: Optional[int] = None
    partitions: List[Partition] = field(default_factory=list)
    blocks: Dict[str, Any] = field(default_factory=dict)
    cause: Optional[str] = None

    def __repr__(self) -> str:
        return f"Record({', '.join(f'{name}={value!r}' for name, value in vars(self).items() if value not in (None, [], {}))})"


# The places of the blocks of one item of `poly`: a block that doesn't stand behind the one before it begins the next item.
PLACES = {"line": 0, "points": 1, "vertices": 2, "normals": 3, "equations": 3, "pairing": 4, "dual points": 5, "faces": 6, "incidence": 7}

LINE = re.compile(
    r"(?P<echo>(?:\d+ )*)M:(?P<points>\d+) (?P<vertices>\d+)"
    r"(?: F:(?P<facets>\d+)"
    r"| N:(?P<dual_points>\d+) (?P<dual_vertices>\d+)"
    r"(?: Pic:(?P<pic>-?\d+) Cor:(?P<cor>-?\d+)| H:(?P<hodge>-?\d+(?:,-?\d+)+) \[(?P<euler>-?\d+)\]| codim=(?P<codim>\d+))?)"
)
COLUMNS = re.compile(r"(\d+) (\d+) (Vertices|Points|Points of P-dual|Vertices of P-dual)")
TABLE = re.compile(r"(Equations|Pairing|Incidence) (\d+) (\d+)")
FACES = re.compile(r"Faces:((?: \d+)+)")
PARTITION = re.compile(r"P:(\d+) V:((?: ?\d+)+)(?: H:(-?\d+(?:,-?\d+)*) \[(-?\d+)\])?")
DIAMOND = re.compile(r"h(\d+):((?: -?\d+)+)")
WEIGHTS = re.compile(r"\d+(?: \d+)+")
CLOSING = re.compile(r"#(nef|ip|ref):(\d+)")
SWEEP = re.compile(r"systems:(\d+) reflexive:(\d+) M:(\d+) N:(\d+)")
BLOCK_NAMES = {"Points": "points", "Vertices": "vertices", "Points of P-dual": "dual points", "Vertices of P-dual": "normals"}


class Lines:
    """The lines of a report, with the number of the one that was read last."""

    def __init__(self, report: str):
        self.left = report.split("\n")
        if self.left[-1] == "":
            self.left.pop()
        self.number = 0

    def next(self) -> str:
        if self.number == len(self.left):
            raise ReportFault(f"line {self.number}: the report ends within a block")
        self.number += 1
        if re.search(r"\d{1000}", self.left[self.number - 1]):
            raise ReportFault(f"line {self.number}: a number of more digits than a report has")
        return self.left[self.number - 1]

    def rows(self, count: int, width: int) -> Matrix:
        rows = []
        for _ in range(count):
            row = self.next().split(" ")
            if len(row) != width or not all(re.fullmatch(r"-?\d+", it) for it in row):
                raise ReportFault(f"line {self.number}: not a row of {width} numbers: {self.left[self.number - 1][:40]!r}")
            rows.append([int(it) for it in row])
        return rows


def numbers(text: str, parted_by: Optional[str] = None) -> List[int]:
    return [int(it) for it in text.split(parted_by)]


def width_and_rank(weights: Sequence[int]) -> Tuple[int, int]:
    """How many weights each system of a weight line has, and the rank of the systems."""
    systems, left = [], list(weights)
    while left:
        degree, total, system = left.pop(0), 0, []
        while left and (total < degree or left[0] == 0):
            total += left[0]
            system.append(Fraction(left.pop(0)))
        systems.append(system)
    rank, width = 0, len(systems[0])
    for column in range(width):
        rest = [row for row in systems[rank:] if len(row) > column and row[column]]
        if rest:
            systems.remove(rest[0])
            systems.insert(rank, rest[0])
            for row in systems[rank + 1 :]:
                factor = row[column] / rest[0][column] if len(row) == width else Fraction(0)
                row[:] = [a - factor * b for a, b in zip(row, rest[0])]
            rank += 1
    return width, rank


def named_hodge(record: Record) -> None:
    """Gives the numbers behind H: of a line their names."""
    names = {2: ["h11", "h21"], 3: ["h11", "h21", "h31"]}.get(len(record.hodge or []), [])
    for name, value in zip(names, record.hodge or []):
        setattr(record, name, value)


def hodge_names(record: Record, partition: Partition) -> List[str]:
    """The names of the numbers behind H: of a partition; none where its dimension can't be known from the report."""
    count = len(partition.hodge or [])
    if partition.diamond:
        dim = len(partition.diamond) - 1
    elif count > 1:
        dim = count + 1
    elif record.weights and record.codim:
        width, rank = width_and_rank(record.weights)
        dim = width - rank - record.codim
    else:
        return []
    return ["h10"] if dim == 1 else [f"h{i}1" for i in range(1, count + 1)]


def line_record(found: "re.Match[str]", item: int) -> Record:
    record = Record(item)
    for name, value in found.groupdict().items():
        if value and name not in ("echo", "hodge"):
            setattr(record, name, int(value))
    record.weights = numbers(found["echo"]) or None
    if found["dual_points"]:
        record.reflexive = True
        record.facets = record.dual_vertices
    if found["hodge"]:
        record.hodge = numbers(found["hodge"], ",")
        named_hodge(record)
    return record


def read_block(text: str, lines: Lines) -> Optional[Tuple[str, Any]]:
    """Reads the block that begins with this line: its name and what it has; None where the line begins no block."""
    found = COLUMNS.fullmatch(text)
    if found:
        first, second, name = int(found[1]), int(found[2]), BLOCK_NAMES[found[3]]
        rows = lines.rows(first, second)
        return name, rows if name == "normals" else [list(point) for point in zip(*rows)]
    found = TABLE.fullmatch(text)
    if found and found[1] != "Incidence":
        width = int(found[3]) + (found[1] == "Equations")
        return found[1].lower(), lines.rows(int(found[2]), width)
    if found:
        rows = [lines.next() for _ in range(int(found[2]))]
        if not all(re.fullmatch(f"[01]{{{found[3]}}}", row) for row in rows):
            raise ReportFault(f"line {lines.number}: not {found[2]} rows of {found[3]} digits 0 or 1")
        return "incidence", [[int(it) for it in row] for row in rows]
    found = FACES.fullmatch(text)
    return ("faces", numbers(found[1])) if found else None


def read(report: Union[str, bytes]) -> List[Record]:
    """Reads a report of any command: one record for each item, or for each weight system of `cws`.

    Raises ReportFault where a line isn't one of a report.
    """
    lines, records, last, counted = Lines(report.decode("latin-1") if isinstance(report, bytes) else report), [], "incidence", 0
    while lines.number < len(lines.left):
        text = lines.next()
        line, partition, diamond, closing = (it.fullmatch(text) for it in (LINE, PARTITION, DIAMOND, CLOSING))
        within_nef = bool(records) and records[-1].codim is not None and last == "line"
        if line:
            records.append(line_record(line, len(records) + 1))
            last = "line"
        elif partition and within_nef:
            hodge = numbers(partition[3], ",") if partition[3] else None
            euler = int(partition[4]) if partition[4] else None
            records[-1].partitions.append(Partition(int(partition[1]), numbers(partition[2]), hodge, euler))
        elif diamond and within_nef and records[-1].partitions:
            records[-1].partitions[-1].diamond.append(numbers(diamond[2]))
        elif closing:
            count = len(records[-1].partitions) if closing[1] == "nef" and within_nef else len(records) - counted
            if int(closing[2]) != count:
                raise ReportFault(f"line {lines.number}: {text} stands behind {count}")
            last, counted = "incidence", len(records)
        elif SWEEP.fullmatch(text):
            sums = [int(it) for it in SWEEP.fullmatch(text).groups()]  # type: ignore[union-attr]
            records.append(Record(len(records) + 1, systems=sums[0], reflexive_systems=sums[1], points=sums[2], dual_points=sums[3]))
            last = "incidence"
        elif WEIGHTS.fullmatch(text):
            records.append(Record(len(records) + 1, weights=numbers(text)))
            last = "incidence"
        else:
            block = read_block(text, lines)
            if block is None:
                raise ReportFault(f"line {lines.number}: not a line of a report: {text[:40]!r}")
            if not records or PLACES[block[0]] <= PLACES[last]:
                records.append(Record(len(records) + 1))
            records[-1].blocks[block[0]] = block[1]
            if block[0] in ("normals", "equations"):
                records[-1].reflexive = block[0] == "normals"
            last = block[0]
    return records


@dataclass
class Item:
    """One item of a text: its number in the whole text, its first line there, and its lines."""

    number: int
    line: int
    lines: List[bytes]


NUMBERS = re.compile(rb"[\t\r ]*((?:-?[0-9]+(?:[\t\r ]+|$))*)")
MOST_DIGITS = 18


def header_of(line: bytes) -> Optional[List[int]]:
    """The numbers of a matrix's header; None where the line isn't one. Digits are counted first: Python reads no number of thousands of them."""
    found = NUMBERS.match(line)
    words = found[1].split() if found else []
    digits = [it.lstrip(b"-").lstrip(b"0") for it in words]
    if len(words) != 2 or any(len(it) > MOST_DIGITS or (it and word.startswith(b"-")) for it, word in zip(digits, words)):
        return None
    return [int(it or b"0") for it in digits]


def matrix_end(lines: List[bytes], at: int, rows: int, columns: int) -> int:
    """The place behind a matrix whose header stands at a place. A faulty one ends where it would with one row on each line."""
    wanted, end = rows * columns, at + 1
    while wanted > 0 and end < len(lines):
        words = lines[end].split()
        found = next((i for i, it in enumerate(words) if not re.fullmatch(rb"-?[0-9]+", it)), len(words))
        end += 1
        if found < min(len(words), wanted):
            return max(end, min(at + 1 + rows, len(lines)))
        wanted -= min(found, wanted)
    return end


def items_of(text: bytes, number: int = 1, line: int = 1) -> List[Item]:
    """Cuts a text into its items: a weight line is one, and so is a matrix with its header. The number and the line are those of the first."""
    lines = text.split(b"\n")
    if lines[-1] == b"":
        lines.pop()
    items: List[Item] = []
    at = 0
    while at < len(lines):
        end = at + 1
        if lines[at].strip(b"\t\r "):
            header = header_of(lines[at])
            if header:
                end = matrix_end(lines, at, *header)
            items.append(Item(number + len(items), line + at, lines[at:end]))
        at = end
    return items


@dataclass
class Part:
    """What one start of the program did: the items that it reported, their report, and the item that ended it, if one did, with the cause.

    `is_faulty` says that the text of that item has a fault; otherwise it was refused.
    """

    reported: List[Item]
    report: bytes
    ended_by: Optional[Item] = None
    cause: str = ""
    is_faulty: bool = False


def command() -> str:
    """The command that is run: the variable PALP, or `palp` beside this folder, or where it was installed, or on the PATH."""
    here = Path(__file__).resolve().parent
    places = [os.environ.get("PALP", ""), str(here.parent / "palp"), str(here.parent.parent / "bin" / "palp"), shutil.which("palp") or ""]
    for place in places:
        if place and os.path.isfile(place) and os.access(place, os.X_OK):
            return place
    raise ProgramFault(69, "palp: the command isn't found; set the variable PALP to its path")


def start(words: Sequence[str], text: bytes) -> "subprocess.CompletedProcess[bytes]":
    return subprocess.run([command(), *words], input=text, stdout=subprocess.PIPE, stderr=subprocess.PIPE, check=False)


def item_at(items: List[Item], line: int) -> Tuple[int, int]:
    """The place of the item that has a line of the joined text, and that line's number in the whole text."""
    for place, item in enumerate(items):
        if line <= len(item.lines):
            return place, item.line + line - 1
        line -= len(item.lines)
    return len(items) - 1, items[-1].line + len(items[-1].lines) - 1


def parts(words: Sequence[str], items: List[Item]) -> Iterator[Part]:
    """Runs the program over items, and goes on behind each one that is refused or faulty, so that none is lost.

    Raises ProgramFault where the program ends for another cause (docs/help.txt has the statuses).
    """
    rest = list(items)
    while rest:
        done = start(words, b"".join(line + b"\n" for item in rest for line in item.lines))
        note = (done.stderr.decode("latin-1").strip().split("\n") or [""])[-1]
        refused = re.fullmatch(r"palp: item (\d+): (.*)", note)
        faulty = re.fullmatch(r"palp: line (\d+) column (\d+): (\w+)", note)
        if done.returncode == 0:
            yield Part(rest, done.stdout)
            return
        if done.returncode == 4 and refused:
            place = int(refused[1]) - 1
            yield Part(rest[:place], done.stdout, rest[place], refused[2])
        elif done.returncode == 3 and faulty:
            place, line = item_at(rest, int(faulty[1]))
            yield Part(rest[:place], done.stdout, rest[place], f"line {line} column {faulty[2]}: {faulty[3]}", True)
        elif done.returncode == 5 and len(rest) == 1:
            place = 0
            yield Part([], done.stdout, rest[0], "text limit", True)
        else:
            raise ProgramFault(done.returncode if done.returncode > 0 else 128 - done.returncode, note or "palp: the program failed")
        rest = rest[place + 1 :]


def text_of(items: Union[str, bytes, Iterable[Any]]) -> bytes:
    """The text of items: a text as it is; of a list, each member's own: a text, the numbers of a weight line, or a list of points."""
    if isinstance(items, bytes):
        return items
    if isinstance(items, str):
        return items.encode("utf-8")
    text = b""
    for item in items:
        if isinstance(item, (str, bytes)):
            text += text_of(item).rstrip(b"\n") + b"\n"
            continue
        if not hasattr(item, "__iter__"):
            raise ValueError(f"items are a list of items, as [[5, 1, 1, 1, 1, 1]], and {item!r} is none")
        rows = [list(row) if hasattr(row, "__iter__") and not isinstance(row, str) else row for row in item]
        if rows and all(isinstance(row, list) for row in rows):
            widths = {len(row) for row in rows}
            if len(widths) != 1 or len(rows) < widths.pop():
                raise ValueError("the points of a list have equally many coordinates, and are at least as many as these")
            rows = [[len(rows), len(rows[0])], *rows]
        elif len(rows) > 2 and not any(isinstance(row, list) for row in rows):
            rows = [rows]
        else:
            raise ValueError("an item is a text, the numbers of a weight line (three or more), or a list of points")
        text += "".join(" ".join(str(whole(it)) for it in row) + "\n" for row in rows).encode()
    return text


def whole(number: Any) -> int:
    """A whole number of any kind, as Python, Sage and numpy have them."""
    try:
        return operator.index(number)
    except TypeError:
        raise ValueError(f"the numbers of an item are whole numbers, and {number!r} is none") from None


def run(words: str, items: Union[str, bytes, Iterable[Any]] = b"") -> List[Record]:
    """Runs a command, as "poly -n", over items, and gives one record for each of them, in order.

    A refused or faulty item has a record with its cause, and the ones behind it are reported all the same; one that `nef` refuses at a
    partition keeps the partitions before it. An item of which the command prints nothing (`poly -r`) has a record that says nothing.
    Of `cws` and `sweep`, which read no items, the records are those of the report.

    Raises ProgramFault where the program ends for another cause, as a wrong word, and ValueError where the words aren't a text, or an item
    isn't of one of the forms that `text_of` takes.
    """
    if not isinstance(words, str):
        raise ValueError('the words are one text, as "poly -n"')
    given = shlex.split(words)
    if given[:1] in (["cws"], ["sweep"]):
        done = start(given, b"")
        if done.returncode:
            raise ProgramFault(done.returncode, done.stderr.decode("latin-1").strip())
        return read(done.stdout)
    records: List[Record] = []
    cut = items_of(text_of(items))
    if not cut:
        for _ in parts(given, [Item(1, 1, [b""])]):
            pass
    for part in parts(given, cut):
        found = read(part.report)
        is_begun = part.ended_by is not None and len(found) == len(part.reported) + 1
        if len(found) < len(part.reported):
            found = [one for item in part.reported for one in alone(given, item)]
        if part.ended_by and not is_begun:
            found.append(Record(part.ended_by.number))
        if part.ended_by:
            found[-1].cause = part.cause
        records += found
    for number, record in enumerate(records, 1):
        record.item = number
    return records


def alone(words: Sequence[str], item: Item) -> List[Record]:
    found = [it for part in parts(words, [item]) for it in read(part.report)]
    return found or [Record(item.number)]


def stop(script: str, status: int, why: str) -> NoReturn:
    """Ends a script with one line."""
    print(f"{script}: {why}", file=sys.stderr)
    sys.exit(status)


def input_of(script: str, name: Optional[str]) -> bytes:
    """The bytes of a file, or of standard input where none is named. Ends the script where it can't be read."""
    if name is None and sys.stdin is None:
        stop(script, 2, "standard input is closed")
    if name is None and sys.stdin.isatty():
        print(f"{script}: standard input is read from the terminal until Ctrl-D on an empty line", file=sys.stderr)
    try:
        return Path(name).read_bytes() if name else sys.stdin.buffer.read()
    except OSError as fault:
        stop(script, 2, f"{name or 'standard input'}: {fault.strerror}")


def reports_of(script: str, names: Sequence[str]) -> List[Record]:
    """The records of files behind each other, or of standard input where none is named. Ends the script where one isn't a report."""
    records: List[Record] = []
    for name in names or [None]:
        try:
            records += read(input_of(script, name))
        except ReportFault as fault:
            stop(script, 3, f"{name or 'standard input'}: {fault}")
    for number, record in enumerate(records, 1):
        record.item = number
    return records


def end(script: str, main: Callable[[List[str]], int]) -> NoReturn:
    """Runs a script and ends with its status, which is 7 where what it writes can't be written. On a closed pipe it ends as a filter does."""
    if sys.stdout is None:
        stop(script, 7, "standard output is closed")
    try:
        try:
            status = main(sys.argv[1:])
        except SystemExit as ended:
            status = ended.code
        sys.stdout.flush()
    except KeyboardInterrupt:
        status = 130
    except BrokenPipeError:
        signal.signal(signal.SIGPIPE, signal.SIG_DFL)
        os.kill(os.getpid(), signal.SIGPIPE)
        status = 128 + signal.SIGPIPE
    except OSError as fault:
        print(f"{script}: {fault.filename + ': ' if fault.filename else ''}{fault.strerror}", file=sys.stderr)
        # (Python would try to write the rest again)
        os.dup2(os.open(os.devnull, os.O_WRONLY), sys.stdout.fileno())
        status = 7
    sys.exit(status)
