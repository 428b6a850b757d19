"""A job as text, CSV or lines: read strictly, and written so that it is read back as it was.

Nothing is guessed and nothing is skipped: what is blank, negative, decimal, too large or not understood is a TextError that names
file, line, column and what is allowed. docs/TEXT.md describes both formats.
"""

from __future__ import annotations

from dataclasses import dataclass, field
from typing import Iterable, Iterator, NamedTuple, NoReturn, Sequence

from . import limits
from .jobs import Job

BLANKS = " \t"
DELIMITERS = (",", ";", "\t")

# What each kind of row or line has, in the order of a line.
FIELDS = {"startup": ("startup",), "machine": ("name", "speed", "hold"), "tile": ("name", "weight")}
MAIN = {"startup": "startup", "machine": "speed", "tile": "weight"}
USAGE = {"startup": "startup WORK", "machine": "machine NAME SPEED [HOLD]", "tile": "tile NAME WEIGHT"}
ROW_OF = {"startup": "start-up work", "machine": "a machine", "tile": "a tile"}

# The lines that say that there are none of a kind.
NONE = {"tiles": "tile", "machines": "machine"}

# The columns of a CSV by what it lists, and those that mean the name.
TILES, MACHINES, BOTH = "a list of tiles", "a list of machines", "a CSV with a column 'kind'"
COLUMNS = {
    TILES: ("name", "tile", "weight"),
    MACHINES: ("name", "machine", "speed", "hold"),
    BOTH: ("kind", "name", "value", "startup", "speed", "hold", "weight"),
}
KNOWN = frozenset(column for columns in COLUMNS.values() for column in columns)
NAME_COLUMNS = ("name", "tile", "machine")

COLUMNS_HELP = (
    "the columns are for tiles: name (or tile), weight; for machines: name (or machine), speed, hold; "
    "for both: kind, name, hold and either value or startup, speed, weight"
)
EXPECTED = (
    "expected are\n"
    "  lines: startup WORK, machine NAME SPEED [HOLD], tile NAME WEIGHT\n"
    "  or a CSV with a header: name,weight for tiles; name,speed,hold for machines; kind,name,value,hold for both"
)
QUOTES_HELP = "a name with a double quote stands in double quotes, and each quote inside is doubled"

# Every problem by its code: its words, and what is allowed. python/tests/errors has a text for each.
PROBLEMS: dict[str, tuple[str, str]] = {
    # the whole text
    "encoding": ("byte 0x{byte:02X} is not {encoding}", "save the text as UTF-8"),
    "empty": ("nothing but blank lines and comments", EXPECTED),
    "neither": ("'{words}': neither a line of a job nor the header of a CSV", EXPECTED),
    # rows and lines
    "hash": (
        "'{words}': neither a comment nor a row",
        "put the name in double quotes, or for a comment # at the very start of the line, then a blank and words",
    ),
    "unclosed": ("a double quote is not closed", QUOTES_HELP),
    "behind": ("text behind a closing double quote", QUOTES_HELP),
    "inside": ("'{cell}': a double quote inside", QUOTES_HELP),
    "blank": ("blank", "{allowed}"),
    "keyword": (
        "'{word}': not understood",
        "a line begins with startup, machine or tile, or is 'no machines' or 'no tiles'",
    ),
    "words": (
        "{count} words behind '{kind}'",
        "write {usage}, a name with blanks in double quotes, and a comment in a line of its own",
    ),
    "missing": ("blank", "write {usage}"),
    "none": ("'{words}', and line {first} has one", "leave one of the two lines out"),
    "startup": ("start-up work a second time", "start-up work is one number for the job, and line {first} has it"),
    # headers
    "unnamed": ("column {number} has no name", COLUMNS_HELP),
    "unknown": ("not a known column", COLUMNS_HELP),
    "twice": ("'{item}' is there twice", "each column once; " + COLUMNS_HELP),
    "strange": ("not a column of {listing}", COLUMNS_HELP),
    "value": ("beside a column 'value'", "either value or startup, speed, weight"),
    "kindless": ("{columns} and no column 'kind'", "in a CSV with both, the column kind says machine, tile or startup"),
    "numberless": ("no column with numbers", COLUMNS_HELP),
    # cells
    "only": ("only blank cells", "leave the row out, or fill it in"),
    "cells": (
        "{count} cells, and the header has {wanted}",
        "each cell stands under a column, and one that has a delimiter in it stands in double quotes",
    ),
    "under": ("'{cell}' stands under no column", "cells behind the last named column are blank"),
    "kind": ("'{cell}': not a kind", "{allowed}"),
    "foreign": ("'{cell}' in the row of {kind}", "in this row the cell is blank"),
    "columnless": (
        "{kind}, and there is no column '{item}'",
        "the header has startup, speed, weight for the kinds there are, or value",
    ),
    "control": ("'{cell}': a control character, {character}", "{allowed}"),
    # numbers
    "negative": ("{cell}: negative", "{allowed}"),
    "plus": ("{cell}: write it without a sign", "{allowed}"),
    "decimal": ("{cell}: a whole number is wanted; {option} {power} would make it one", "{allowed}"),
    "decimal-large": (
        "{cell}: a whole number is wanted; {option} {power} would make it {number:,}, which is too large",
        "{allowed}",
    ),
    "decimal-zeros": ("{cell}: a whole number is wanted; write {whole}", "{allowed}"),
    "decimal-never": ("{cell}: a whole number is wanted", "{allowed}"),
    "decimal-long": ("{cell}: more than {most} decimals", "{allowed}"),
    "scaled": ("{cell} × {scale} is no whole number; {option} {power} would do", "{allowed}"),
    "scaled-large": (
        "{cell} × {scale} is no whole number; {option} {power} would make it {number:,}, which is too large",
        "{allowed}",
    ),
    "point": ("{cell}: a point needs digits on both sides", "{allowed}"),
    "comma": ("{cell}: write it without a comma", "{allowed}"),
    "comma-decimal": ("{cell}: a decimal comma; decimals have a point", "{allowed}"),
    "separator": ("{cell}: write it without blanks or marks between the digits", "{allowed}"),
    "number": ("{cell}: not a number", "{allowed}"),
    "digits": ("{cell}: not a number in the digits 0 to 9", "{allowed}"),
    "large": ("{cell}: too large", "{allowed}"),
    "large-scaled": ("{cell} × {scale} is {product:,}: too large", "{allowed}"),
    "zero": ("a speed of 0", "{allowed}"),
    # texts joined
    "tiles-missing": ("no tiles", "one text has the tiles, as a CSV with a column weight or as lines: tile NAME WEIGHT"),
    "machines-missing": (
        "no machines",
        "one text has the machines, as a CSV with a column speed or as lines: machine NAME SPEED [HOLD]",
    ),
    "tiles-double": ("tiles, and {other} has tiles too", "one text has all the tiles"),
    "machines-double": ("machines, and {other} has machines too", "one text has all the machines"),
    "startup-double": ("start-up work, and {other} gives it too", "start-up work is one number for the job"),
}


class TextError(ValueError):
    """What is wrong with a text, where, and what is allowed there. `code` is a key of PROBLEMS."""

    def __init__(
        self, file: str, line: int | None, column: str | None, problem: str, allowed: str, code: str = ""
    ) -> None:
        super().__init__(file, line, column, problem, allowed, code)
        self.file = file
        self.line = line
        self.column = column
        self.problem = problem
        self.allowed = allowed
        self.code = code

    def __str__(self) -> str:
        line = "" if self.line is None else f", line {self.line}"
        column = "" if self.column is None else f", column '{self.column}'"
        return f"{self.file}{line}{column}: {self.problem}; {self.allowed}"


@dataclass
class Parts:
    """What one text has. `has_tiles` and `has_machines` say whether it speaks of them at all; it may have none of them."""

    file: str
    tiles: list[tuple[str, int]] = field(default_factory=list)
    machines: list[tuple[str, int, int]] = field(default_factory=list)
    startup: int | None = None
    has_tiles: bool = False
    has_machines: bool = False


class _Wrong(Exception):
    """A problem before its place is known: its code and words, its column, and its line if that is not the current one."""

    def __init__(self, code: str, column: str | None = None, line: int | None = None, **words: object) -> None:
        super().__init__(code)
        self.code = code
        self.column = column
        self.line = line
        self.words = words

    def error(self, file: str, line: int | None) -> TextError:
        """The same with its place."""
        problem, allowed = (part.format(**self.words) for part in PROBLEMS[self.code])
        return TextError(file, self.line or line, self.column, problem, allowed, self.code)


def _show(text: str, most: int = 40) -> str:
    """A cell as an error shows it: cut short, and what cannot be printed as an escape."""
    cut = text if len(text) <= most else text[:most] + ".."
    return "".join(c if c.isprintable() else c.encode("unicode_escape").decode() for c in cut)


# Bytes and lines


_MARKS = ((b"\xef\xbb\xbf", "UTF-8"), (b"\xff\xfe", "UTF-16-LE"), (b"\xfe\xff", "UTF-16-BE"))
_NO_TEXT = bytes(byte for byte in range(32) if byte not in b"\t\n\r")


def is_text(data: bytes) -> bool:
    """Whether the bytes are text and no job file: a byte order mark in front, or no byte below 32 but tabs and line ends."""
    if any(data.startswith(mark) for mark, _ in _MARKS):
        return True
    return len(data) > 0 and len(data.translate(None, _NO_TEXT)) == len(data)


def _lines(text: str) -> list[str]:
    """The lines of a text, with LF, CRLF or CR between them."""
    return text.replace("\r\n", "\n").replace("\r", "\n").split("\n")


def _decode(data: bytes) -> str:
    """The text of the bytes, without byte order mark."""
    mark, encoding = next((pair for pair in _MARKS if data.startswith(pair[0])), (b"", "UTF-8"))
    body = data[len(mark) :]
    try:
        return body.decode(encoding)
    except UnicodeDecodeError as error:
        line = len(_lines(body[: error.start].decode(encoding, "ignore")))
        raise _Wrong("encoding", line=line, byte=body[error.start], encoding=encoding[:6]) from None


def _is_blank(line: str) -> bool:
    return not line.strip(BLANKS)


def _is_comment(line: str) -> bool:
    """Whether the line is a comment: # or several at its very start, and behind them a blank, a tab or nothing."""
    return line.startswith("#") and line.lstrip("#")[:1] in ("", " ", "\t")


def _refuse_hash(line: str) -> None:
    """A line that looks like a comment and is none may be a tile whose name begins with #."""
    if "#" in line and line.lstrip(BLANKS).startswith("#"):
        raise _Wrong("hash", words=_show(line.strip(BLANKS)))


# Numbers


class Quantity(NamedTuple):
    """A number of a job: how it is called, its limits, what is said of 0, and the option that scales it, if one does."""

    words: str
    low: int
    high: int
    note: str
    option: str

    def allowed(self, scale: int) -> str:
        scaled = "" if scale == 1 else f" when multiplied by {scale}"
        return f"{self.words} is a whole number{scaled}, {self.low} to {self.high:,}{self.note}"


QUANTITIES = {
    "weight": Quantity("a weight", 0, limits.MAX_WEIGHT, "", "--scale"),
    "speed": Quantity("a speed", 1, limits.MAX_SPEED, "", "--scale-speeds"),
    "hold": Quantity("a hold", 0, limits.MAX_HOLD, ", and 0 is no limit", ""),
    "startup": Quantity("start-up work", 0, limits.MAX_STARTUP, "", "--scale"),
}
MOST_DIGITS = 18
MAX_SCALE = 10**MOST_DIGITS
_SEPARATORS = str.maketrans("", "", " '’._\u00a0\u2009\u202f")


def _is_digits(text: str) -> bool:
    return text.isascii() and text.isdigit()


def _number(cell: str, quantity: Quantity, scale: int) -> int:
    """The number of a cell times the scale, in whole numbers all the way."""
    if _is_digits(cell) and len(cell) < MOST_DIGITS and quantity.low <= int(cell) * scale <= quantity.high:
        return int(cell) * scale
    text = cell.strip(BLANKS)
    if _is_digits(text):
        return _scaled(text, text, "", quantity, scale)
    whole, _, decimals = text.partition(".")
    if _is_digits(whole) and _is_digits(decimals):
        if scale == 1:
            _refuse_decimal(text, whole, decimals, quantity)
        return _scaled(text, whole, decimals, quantity, scale)
    raise _Wrong(_kind_of_no_number(text), cell=_show(text))


def _scaled(text: str, whole: str, decimals: str, quantity: Quantity, scale: int) -> int:
    """whole.decimals times the scale, if it is a whole number within its limits."""
    number, power = _fraction(text, whole, decimals)
    product, rest = divmod(number * scale, power)
    if rest:
        code = "scaled" if number <= quantity.high else "scaled-large"
        raise _Wrong(code, cell=_show(text), scale=scale, option=quantity.option, power=power, number=number)
    if product > quantity.high:
        raise _Wrong("large" if scale == 1 else "large-scaled", cell=_show(text), scale=scale, product=product)
    if product < quantity.low:
        raise _Wrong("zero")
    return product


def _fraction(text: str, whole: str, decimals: str) -> tuple[int, int]:
    """whole.decimals as a whole number over the least power of ten; longer ones than any that could do are refused."""
    whole, decimals = whole.lstrip("0"), decimals.rstrip("0")
    if len(whole) > MOST_DIGITS:
        raise _Wrong("large", cell=_show(text))
    if len(decimals) > MOST_DIGITS:
        raise _Wrong("decimal-long", cell=_show(text), most=MOST_DIGITS)
    return int(whole + decimals or "0"), 10 ** len(decimals)


def _refuse_decimal(text: str, whole: str, decimals: str, quantity: Quantity) -> NoReturn:
    """Says what would make a decimal a whole number."""
    number, power = _fraction(text, whole, decimals)
    if power == 1:
        raise _Wrong("decimal-zeros", cell=_show(text), whole=number)
    if not quantity.option:
        raise _Wrong("decimal-never", cell=_show(text))
    code = "decimal" if number <= quantity.high else "decimal-large"
    raise _Wrong(code, cell=_show(text), option=quantity.option, power=power, number=number)


def _kind_of_no_number(text: str) -> str:
    """The code of what is wrong with a text that is no number."""
    if not text:
        return "blank"
    rest = text[1:].strip(BLANKS)
    if _is_digits(rest.replace(".", "").replace(",", "")):
        if text[0] in "-−":
            return "negative"
        if text[0] == "+":
            return "plus"
    if _is_digits(text.replace(".", "", 1)):
        return "point"
    return _kind_of_mark(text)


def _kind_of_mark(text: str) -> str:
    """The code of a number with marks between its digits, or of no number at all."""
    whole, comma, decimals = text.partition(",")
    if comma and _is_digits(whole) and _is_digits(decimals) and len(decimals) != 3:
        return "comma-decimal"
    if text.isdecimal():
        return "digits"
    if not _is_digits(text[0] + text[-1]):
        return "number"
    if comma and _is_digits(text.translate(_SEPARATORS).replace(",", "")):
        return "comma"
    return "separator" if _is_digits(text.translate(_SEPARATORS)) else "number"


# Names


NAME_ALLOWED = "a name is any text on one line that is not blank"


def _is_control(character: str) -> bool:
    """Control characters, line separators, and halves of characters, which no text can have."""
    code = ord(character)
    return code < 32 or 127 <= code < 160 or code in (0x2028, 0x2029) or 0xD800 <= code < 0xE000


def _name(cell: str) -> str:
    """A name as it stands in the cell."""
    if not cell.strip():
        raise _Wrong("blank", allowed=NAME_ALLOWED)
    if not cell.isprintable():
        for character in cell:
            if _is_control(character):
                raise _Wrong("control", cell=_show(cell), character=f"U+{ord(character):04X}", allowed=NAME_ALLOWED)
    return cell


# Cells and words


def _quoted(text: str, start: int) -> tuple[str, int]:
    """What stands in the quotes that open at start, and where it goes on behind them."""
    pieces: list[str] = []
    at = start + 1
    while True:
        end = text.find('"', at)
        if end < 0:
            raise _Wrong("unclosed")
        pieces.append(text[at:end])
        if not text.startswith('""', end):
            return "".join(pieces), end + 1
        pieces.append('"')
        at = end + 2


def _skip(text: str, at: int, blanks: str) -> int:
    """Where the blanks from at on end."""
    while at < len(text) and text[at] in blanks:
        at += 1
    return at


def _unquoted(cell: str) -> str:
    """A cell that does not begin with a quote has none, and blanks round it are dropped."""
    if '"' in cell:
        raise _Wrong("inside", cell=_show(cell.strip(BLANKS)))
    return cell.strip(BLANKS)


def _next_cell(text: str, at: int, delimiter: str) -> tuple[str, int]:
    """The cell from at on, and where the delimiter behind it or the row's end is."""
    blanks = BLANKS.replace(delimiter, "")
    start = _skip(text, at, blanks)
    if not text.startswith('"', start):
        end = text.find(delimiter, at)
        end = len(text) if end < 0 else end
        return _unquoted(text[at:end]), end
    cell, end = _quoted(text, start)
    end = _skip(text, end, blanks)
    if end < len(text) and text[end] != delimiter:
        raise _Wrong("behind")
    return cell, end


def _cells(text: str, delimiter: str) -> list[str]:
    """The cells of a row. Quoted ones are kept as they are, of others the blanks at both ends are dropped."""
    if '"' not in text:
        return [cell.strip(BLANKS) for cell in text.split(delimiter)]
    cells: list[str] = []
    at = -1
    while at < len(text):
        cell, at = _next_cell(text, at + 1, delimiter)
        cells.append(cell)
    return cells


def _bare_words(line: str) -> list[str]:
    """What stands between blanks and tabs."""
    return [word for word in line.replace("\t", " ").split(" ") if word]


def _words(line: str) -> list[str]:
    """The words of a line, apart by blanks or tabs; one in quotes is kept as it is."""
    if '"' not in line:
        return _bare_words(line)
    words: list[str] = []
    at = _skip(line, 0, BLANKS)
    while at < len(line):
        word, at = _next_word(line, at)
        words.append(word)
        at = _skip(line, at, BLANKS)
    return words


def _next_word(line: str, at: int) -> tuple[str, int]:
    """The word from at on, and where it ends."""
    if line[at] == '"':
        word, end = _quoted(line, at)
        if end < len(line) and line[end] not in BLANKS:
            raise _Wrong("behind")
        return word, end
    word = line[at:].replace("\t", " ").partition(" ")[0]
    return _unquoted(word), at + len(word)


# Reading


class _Columns(NamedTuple):
    """The columns of a CSV: the delimiter, their names as written, what each means, and how many cells the header has."""

    delimiter: str
    headers: list[str]
    items: list[str]
    width: int


class _Reader:
    """Reads one text; `line` is the line where the current row begins."""

    def __init__(self, file: str, scale: int, speed_scale: int) -> None:
        self.parts = Parts(file)
        self.line: int | None = None
        self.scales = {"weight": scale, "startup": scale, "speed": speed_scale, "hold": 1}
        self.first: dict[str, int | None] = {}

    def read(self, data: bytes) -> None:
        """Reads lines or a CSV, whichever the first line is of."""
        lines = _lines(_decode(data))
        start = next((at for at, line in enumerate(lines) if not _is_blank(line) and not _is_comment(line)), None)
        if start is None:
            raise _Wrong("empty")
        self.line = start + 1
        _refuse_hash(lines[start])
        header = _header(lines[start])
        if _is_keyword(lines[start]) and not (header and _is_plain_header(header[1])):
            self.read_lines(lines, start)
        elif header:
            self.read_csv(lines, start, _columns(*header))
        else:
            raise _Wrong("neither", words=_show(lines[start].strip(BLANKS)))

    # one row or line

    def number(self, column: str, cell: str, item: str) -> int:
        """The number of a cell; where it is wrong, its column and what is allowed."""
        quantity, scale = QUANTITIES[item], self.scales[item]
        try:
            return _number(cell, quantity, scale)
        except _Wrong as wrong:
            wrong.column = column
            wrong.words["allowed"] = quantity.allowed(scale)
            raise

    def name(self, column: str, cell: str) -> str:
        """The name of a cell; where it is wrong, its column."""
        try:
            return _name(cell)
        except _Wrong as wrong:
            wrong.column = column
            raise

    def row(self, kind: str, cells: Iterable[tuple[str, str, str]]) -> None:
        """Reads a row of this kind from its cells: column, what it means, and text."""
        name = None
        numbers: dict[str, int] = {}
        for column, item, cell in cells:
            if item == "name":
                name = self.name(column, cell)
            else:
                numbers[item] = self.number(column, cell, item)
        self.add(kind, name, numbers)

    def add(self, kind: str, name: str | None, numbers: dict[str, int]) -> None:
        """Adds a row to the parts. Tiles and machines without a name get their number."""
        parts = self.parts
        if kind == "tile":
            parts.tiles.append((name or str(len(parts.tiles) + 1), numbers["weight"]))
        elif kind == "machine":
            parts.machines.append((name or str(len(parts.machines) + 1), numbers["speed"], numbers.get("hold", 0)))
        elif parts.startup is not None:
            raise _Wrong("startup", first=self.first[kind])
        else:
            parts.startup = numbers["startup"]
        self.first.setdefault(kind, self.line)

    # lines

    def read_lines(self, lines: list[str], start: int) -> None:
        """Reads the line format from the line start on."""
        said: dict[str, int | None] = {}
        for at in range(start, len(lines)):
            line = lines[at]
            if _is_blank(line) or _is_comment(line):
                continue
            self.line = at + 1
            _refuse_hash(line)
            words = _words(line)
            kind = words[0].lower()
            none = _none(words) if kind == "no" else None
            if none:
                said[none] = self.line
            else:
                self.read_words(kind, words)
        for kind, number in said.items():
            if kind in self.first:
                raise _Wrong("none", line=number, words=f"no {kind}s", first=self.first[kind])
        self.parts.has_tiles = "tile" in self.first or "tile" in said
        self.parts.has_machines = "machine" in self.first or "machine" in said

    def read_words(self, kind: str, words: list[str]) -> None:
        """Reads one line of a keyword and what belongs to it."""
        if kind not in FIELDS:
            raise _Wrong("keyword", word=_show(words[0]))
        items = FIELDS[kind]
        given = words[1:]
        if len(given) > len(items):
            raise _Wrong("words", count=len(given), kind=kind, usage=USAGE[kind])
        missing = items[len(given) :]
        if missing and missing != ("hold",):
            raise _Wrong("missing", missing[0], usage=USAGE[kind])
        self.row(kind, zip(items, items, given))

    # CSV

    def read_csv(self, lines: list[str], start: int, columns: _Columns) -> None:
        """Reads the rows below the header, which stands at start."""
        kind_at = columns.items.index("kind") if "kind" in columns.items else None
        only_kind = "tile" if "weight" in columns.items else "machine"
        plans = {kind: _plan(kind, columns) for kind in FIELDS}
        for cells in self.rows(lines, start + 1, columns):
            kind = only_kind if kind_at is None else _kind(columns.headers[kind_at], cells[kind_at])
            own, foreign = plans[kind]
            if kind_at is not None:
                _refuse_foreign(kind, columns, foreign, cells)
            self.row(kind, [(column, item, cells[at]) for column, item, at in own])
        self.parts.has_tiles = "weight" in columns.items or "tile" in self.first
        self.parts.has_machines = "speed" in columns.items or "machine" in self.first

    def rows(self, lines: list[str], at: int, columns: _Columns) -> Iterator[list[str]]:
        """The rows from the line at on, a cell for each column. In a single column a blank line before a row is a blank cell."""
        blank = None
        while at < len(lines):
            line = lines[at]
            self.line = at + 1
            at += 1
            if _is_blank(line) and columns.delimiter not in line:
                blank = blank or self.line
            elif _is_row(line, columns):
                if blank and len(columns.headers) == 1:
                    self.line = blank
                    line = ""
                _refuse_hash(line)
                if '"' in line:
                    end = _row_end(lines, at)
                    line = "\n".join([line, *lines[at:end]])
                    at = end
                yield _fitted(_cells(line, columns.delimiter), columns)


def _row_end(lines: list[str], at: int) -> int:
    """Where the row that begins in the line before at ends: behind the line that closes its quotes."""
    quotes = lines[at - 1].count('"')
    while quotes % 2 and at < len(lines):
        quotes += lines[at].count('"')
        at += 1
    return at


def _is_keyword(line: str) -> bool:
    """Whether the line begins as a line of the line format does."""
    words = _bare_words(line)
    return words[0].lower() in FIELDS or _none(words) is not None


def _none(words: list[str]) -> str | None:
    """The kind that there is none of, if the words say so."""
    return NONE.get(words[1].lower()) if len(words) == 2 and words[0].lower() == "no" else None


def _header(line: str) -> tuple[str, list[str]] | None:
    """The delimiter and the cells of a header, if a delimiter shows a cell that is a known column."""
    for delimiter in DELIMITERS:
        try:
            cells = [cell.strip(BLANKS) for cell in _cells(line, delimiter)]
        except _Wrong:
            continue
        if any(cell.lower() in KNOWN for cell in cells):
            return delimiter, cells
    return None


def _is_plain_header(cells: list[str]) -> bool:
    """Whether the cells are those of a header and of no line, which would have a number: known columns, one of them for numbers."""
    columns = [cell.lower() for cell in cells if cell]
    return KNOWN.issuperset(columns) and any(column in columns for column in ("weight", "speed", "value"))


def _is_row(line: str, columns: _Columns) -> bool:
    """Whether the line is no comment. A first cell of # only is none either, as a spreadsheet writes it for a column too narrow."""
    if not _is_comment(line):
        return True
    rest = line.lstrip("#")
    return rest.startswith(columns.delimiter) or (len(columns.headers) == 1 and _is_blank(rest))


def _columns(delimiter: str, cells: list[str]) -> _Columns:
    """The columns of a header, if they are those of tiles, of machines or of both. Blank cells at its end are no columns."""
    named = list(cells)
    while not named[-1]:
        named.pop()
    columns = [cell.lower() for cell in named]
    for number, column in enumerate(columns, 1):
        if not column:
            raise _Wrong("unnamed", number=number)
        if column not in KNOWN:
            raise _Wrong("unknown", _show(named[number - 1]))
    listing = _listing(columns)
    items: list[str] = []
    for header, column in zip(named, columns):
        if column not in COLUMNS[listing]:
            raise _Wrong("strange", header, listing=listing)
        if "value" in columns and column in ("startup", "speed", "weight"):
            raise _Wrong("value", header)
        item = "name" if column in NAME_COLUMNS else column
        if item in items:
            raise _Wrong("twice", header, item=item)
        items.append(item)
    return _Columns(delimiter, named, items, len(cells))


def _listing(columns: list[str]) -> str:
    """What a CSV with these columns lists."""
    if "kind" not in columns:
        if "value" in columns or ("weight" in columns and "speed" in columns):
            raise _Wrong("kindless", columns="'value'" if "value" in columns else "'speed', 'weight'")
        if "weight" in columns:
            return TILES
        if "speed" in columns:
            return MACHINES
    elif any(column in columns for column in ("value", "startup", "speed", "weight")):
        return BOTH
    raise _Wrong("numberless")


def _plan(kind: str, columns: _Columns) -> tuple[list[tuple[str, str, int]], list[int]]:
    """Which cells belong to a row of this kind, with their columns and what they mean, and which have to be blank."""
    own: list[tuple[str, str, int]] = []
    foreign: list[int] = []
    for at, item in enumerate(columns.items):
        item = MAIN[kind] if item == "value" else item
        if item in FIELDS[kind]:
            own.append((columns.headers[at], item, at))
        elif item != "kind":
            foreign.append(at)
    return own, foreign


def _kind(column: str, cell: str) -> str:
    """The kind of a row."""
    kind = cell.strip(BLANKS).lower()
    if kind not in FIELDS:
        raise _Wrong("kind" if kind else "blank", column, cell=_show(cell), allowed="a kind is machine, tile or startup")
    return kind


def _refuse_foreign(kind: str, columns: _Columns, foreign: list[int], cells: list[str]) -> None:
    """Cells that do not belong to the row's kind are blank, and the kind has its column."""
    for at in foreign:
        if not _is_blank(cells[at]):
            raise _Wrong("foreign", columns.headers[at], cell=_show(cells[at]), kind=ROW_OF[kind])
    if MAIN[kind] not in columns.items and "value" not in columns.items:
        raise _Wrong("columnless", kind=ROW_OF[kind], item=MAIN[kind])


def _fitted(cells: list[str], columns: _Columns) -> list[str]:
    """The cells of a row, one for each column; missing ones are blank, and none may be left over."""
    if len(cells) > 1 and not any(cells):
        raise _Wrong("only")
    if len(cells) > columns.width:
        raise _Wrong("cells", count=len(cells), wanted=columns.width)
    count = len(columns.headers)
    if len(cells) == count:
        return cells
    for cell in cells[count:]:
        if not _is_blank(cell):
            raise _Wrong("under", cell=_show(cell))
    return cells[:count] + [""] * (count - len(cells))


def read_parts(data: bytes, file: str, *, scale: int = 1, speed_scale: int = 1) -> Parts:
    """Reads a text, CSV or lines as its content tells. Weights and start-up work are multiplied by scale, speeds by speed_scale."""
    if not (1 <= scale <= MAX_SCALE and 1 <= speed_scale <= MAX_SCALE):
        raise ValueError(f"a scale is a whole number, 1 to {MAX_SCALE:,}")
    reader = _Reader(file, scale, speed_scale)
    try:
        reader.read(data)
    except _Wrong as wrong:
        raise wrong.error(file, reader.line) from None
    return reader.parts


def read_startup(text: str, option: str = "--startup", *, scale: int = 1) -> int:
    """Start-up work from the words of an option, by the rules of a cell."""
    quantity = QUANTITIES["startup"]
    try:
        return _number(text, quantity, scale)
    except _Wrong as wrong:
        wrong.words["allowed"] = quantity.allowed(scale)
        raise wrong.error(option, None) from None


# Joining


def _only(what: str, parts: Sequence[Parts], having: list[Parts]) -> Parts:
    """The one text that has tiles, or machines."""
    files = ", ".join(part.file for part in parts) or "no text"
    if not having:
        raise _Wrong(f"{what}-missing").error(files, None)
    if len(having) > 1:
        raise _Wrong(f"{what}-double", other=having[0].file).error(having[1].file, None)
    return having[0]


def _only_startup(parts: Sequence[Parts], startup: int | None) -> int | None:
    """The start-up work, which the option or one text gives, or nothing."""
    given = [] if startup is None else [("--startup", read_startup(str(startup)))]
    given += [(part.file, part.startup) for part in parts if part.startup is not None]
    if len(given) > 1:
        raise _Wrong("startup-double", other=given[0][0]).error(given[1][0], None)
    return given[0][1] if given else None


def join(parts: Sequence[Parts], *, startup: int | None = None) -> Job:
    """The job of a text with tiles and machines, or of one with tiles and one with machines, in any order."""
    tiles = _only("tiles", parts, [part for part in parts if part.has_tiles]).tiles
    machines = _only("machines", parts, [part for part in parts if part.has_machines]).machines
    return Job(
        weights=tuple(weight for _, weight in tiles),
        speeds=tuple(speed for _, speed, _ in machines),
        holds=tuple(hold for _, _, hold in machines),
        startup=_only_startup(parts, startup),
        tile_names=tuple(name for name, _ in tiles),
        machine_names=tuple(name for name, _, _ in machines),
    )


# Writing


def _written(name: str, special: str) -> str:
    """A name as it is read back: in quotes if it has a special character or a quote, blanks at an end, or # in front."""
    try:
        _name(name)
    except _Wrong as wrong:
        raise ValueError(str(wrong.error("a name that cannot be written", None))) from None
    if name[0] == "#" or name.strip(BLANKS) != name or any(character in name for character in special + '"'):
        return '"' + name.replace('"', '""') + '"'
    return name


def to_csv(job: Job) -> str:
    """The job as one CSV with both, without the columns that it does not need. A name that no text can have is a ValueError."""
    second, held = job.startup is not None, any(job.holds)
    rows = [["kind", "name", "startup", "speed", "hold", "weight"]]
    if second:
        rows.append(["startup", "", str(job.startup), "", "", ""])
    for name, speed, hold in zip(job.machine_names, job.speeds, job.holds):
        rows.append(["machine", _written(name, ",;\t"), "", str(speed), str(hold), ""])
    for name, weight in zip(job.tile_names, job.weights):
        rows.append(["tile", _written(name, ",;\t"), "", "", "", str(weight)])
    kept = [at for at in range(6) if (at != 2 or second) and (at != 4 or held)]
    return "".join(",".join(row[at] for at in kept) + "\n" for row in rows)


def to_lines(job: Job) -> str:
    """The job in the line format. A name that no text can have is a ValueError."""
    lines = [] if job.startup is None else [f"startup {job.startup}"]
    for name, speed, hold in zip(job.machine_names, job.speeds, job.holds):
        lines.append(f"machine {_written(name, BLANKS)} {speed}" + (f" {hold}" if hold else ""))
    if not job.speeds:
        lines.append("no machines")
    for name, weight in zip(job.tile_names, job.weights):
        lines.append(f"tile {_written(name, BLANKS)} {weight}")
    if not job.weights:
        lines.append("no tiles")
    return "".join(line + "\n" for line in lines)
