"""Rows as scripts/ask shows them: a table, CSV, or the text as it is."""
import csv
import io
import json
import time
import unicodedata

# a table's widths are those of the rows that come first: so many, or those of so many seconds; a longer cell only moves its own row
FIRST_ROWS, FIRST_SECONDS, WIDEST = 1000, 0.5, 60


def printable(text):
    """A text on one line: a control character is written as an escape, so that it does nothing to a terminal."""
    return "".join(ascii(it)[1:-1] if unicodedata.category(it) in ("Cc", "Zl", "Zp") else it for it in text)


def width(text):
    """How many columns of a terminal a text takes."""
    return sum(0 if unicodedata.combining(it) else 2 if unicodedata.east_asian_width(it) in "WF" else 1 for it in text)


def cell(term):
    """A term in a table: an IRI in angle brackets, a literal's text with its tag, and nothing where a variable is unbound."""
    if not term:
        return ""
    if term["type"] == "uri":
        return f"<{printable(term['value'])}>"
    if term["type"] == "bnode":
        return f"_:{term['value']}"
    tag = term.get("xml:lang")
    return printable(term["value"]) + (f"@{tag}" if tag else "")


def field(term):
    """A term in CSV (SPARQL 1.1 Query Results CSV and TSV Formats, section 3)."""
    if not term:
        return ""
    return f"_:{term['value']}" if term["type"] == "bnode" else term["value"]


class Plain:
    """The text as it is."""

    def __init__(self, write):
        self.write, self.rows = write, -1

    def feed(self, piece):
        self.rows += piece.count(b"\n")
        self.write(piece)

    def tick(self):
        pass

    def end(self):
        pass


class Rows:
    """What reads the text of results, a line at a time, and writes each row as soon as its line is whole."""

    def __init__(self, write):
        self.put, self.rest, self.names, self.rows = write, b"", None, 0

    def write(self, text):
        self.put(text.encode("utf-8"))

    def feed(self, piece):
        *lines, self.rest = (self.rest + piece).split(b"\n")
        for line in lines:
            self.line(line)

    def line(self, line):
        if self.names is None:
            self.names = json.loads(line + b"]}}")["head"]["vars"]
            self.head()
        elif line.startswith(b"{"):
            self.rows += 1
            self.row(json.loads(line.removesuffix(b",")))

    def tick(self):
        pass

    def end(self):
        pass


class Csv(Rows):
    def texts(self, texts):
        line = io.StringIO()
        csv.writer(line, lineterminator="\r\n").writerow(texts)
        self.write(line.getvalue())

    def head(self):
        self.texts(self.names)

    def row(self, row):
        self.texts([field(row.get(it)) for it in self.names])


class Table(Rows):
    def __init__(self, write):
        super().__init__(write)
        self.first, self.began, self.widths = [], None, None

    def head(self):
        self.began = time.monotonic()

    def row(self, row):
        cells = [cell(row.get(it)) for it in self.names]
        if self.widths is None:
            self.first.append(cells)
            if len(self.first) >= FIRST_ROWS:
                self.settle()
        else:
            self.cells(cells)

    def cells(self, cells):
        padded = [it + " " * (wide - width(it)) for it, wide in zip(cells, self.widths)]
        self.write("  ".join(padded).rstrip(" ") + "\n")

    def settle(self):
        """Settles the widths, and writes the head and the rows so far."""
        columns = zip(self.names, *self.first)
        self.widths = [min(WIDEST, max(map(width, it))) for it in columns]
        self.cells(self.names)
        self.cells(["-" * it for it in self.widths])
        for it in self.first:
            self.cells(it)
        self.first = []

    def tick(self):
        if self.widths is None and self.first and time.monotonic() - self.began >= FIRST_SECONDS:
            self.settle()

    def end(self):
        if self.widths is None and self.names is not None:
            self.settle()
