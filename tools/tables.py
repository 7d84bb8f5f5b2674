"""Tables of numbers from CSV and Matrix Market files."""
import math
import re
from dataclasses import dataclass


class Unreadable(Exception):
    """The file can't be opened or read."""


class Wrong(Exception):
    """The file's contents are not what they must be."""


@dataclass
class Table:
    """`entries` are (column, row, number), in that order; of a dense table all are there."""

    rows: int
    columns: int
    entries: list
    sparse: bool


def text_of(path):
    try:
        with open(path, encoding="utf-8-sig") as file:
            return file.read()
    except OSError as error:
        raise Unreadable(f"cannot read {path}: {error.strerror}") from None
    except UnicodeDecodeError:
        raise Wrong(f"{path} is not a text file") from None


def number(word, where, hint=""):
    # Python also takes 1_000, which other programs don't.
    try:
        if "_" in word:
            raise ValueError
        return float(word)
    except ValueError:
        raise Wrong(f"{where}: {word.strip()!r} is not a number{hint}") from None


def dense(rows):
    """Rows of equal length as a table."""
    columns = len(rows[0])
    entries = [(j, i, rows[i][j]) for j in range(columns) for i in range(len(rows))]
    return Table(len(rows), columns, entries, sparse=False)


def read_csv(path, heading):
    """Numbers with commas between them; empty lines and lines that begin with # are passed over."""
    rows = []
    for line, text in enumerate(text_of(path).split("\n"), 1):
        text = text.strip()
        if not text or text.startswith("#"):
            continue
        if heading:
            heading = False
            continue
        hint = "" if rows else " (if this line holds names, use --heading)"
        words = text.split(",")
        row = [number(word, f"{path} line {line}, column {column}", hint) for column, word in enumerate(words, 1)]
        if rows and len(row) != len(rows[0]):
            raise Wrong(f"{path} line {line}: {len(row)} numbers, but {len(rows[0])} in the lines before")
        rows.append(row)
    if not rows:
        raise Wrong(f"{path} has no numbers")
    return dense(rows)


def whole(word, where):
    if not re.fullmatch(r"[0-9]{1,9}", word):
        raise Wrong(f"{where}: {word!r} is not a count")
    return int(word)


def read_matrix_market(path):
    """Coordinate form (sparse) or array form (dense); real, integer or pattern; general or symmetric."""
    lines = text_of(path).split("\n")
    head = lines[0].lower().split()
    if len(head) != 5 or head[:2] != ["%%matrixmarket", "matrix"]:
        raise Wrong(f"{path} line 1: a Matrix Market file begins with %%MatrixMarket matrix, then three words")
    form, kind, symmetry = head[2:]
    if form not in ("coordinate", "array"):
        raise Wrong(f"{path} line 1: {form!r} is neither coordinate nor array")
    if kind not in ("real", "integer", "double", "pattern") or (kind == "pattern" and form == "array"):
        raise Wrong(f"{path} line 1: numbers of kind {kind!r} can't be used")
    if symmetry not in ("general", "symmetric"):
        raise Wrong(f"{path} line 1: {symmetry!r} is neither general nor symmetric")

    lines = [(line, text.split()) for line, text in enumerate(lines, 1) if text.strip() and text[0] != "%"]
    if not lines:
        raise Wrong(f"{path} has no line with its sizes")
    (line, words), lines = lines[0], lines[1:]
    wanted = 3 if form == "coordinate" else 2
    if len(words) != wanted:
        raise Wrong(f"{path} line {line}: {len(words)} sizes, not {wanted}")
    sizes = [whole(word, f"{path} line {line}") for word in words]
    if min(sizes[:2]) < 1:
        raise Wrong(f"{path} line {line}: the matrix is empty")
    if symmetry == "symmetric" and sizes[0] != sizes[1]:
        raise Wrong(f"{path} line {line}: a symmetric matrix has as many rows as columns")
    read = coordinates if form == "coordinate" else array
    return read(path, sizes, lines, kind == "pattern", symmetry == "symmetric")


def coordinates(path, sizes, lines, pattern, symmetric):
    rows, columns, count = sizes
    if len(lines) != count:
        raise Wrong(f"{path}: {len(lines)} entries, but its sizes say {count}")
    found = {}
    for line, words in lines:
        where = f"{path} line {line}"
        wanted = 2 if pattern else 3
        if len(words) != wanted:
            raise Wrong(f"{where}: {len(words)} words, not {wanted}")
        i, j = whole(words[0], where), whole(words[1], where)
        if not (1 <= i <= rows and 1 <= j <= columns):
            raise Wrong(f"{where}: row {i} and column {j} are outside the matrix of {rows} by {columns}")
        x = 1.0 if pattern else number(words[2], where)
        for place in {(j - 1, i - 1), (i - 1, j - 1)} if symmetric else {(j - 1, i - 1)}:
            if place in found:
                raise Wrong(f"{where}: the entry of row {i} and column {j} comes twice")
            found[place] = x
    entries = [(j, i, x) for (j, i), x in sorted(found.items())]
    return Table(rows, columns, entries, sparse=True)


def array(path, sizes, lines, _, symmetric):
    """Column by column; of a symmetric matrix the lower half."""
    rows, columns = sizes
    places = [(j, i) for j in range(columns) for i in range(j if symmetric else 0, rows)]
    words = [(line, word) for line, words in lines for word in words]
    if len(words) != len(places):
        raise Wrong(f"{path}: {len(words)} numbers, but its sizes ask for {len(places)}")
    found = {}
    for (j, i), (line, word) in zip(places, words):
        found[j, i] = number(word, f"{path} line {line}")
        if symmetric:
            found[i, j] = found[j, i]
    entries = [(j, i, x) for (j, i), x in sorted(found.items())]
    return Table(rows, columns, entries, sparse=False)


def read(path, heading=False):
    """By the ending of the file's name."""
    if path.lower().endswith((".mtx", ".mm")):
        return read_matrix_market(path)
    return read_csv(path, heading)


def column(table, path):
    """The numbers of a table with one column, or with one row."""
    if min(table.rows, table.columns) != 1:
        raise Wrong(f"{path} has {table.rows} rows and {table.columns} columns; targets are one number a line")
    numbers = [0.0] * max(table.rows, table.columns)
    for j, i, x in table.entries:
        numbers[max(i, j)] = x
    return numbers


def largest_product(table, targets):
    """The largest |X'y| / n: from this alpha on all weights are zero (for l1)."""
    products = [0.0] * table.columns
    for j, i, x in table.entries:
        products[j] += x * targets[i]
    largest = max(abs(product) for product in products) / len(targets)
    if not math.isfinite(largest):
        raise Wrong("the largest alpha is not finite; give --alpha")
    return largest
