"""What BOARD and ORDERS on the command line mean: a text, a folder of texts, or a folder of the program's own files."""
import os
from dataclasses import dataclass, field

import datafile
import limits
from boardtext import BY_NUMBER, OrderLine, good_label, namer, raise_faults, read_board, read_orders
from faults import Fault, InputFaults, one_fault
from lines import read_bytes
from model import Board


@dataclass
class Source:
    """A board and its orders, as bytes for the program and as words for people."""

    board_name: str
    board_data: bytes
    names: list  # of every part, for messages and texts
    sheet: bytes  # the name sheet that the program reads
    board: Board = None  # None where the design file cannot be read
    lines: dict = field(default_factory=dict)  # where the board says what, see BoardText
    fields: list = field(default_factory=list)  # the numbers of the design file
    orders_name: str = None
    orders: list = field(default_factory=list)  # of OrderLine, as far as they can be read
    orders_data: bytes = b""
    order_fields: list = field(default_factory=list)
    read_to: int = 0  # the byte up to which the orders can be read
    faults: list = field(default_factory=list)  # of binary files, which the program judges itself
    notes: list = field(default_factory=list)

    def name(self, part):
        return namer(self.names)(part)

    @property
    def rule(self):
        """The rule that a load names; the program names A."""
        return self.board.rule if self.board else "A"


def source_of(board_path, orders_path=None):
    """Reads everything that is named; every fault of the texts at once."""
    board_path, orders_path, notes = files_of(board_path, orders_path)
    if board_path.endswith(".dat"):
        source, board_faults = binary_board(board_path), []
    else:
        source, board_faults = text_board(board_path)
    source.notes = notes + source.notes
    try:
        order_faults = take_orders(source, orders_path) if orders_path else []
    except InputFaults as missing:
        order_faults = missing.faults
    raise_faults(board_faults, order_faults)
    return source


def files_of(board_path, orders_path):
    """The files that are meant; a folder has fixed names."""
    if not os.path.isdir(board_path):
        if not os.path.exists(board_path):
            raise one_fault(board_path, "there is no such file or folder")
        return board_path, orders_path, []
    inside = {name: os.path.join(board_path, name) for name in ("board.txt", "board.dat", "orders.txt", "orders.dat")}
    there = [name for name, path in inside.items() if os.path.exists(path)]
    kind = next((kind for kind in (".txt", ".dat") if "board" + kind in there), None)
    if kind is None:
        raise one_fault(board_path, "the folder has neither board.txt nor board.dat")
    if orders_path is None and "orders" + kind in there:
        orders_path = inside["orders" + kind]
    notes = [Fault(inside[name], f"is not read; board{kind} beside it is") for name in there if not name.endswith(kind)]
    return inside["board" + kind], orders_path, notes


# ---- texts


def text_board(path):
    said, faults = read_board(read_bytes(path, limits.LONGEST_TEXT), path)
    if faults:
        return Source(path, b"", said.names, b""), faults
    source = Source(path, datafile.board_bytes(said.board), said.names, sheet_of(said.names), said.board, said.lines)
    reader = datafile.Reader(source.board_data, path)
    reader.board(source.name)
    source.fields = reader.fields
    return source, []


def sheet_of(names):
    return "".join(name + "\n" for name in names).encode("ascii")


def take_orders(source, path):
    """Reads the orders into the source; gives the faults of a text."""
    source.orders_name = path
    if path.endswith(".dat"):
        source.orders_data = read_bytes(path, limits.READS["orders.dat"])
        binary_orders(source)
        return []
    source.orders, faults = read_orders(read_bytes(path, limits.LONGEST_TEXT), source.names, path)
    return faults + pack_orders(source)


def pack_orders(source):
    """The orders as a stream, which the program must be able to read whole."""
    most, rows = limits.READS["orders.dat"], []
    length = 0
    for line in source.orders:
        rows.append(datafile.order_bytes(line.order))
        length += len(rows[-1])
        if length > most:
            words = f"with this order the stream passes {most} bytes, and the program reads no more; put it and the orders after it into another run"
            return [Fault(line.where, words)]
    source.orders_data, source.read_to = b"".join(rows), length
    reader = datafile.Reader(source.orders_data, source.orders_name)
    for k in range(1, len(rows) + 1):
        reader.order(k)
    source.order_fields = reader.fields
    return []


# ---- the program's own files


def binary_board(path):
    """A design file as it is. What is wrong with it the program says; the first fault is kept for `check` and `unpack`."""
    data = read_bytes(path, limits.READS["board.dat"])
    sheet_path = os.path.join(os.path.dirname(path), "names.txt")
    sheet = read_bytes(sheet_path, limits.READS["names.txt"]) if os.path.exists(sheet_path) else b""
    names, notes = labels_of(sheet, limits.MOST_PARTS, sheet_path)
    source = Source(path, data, names, sheet)
    reader = datafile.Reader(data, path)
    try:
        source.board = reader.board(source.name)
    except InputFaults as fault:
        source.faults += fault.faults
    source.fields = reader.fields
    if source.board is not None:
        source.names = names[: len(source.board.curves)]
        source.notes = [note for note in notes[: len(source.names)] if note]
        if not sheet:
            source.notes = [Fault(sheet_path, "there are no names; parts are called P0, P1 and so on here")]
        source.lines = lines_of_fields(reader.fields, list(source.board.links), path)
    return source


def lines_of_fields(fields, links, path):
    """Where a design file says what: the first byte of each."""
    lines = {}
    for item in fields:
        key = ("link",) + links[item.key[1] - 1] if isinstance(item.key, tuple) and item.key[0] == "link" else item.key
        lines.setdefault(key, f"{path}: byte {item.at}")
    return lines


def binary_orders(source):
    """The orders of a stream up to the first that cannot be read."""
    reader = datafile.Reader(source.orders_data, source.orders_name)
    while reader.left():
        at = reader.at
        try:
            order = reader.order(len(source.orders) + 1)
        except InputFaults as fault:
            source.faults += fault.faults
            break
        source.orders.append(OrderLine(order, f"{source.orders_name}: byte {at}"))
        source.read_to = reader.at
    source.order_fields = reader.fields


def labels_of(sheet, count, path):
    """A name for each part, and beside it a note where the sheet's cannot be had: P and its number then."""
    lines = sheet.decode("latin-1").split("\n")
    labels, notes = [], []
    for part in range(count):
        label = lines[part] if part < len(lines) else ""
        why = label_fault(label, labels)
        if why:
            spare = f"P{part}"
            while spare in labels or spare in lines:
                spare += "'"
            notes.append(Fault(f"{path}:{part + 1}", f"{why}; part {part} is called {spare} here"))
            label = spare
        else:
            notes.append(None)
        labels.append(label)
    return labels, notes


def label_fault(label, before):
    if not label:
        return "no name"
    if not good_label(label):
        return f"{label!r} is no good label"
    if label.startswith("#") or BY_NUMBER.match(label):
        return f"{label!r} means something else in a text"
    return f"{label!r} is a part's name already" if label in before else None
