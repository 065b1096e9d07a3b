"""The lines of a text file as words, with every byte that does not belong there said by its line.

Words are parted by blanks and tabs. A word that begins with # begins a comment, to the line's end; a comment may hold UTF-8, the rest is ASCII.
A line may end with CR LF.
"""
import os
from dataclasses import dataclass

from faults import Fault, one_fault, shown
from limits import LONGEST_TEXT


@dataclass(frozen=True)
class Line:
    where: str
    words: list


def read_bytes(path, most):
    """A whole file of at most so many bytes."""
    if os.path.isdir(path):
        raise one_fault(path, "is a folder; a file is wanted here")
    try:
        with open(path, "rb") as file:
            data = file.read(most + 1)
    except FileNotFoundError:
        raise one_fault(path, "there is no such file") from None
    except OSError as error:
        raise one_fault(path, f"cannot be read: {error.strerror}") from None
    if len(data) > most:
        raise one_fault(path, f"is longer than {most} bytes, which is all that is read")
    return data


def lines_of(data, name, faults):
    """The lines that say something."""
    if data[:2] in (b"\xff\xfe", b"\xfe\xff"):
        faults.append(Fault(f"{name}:1", "the text is in UTF-16; save it as plain ASCII or UTF-8"))
        return []
    if data.startswith(b"\xef\xbb\xbf"):
        faults.append(Fault(f"{name}:1", "the text begins with a byte order mark; save it without one"))
        data = data[3:]
    found = []
    for number, raw in enumerate(data.split(b"\n"), 1):
        where = f"{name}:{number}"
        words, fault = words_of(raw[:-1] if raw.endswith(b"\r") else raw)
        if fault:
            faults.append(Fault(where, fault))
        elif words:
            found.append(Line(where, words))
    return found


def words_of(raw):
    """The words of a line before its comment, or what is wrong with its bytes."""
    control = next((byte for byte in raw if byte == 127 or byte < 32 and byte != 9), None)
    if control is not None:
        return [], f"byte {control} has no place in a text; remove it"
    said, comment = parted(raw)
    if not said.isascii():
        word = next(word for word in said.split() if not word.isascii())
        return [], f"{shown(word.decode('utf-8', 'backslashreplace'))} is not ASCII; only a comment may hold other letters"
    try:
        comment.decode("utf-8")
    except UnicodeDecodeError:
        return [], "the comment is not UTF-8; save the text as UTF-8"
    return said.decode("ascii").split(), None


def parted(raw):
    """A line up to its comment, and the comment."""
    at = raw.find(b"#")
    while at > 0 and raw[at - 1] not in b" \t":
        at = raw.find(b"#", at + 1)
    return (raw, b"") if at < 0 else (raw[:at], raw[at:])


def read_text(path, faults):
    return lines_of(read_bytes(path, LONGEST_TEXT), path, faults)
