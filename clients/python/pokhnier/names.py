"""The names and texts of a store. `clients/README.md` of the sources describes them."""

from __future__ import annotations

import hashlib
import re

GROUP = re.compile(r"(?!_)(?!night\Z)(?!.*--)[a-z0-9_-]{1,20}\Z")
KEY = re.compile(r"[a-z0-9_-]{1,32}\Z")
# What a store says of a try that didn't fail.
NO_ERROR = re.compile(r"(withdrawn|interrupted)\Z|canceled: ")
UPPER = str.maketrans("ABCDEFGHIJKLMNOPQRSTUVWXYZ", "abcdefghijklmnopqrstuvwxyz")
LONGEST = 64


def group_name(text: str) -> str:
    """The name of a group for any text."""
    return text if GROUP.match(text) else hashed(text, 9, 10)


def key_name(text: str) -> str:
    """The key of a task for any text."""
    return text if KEY.match(text) else hashed(text, 19, 12)


def hashed(text: str, kept: int, digits: int) -> str:
    """What is readable of a text, and some digits of its hash."""
    readable = re.sub(r"[^a-z0-9_]+", "-", text.translate(UPPER)).strip("-")[:kept].rstrip("-")
    return f"{readable}_{hashlib.sha256(bytes_of(text)).hexdigest()[:digits]}"


def bytes_of(text: str) -> bytes:
    """The text in UTF-8. The name of a file that isn't in UTF-8 has its own bytes."""
    try:
        return text.encode("utf-8", "surrogateescape")
    except UnicodeEncodeError:
        return text.encode("utf-8", "surrogatepass")


def text_of(text: str) -> str:
    """A text of the protocol for any text."""
    printable = re.sub(r"[^ -~]", "?", text)
    cut = printable if len(printable) <= LONGEST else f"{printable[:LONGEST - 2]}.."
    return cut or "error"


def error_text(text: str) -> str:
    """A text of the protocol for the text of an error. A store doesn't take it for anything
    else."""
    return text_of(f"error: {text}" if NO_ERROR.match(text_of(text)) else text)
