"""Shows texts that others have written: a command, an output, the name of a file, the reason of a
cancel.

Such a text may contain characters that move a terminal's cursor, set its title, or change the
direction of writing. Each of them is shown as an escape.
"""

from __future__ import annotations

import unicodedata

# Characters that do something else than to be seen: controls, directions, lone surrogates.
UNSEEN = ("Cc", "Cf", "Cs", "Zl", "Zp")


def plain(text: str) -> str:
    """A text to be seen only: `\\xff` for a byte that isn't UTF-8, `\\x1b` for an escape."""
    if text.isascii() and text.isprintable():
        return text
    return "".join(it if it == "\t" or unicodedata.category(it) not in UNSEEN else escaped(it)
                   for it in text)


def plain_lines(text: str) -> str:
    """The same of a text of several lines, which stay lines."""
    return "\n".join(map(plain, text.split("\n")))


def one_line(text: str) -> str:
    """A command of several lines, as it is shown in one."""
    return text.replace("\n", "\\n")


def escaped(character: str) -> str:
    code = ord(character)
    if 0xDC80 <= code <= 0xDCFF:
        return f"\\x{code - 0xDC00:02x}"
    if code < 0x100:
        return f"\\x{code:02x}"
    return f"\\u{code:04x}" if code < 0x10000 else f"\\U{code:08x}"
