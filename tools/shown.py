"""Texts from outside, as names, in a form that is safe on a terminal: as the program shows a PATH (docs/REFERENCE.md, "Reasons")."""

import unicodedata

# Controls, format characters (those that turn the text's direction among them), halves of pairs, and the ends of lines and paragraphs.
UNSEEN = {"Cc", "Cf", "Cs", "Zl", "Zp"}


def shown(text):
    """A name or a path, a text or bytes, on one line in which each character is seen.

    What can't be seen is `\\u{..}` with its number in hex, and so is a blank that is no space, and a space at an end. A byte that isn't
    UTF-8 is `\\xhh`, and `\\` is doubled. So no name writes on the terminal or looks like another."""
    if isinstance(text, bytes):
        text = text.decode("utf-8", "surrogateescape")
    if text.isprintable() and "\\" not in text and text == text.strip():
        return text
    ends = len(text) - len(text.lstrip()), len(text.rstrip())
    return "".join(shown_character(it, ends[0] <= at < ends[1]) for at, it in enumerate(text))


def shown_character(it, is_inner):
    """One character; a space is seen between others."""
    if "\udc80" <= it <= "\udcff":
        return f"\\x{ord(it) - 0xDC00:02x}"
    if it == "\\":
        return "\\\\"
    is_seen = is_inner if it == " " else not it.isspace() and unicodedata.category(it) not in UNSEEN
    return it if is_seen else f"\\u{{{ord(it):x}}}"
