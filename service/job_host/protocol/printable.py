"""Texts as they may be shown: what would act on a terminal is written out. Also the logs of this program."""

from __future__ import annotations

import logging
import unicodedata


def printable(text: str) -> str:
    """A text in one line, with its control characters written out, so that it can't act on a terminal."""
    return "".join(mark if mark.isprintable() else written_out(mark) for mark in text)


def printable_lines(text: str) -> str:
    """A text of several lines, as a log. Line feeds, tabs and spaces stay."""
    return "".join(mark if stays(mark) else written_out(mark) for mark in text.replace("\r\n", "\n"))


def stays(mark: str) -> bool:
    return mark.isprintable() or mark in "\n\t" or unicodedata.category(mark) == "Zs"


def written_out(mark: str) -> str:
    return f"\\u{ord(mark):04x}"


class PrintableFormatter(logging.Formatter):
    """A log may tell what a client or a service has sent."""

    def format(self, record: logging.LogRecord) -> str:
        return printable_lines(super().format(record))


def begin_log(name: str) -> None:
    """Writes warnings and errors to standard error, each with its time and the program's name."""
    handler = logging.StreamHandler()
    handler.setFormatter(PrintableFormatter(f"%(asctime)s {name}: %(message)s"))
    logging.basicConfig(level=logging.WARNING, handlers=[handler])
