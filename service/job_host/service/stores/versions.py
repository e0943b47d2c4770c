"""Versions of a store's tables: 1, 2, .. Tables that have no version are of version 0, or aren't there yet."""

from __future__ import annotations


class LaterVersion(Exception):
    """The tables are of a later version than this program's. Nothing was changed."""

    def __init__(self, store: str, version: int, own: int) -> None:
        cure = "run the jobhost that made them so, or restore a backup from before that"
        super().__init__(f"the tables of {store} have version {version}, and this jobhost knows up to version {own}: {cure}")
