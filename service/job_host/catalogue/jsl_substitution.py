"""Substitution of properties (Jakarta Batch 2.1, "Job XML Substitution").

Properties of the job's own file are known here. What is known only after a start counts as not given: it is the empty text, or
the expression's default. Whoever asks is told which operators these were.
"""

from __future__ import annotations

import re
from collections.abc import Iterator, Mapping, Sequence
from dataclasses import dataclass, field, replace

JOB_PROPERTIES = "jobProperties"
LATER = ("jobParameters", "systemProperties", "partitionPlan")
OPERATORS = (JOB_PROPERTIES, *LATER)

# An expression in which another one begins is none. So nothing is looked for behind the next beginning.
EXPRESSION = re.compile(r"#\{((?:[^}#]|#(?!\{))*)\}")
BEFORE_DEFAULT, BEHIND_DEFAULT = "?:", ";"
DEFAULT = re.compile(r"(?:#\{(?:[^}#]|#(?!\{))*\}|[^;#]|#(?!\{))*")
OPERATION = re.compile(r"""\s*(\w+)\s*\[\s*(?:'([^']*)'|"([^"]*)")\s*\]\s*""")


@dataclass(frozen=True)
class Resolved:
    """A text after substitution: the operators that count as not given, names that no property has, and wrong expressions.

    `bare` are those of the operators that have no default.
    """

    text: str
    later: frozenset[str] = frozenset()
    unknown: tuple[str, ...] = ()
    wrong: tuple[str, ...] = ()
    bare: frozenset[str] = field(default=frozenset(), compare=False)


Scope = Mapping[str, Resolved]


def has_expression(text: str) -> bool:
    return "#{" in text


def resolve(text: str, scope: Scope) -> Resolved:
    """The text with each of its expressions replaced."""
    return joined([plain(one) if isinstance(one, str) else expression(*one, scope) for one in pieces(text)])


def pieces(text: str) -> Iterator[str | tuple[str, str | None]]:
    """The texts between expressions, and each expression: its operation, and its default if it has one."""
    end = without = 0
    while found := EXPRESSION.search(text, end):
        yield text[end : found.start()]
        end, default = found.end(), None
        # If a default lacks its end, those inside it lack it too, and aren't looked at again.
        if text.startswith(BEFORE_DEFAULT, end) and end >= without:
            begin = end + len(BEFORE_DEFAULT)
            without = next(DEFAULT.finditer(text, begin)).end()
            if text.startswith(BEHIND_DEFAULT, without):
                end, default = without + 1, text[begin:without]
        yield found[1], default
    yield text[end:]


def plain(text: str) -> Resolved:
    """A text between expressions. The beginning of one is wrong there."""
    return Resolved(text, wrong=(text,) if has_expression(text) else ())


def joined(parts: Sequence[Resolved]) -> Resolved:
    """All texts in turn, with what is told of them."""
    text = "".join(part.text for part in parts)
    later = frozenset(name for part in parts for name in part.later)
    unknown = tuple(name for part in parts for name in part.unknown)
    wrong = tuple(name for part in parts for name in part.wrong)
    return Resolved(text, later, unknown, wrong, frozenset(name for part in parts for name in part.bare))


def expression(operation: str, default: str | None, scope: Scope) -> Resolved:
    """What an expression comes to. Its default counts if it comes to the empty text."""
    principal = operand(operation, scope)
    if principal.text or default is None:
        return principal
    return joined([replace(principal, bare=frozenset()), resolve(default, scope)])


def operation_of(operation: str) -> tuple[str, str] | None:
    """The operator and the name of an operation, if it is one."""
    found = OPERATION.fullmatch(operation)
    if found is None or found[1] not in OPERATORS:
        return None
    return found[1], found[2] if found[2] is not None else found[3]


def operand(operation: str, scope: Scope) -> Resolved:
    found = operation_of(operation)
    if found is None:
        return Resolved("", wrong=("#{" + operation + "}",))
    operator, name = found
    if operator in LATER:
        return Resolved("", later=frozenset({operator}), bare=frozenset({operator}))
    return scope[name] if name in scope else Resolved("", unknown=(name,))
