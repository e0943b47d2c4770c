"""A catalogue's line has the tokens of its file, and its values have the places of the file."""

from __future__ import annotations

import json
from typing import Any

import pytest

from job_host.catalogue.text import WIDTH, NotJson, Reader, Source, Value, decoded, laid_out, one_line, plain


@pytest.mark.parametrize(
    ("text", "line"),
    [
        ('{ "a" :\n [ 1 ,\t2 ] }\r\n', '{"a":[1,2]}'),
        ('{"a b":"c  d\\" e"}', '{"a b":"c  d\\" e"}'),
        ("[1 2]", "[1 2]"),
        ("tr ue", "tr ue"),
        ("- \n 1", "- 1"),
        ('"a\nb"', '"a\rb"'),
        ('"a\\\nb"', '"a\\\rb"'),
        ('{"a": "b\n', '{"a":"b\r'),
        ('["\\', '["\\'),
        ("[NaN, 1e400, 007]", "[NaN,1e400,007]"),
        ("\ufeff []", "\ufeff[]"),
        ("", ""),
        (" \n ", ""),
    ],
)
def test_a_line_has_the_tokens_of_the_file(text: str, line: str) -> None:
    assert one_line(text.encode()) == line.encode()


def test_bytes_that_are_no_text_stay_as_they_are() -> None:
    assert one_line(b'{ "\xff" : \x00 }') == b'{"\xff":\x00}'


@pytest.mark.parametrize(
    "text", ['{"a": [1, 2.5, -0, "x\\u00e9\\ud834\\udd1e", true, null], "b": {}, "a": [[]]}', " 7 ", '"\u2028"']
)
def test_values_are_those_of_json(text: str) -> None:
    assert plain(Reader(text).read()) == json.loads(text)


def test_a_whole_number_is_one_without_sign_point_and_exponent() -> None:
    numbers = [value.held for value in Reader("[0, 18446744073709551615, 18446744073709551616, -1, 1.0, 1e2]").read().items]
    assert [type(number) for number in numbers] == [int, int, float, float, float, float]


def test_of_a_member_that_comes_twice_the_last_counts_and_the_first_is_kept_as_a_place() -> None:
    value = Reader('{"a": 1, "\\u0061": 2}').read()
    assert plain(value) == {"a": 2}
    assert value.held.repeated == [("a", 1)]  # type: ignore[union-attr]


@pytest.mark.parametrize(
    ("text", "place", "expected", "found"),
    [
        ('{"a":1,}', "1:7", "no comma in front of `}`", "`,`"),
        ("[1\n 2]", "2:2", "`,` or `]`", "`2`"),
        ("{a:1}", "1:2", "a member's name between quotation marks", "`a`"),
        ('{"a" 1}', "1:6", "`:`", "`1`"),
        ("[True]", "1:2", "a value", "`True`"),
        ("[NaN]", "1:2", "a value", "`NaN`"),
        ("// x", "1:1", "a value", "`//`"),
        ('"a\nb"', "1:3", 'no control character in a text, or `"` in front of it', "the character U+000A"),
        ('["a', "1:2", 'a text that ends with `"`', "one that doesn't end"),
        ('"\\ud800"', "1:2", "a pair of surrogates", '`\\ud800"`'),
        ('"\\x41"', "1:2", 'one of \\" \\\\ \\/ \\b \\f \\n \\r \\t \\uXXXX', '`\\x41"`'),
        ("[1e400]", "1:2", "a number that 64 bits of floating point hold", "`1e400`"),
        ("01", "1:2", "the end of the file", "`1`"),
        ("[] x", "1:4", "the end of the file", "`x`"),
        ("", "1:1", "a value", "the end of the file"),
        ("\ufeff{}", "1:1", "a file without a byte order mark", "one"),
        ("[" * 128, "1:128", "lists and objects nested 127 deep at most", "one more"),
    ],
)
def test_where_a_text_stops_being_json(text: str, place: str, expected: str, found: str) -> None:
    with pytest.raises(NotJson) as fault:
        Reader(text).read()
    assert (str(Source("f", text).place(fault.value.at)), fault.value.expected, fault.value.found) == (place, expected, found)


def test_the_likely_word_for_a_literal_of_another_language() -> None:
    with pytest.raises(NotJson) as fault:
        Reader("[None]").read()
    assert fault.value.likely == "null"


def test_a_byte_that_is_not_utf_8_has_its_place() -> None:
    text, fault = decoded('{"é": "'.encode() + b"\xff")
    assert fault is not None and fault.found == "the byte 0xff"
    assert str(Source("f", text).place(fault.at)) == "1:8"


@pytest.mark.parametrize("end", ["\n", "\r\n", "\r"])
def test_columns_are_characters_whatever_ends_a_line(end: str) -> None:
    source = Source("f", f"a{end}é𝄞b")
    assert str(source.place(source.text.index("b"))) == "2:3"


def test_a_quote_is_short_and_on_one_line() -> None:
    source = Source("f", "[1,\n  2]" + " " * 100)
    assert source.quote(Value(0, 8, [])) == "[1, 2]"
    assert source.quote(Value(0, 108, [])).endswith(" ..")


@pytest.mark.parametrize(
    "value", [[], {}, 7, "é" * 200, {"a": ["x" * 70, {"é": ["y" * 70, []]}], "b": None}, [["z"] * 60, True]]
)
def test_a_layout_is_the_same_value_in_lines_that_fit(value: Any) -> None:
    text = laid_out(value)
    assert json.loads(text) == value
    assert all(len(line) <= WIDTH for line in text.splitlines()) or isinstance(value, str)


def test_what_fits_in_a_line_stands_in_one() -> None:
    value = {"jobs": [{"id": "a", "elements": ["x" * 70, "y" * 70]}]}
    lines = ["{", '  "jobs": [', "    {", '      "id": "a",']
    lines += ['      "elements": [', f'        "{"x" * 70}",', f'        "{"y" * 70}"', "      ]", "    }", "  ]", "}"]
    assert laid_out(value).splitlines() == lines
    assert laid_out({"a": [1, 2]}) == '{"a": [1, 2]}'
