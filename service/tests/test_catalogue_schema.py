"""The schema of catalogues takes what batchctl takes, and no object whose members batchctl refuses."""

from __future__ import annotations

import json
import random

import pytest
from catalogue_samples import BATCHCTL, catalogues_of_the_repository
from jsonschema import Draft202012Validator  # type: ignore[import]
from random_catalogues import random_catalogue

from job_host.catalogue.verdicts import ask
from job_host.catalogue.schema import schema_of_catalogues
from job_host.catalogue.text import one_line

VALIDATOR = Draft202012Validator(schema_of_catalogues())
OF_MEMBERS = ("BadElement", "NotACatalogue")


def test_it_is_a_schema() -> None:
    Draft202012Validator.check_schema(schema_of_catalogues())


def test_catalogues_of_the_repository_are_valid() -> None:
    for data in catalogues_of_the_repository():
        if ask(BATCHCTL, one_line(data)).answer is None:
            assert VALIDATOR.is_valid(json.loads(data))


@pytest.mark.parametrize("seed", range(60))
def test_random_catalogues(seed: int) -> None:
    data = random_catalogue(random.Random(seed)).data
    answer = ask(BATCHCTL, one_line(data)).answer
    try:
        catalogue = json.loads(data)
    except ValueError:
        return
    if answer is None or answer["fault"] in OF_MEMBERS:
        assert VALIDATOR.is_valid(catalogue) == (answer is None)
