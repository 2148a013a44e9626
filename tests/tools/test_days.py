"""Tests of days.py: a venue that listens writes the same journal of a day, and its members hear the same reports."""
import pytest

import days
import made_journals
from gikvand import journals

pytestmark = [pytest.mark.slow, pytest.mark.soak, pytest.mark.usefixtures("programs")]


@pytest.mark.parametrize("version", journals.VERSIONS)
def test_days_of_a_venue(version: int) -> None:
    assert days.made(version) == made_journals.made(version)
