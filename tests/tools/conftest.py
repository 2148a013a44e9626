"""What the tests of this folder share: the journal of a day, which no venue has to write."""
import pytest

import days
from gikvand import journals
from made_journals import JOURNAL, Made, put


@pytest.fixture
def journal(programs: None) -> Made:
    """Makes the journal of a day in the test's folder, with its symbols beside it."""
    put(f"{JOURNAL}.symbols", b"ABC XYZ\n")
    put(JOURNAL, days.made(journals.MADE).data)
    return days.made(journals.MADE)
