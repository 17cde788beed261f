"""The fixture of pytest for tests of toolkits and compositors."""
from typing import Iterator

import pytest

from inputflinger.judge import Judge


@pytest.fixture
def inputflinger_judge() -> Iterator[Judge]:
    """A judge of the messages that a window is sent in the test. A message that is not allowed raises Broken, and the test fails if something is still
    down when it ends."""
    with Judge() as judge:
        yield judge
        if not judge.is_whole():
            pytest.fail("still down at the end: pointers %s, keys %s" % (judge.state().ids, judge.keys_down()))
