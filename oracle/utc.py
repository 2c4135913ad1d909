"""Times of UTC as words, read by the calendar of Python."""
import re
from datetime import datetime, timedelta, timezone

EPOCH = datetime(1980, 1, 6, tzinfo=timezone.utc)
TIME = re.compile(r"\d{4}-\d\d-\d\dT\d\d:\d\d:\d\d\.\d{3}Z", re.ASCII)


def ms_of(word, leap=0):
    """The milliseconds since 1980-01-06T00:00Z of a time of UTC, in a time that is so many seconds ahead of it, or None."""
    if not TIME.fullmatch(word):
        return None
    try:
        time = datetime.strptime(word[:-1] + "000+0000", "%Y-%m-%dT%H:%M:%S.%f%z")
    except ValueError:
        return None
    return None if time < EPOCH else (time - EPOCH) // timedelta(milliseconds=1) + 1000 * leap
