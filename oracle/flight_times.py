#!/usr/bin/env python3
"""The instants of the six-hours files, in milliseconds since the GPS epoch, in whole numbers.

They are expected values of `crates/edge_cases/src/files.rt`. UTC is read as civil time, GPS time is ahead of it by
the leap seconds of the limits, and the almanac's time of applicability is second 405504 of week 2338."""

from datetime import datetime, timedelta

EPOCH = datetime(1980, 1, 6)
LEAP = 18


def gps_ms(text):
    return (datetime.fromisoformat(text) - EPOCH) // timedelta(milliseconds=1) + 1000 * LEAP


for name, text in [
    ("flight's first millisecond", "2024-10-27T06:00:00"),
    ("flight's end", "2024-10-27T12:00:00"),
    ("first outage's start", "2024-10-27T05:30:00"),
    ("first outage's end", "2024-10-27T09:45:00"),
    ("second outage's start", "2024-10-27T11:00:00"),
]:
    print(f"{name}: {gps_ms(text)}")
print(f"time of applicability: {(2338 * 604800 + 405504) * 1000}")
