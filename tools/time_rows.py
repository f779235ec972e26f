#!/usr/bin/env python3
"""Writes the times that `part_tests` compares with, by Python's `datetime` and `calendar`.

    python3 tools/time_rows.py > crates/part_tests/src/time_rows.rt
"""
import argparse
import calendar
from datetime import datetime, timedelta, timezone

UTC = timezone.utc
LEAST, MOST = 946_684_800, 4_102_444_799


def seconds(moment):
    return int(moment.timestamp())


def text(moment, quarters=0, sign="+", tenths=0):
    return moment.strftime("%y%m%d%H%M%S") + f"{tenths}{quarters:02d}{sign}"


def absolute():
    for year in (2000, 2023, 2024, 2096):
        for month in range(1, 13):
            last = datetime(year, month, calendar.monthrange(year, month)[1], 23, 59, 59, tzinfo=UTC)
            yield text(last), seconds(last)
    noon = datetime(2024, 2, 29, 12, tzinfo=UTC)
    for quarters in range(49):
        away = timedelta(minutes=15 * quarters)
        yield text(noon, quarters, "+"), seconds(noon - away)
        yield text(noon, quarters, "-"), seconds(noon + away)
    yield text(noon, tenths=7), seconds(noon)
    for end in (LEAST, MOST):
        yield text(datetime.fromtimestamp(end, UTC)), end


def later(now, years, months, days, clock):
    """`now` so many months later, the day cut to the month's last, then days, then the time."""
    total = 12 * now.year + now.month - 1 + 12 * years + months
    year, month = total // 12, total % 12 + 1
    day = min(now.day, calendar.monthrange(year, month)[1])
    return now.replace(year=year, month=month, day=day) + timedelta(days=days) + clock


def relative():
    starts = [
        datetime(2024, 1, 31, tzinfo=UTC), datetime(2023, 12, 31, 23, 59, 59, tzinfo=UTC), datetime(2024, 2, 29, 1, 2, 3, tzinfo=UTC),
        datetime(2000, 1, 1, tzinfo=UTC),
    ]
    spans = [
        (0, 0, 0, 0, 0, 0), (0, 1, 0, 0, 0, 0), (0, 2, 0, 0, 0, 0), (1, 0, 0, 0, 0, 0), (1, 1, 1, 1, 1, 1), (2, 6, 10, 23, 34, 29), (4, 0, 0, 0, 0, 0),
        (0, 99, 99, 99, 99, 99), (0, 0, 0, 0, 1, 0),
    ]
    for now in starts:
        for years, months, days, hours, minutes, secs in spans:
            clock = timedelta(hours=hours, minutes=minutes, seconds=secs)
            yield seconds(now), f"{years:02d}{months:02d}{days:02d}{hours:02d}{minutes:02d}{secs:02d}000R", seconds(later(now, years, months, days, clock))


def rows(name, lines):
    print(f'\npub const {name}: &str = "\\')
    for line in lines:
        print(" ".join(str(part) for part in line) + "\\n\\")
    print('";')


def main():
    argparse.ArgumentParser(description=__doc__, formatter_class=argparse.RawDescriptionHelpFormatter).parse_args()
    print("//! Times by Python's `datetime` and `calendar`: written by `tools/time_rows.py`.")
    print("\n// A line each: an absolute time, and its seconds since 1970.")
    rows("ABSOLUTE", absolute())
    print("\n// A line each: a moment, a relative time, and the moment that it names then.")
    rows("RELATIVE", relative())


if __name__ == "__main__":
    main()
