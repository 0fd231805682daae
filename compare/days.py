#!/usr/bin/env python3
"""The calendar by Python's datetime, as one checksum over every day of the years 1 to 9999.

For each day in order the checksum takes up, each by h = (h * 1099511628211 + x + 1) mod 2^64 from h = 0: the Julian day number, the
year, the month, the day, the weekday (Sunday 0), the ISO year, the ISO week, the ISO weekday (Monday 1), the day of the year, and the
days since 1970-01-01 in two's complement.
"""
from datetime import date

JULIAN_OF_ORDINAL_0 = 1721425
EPOCH = date(1970, 1, 1).toordinal()

count = 0
h = 0
for year in range(1, 10000):
    before = date(year, 1, 1).toordinal() - 1
    for ordinal in range(before + 1, date(year, 12, 31).toordinal() + 1):
        day = date.fromordinal(ordinal)
        iso_year, iso_week, iso_weekday = day.isocalendar()
        for x in (
            ordinal + JULIAN_OF_ORDINAL_0,
            day.year,
            day.month,
            day.day,
            iso_weekday % 7,
            iso_year,
            iso_week,
            iso_weekday,
            ordinal - before,
            ordinal - EPOCH,
        ):
            h = (h * 1099511628211 + x + 1) & 0xFFFFFFFFFFFFFFFF
        count += 1
print(f"days {count} checksum {h}")
