#!/usr/bin/env python3
"""Prints tests/month_days by Python's own calendar: which days a month has, without a year and in five years.

A line has month and day, and for each year of the second line (- is none) two answers with a stroke between them:
without the strict setting, and with it. An answer is 0 for accepted, or the refusal's number. Without a year, and in
year 0000, which counts as none, every day is accepted without the setting; with it a day is refused with 25 if its
month has it in no year. In the other years a day that the month has not is refused with 15 either way.
"""
import calendar

YEARS = ["-", "0000", "2023", "2024", "1900", "2000"]
CYCLE = range(2000, 2400)


def length(year, month):
    return calendar.monthrange(year, month)[1]


def answers(year, month, day):
    """Without the strict setting, and with it."""
    if year in ("-", "0000"):
        ever = any(day <= length(each, month) for each in CYCLE)
        return (0, 0 if ever else 25)
    return (0, 0) if day <= length(int(year), month) else (15, 15)


def main():
    print("# made by tests/month_days.py, which explains it")
    print("# month day", *YEARS)
    for month in range(1, 13):
        for day in range(1, 32):
            print(month, day, *("%d/%d" % answers(year, month, day) for year in YEARS))


main()
