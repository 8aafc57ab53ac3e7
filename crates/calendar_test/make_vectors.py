#!/usr/bin/env python3
# NOTE. Makes the lines `all` of the files stdin and stdout, which stand last in both, from Python's datetime alone, with no code of this
# repository:
#   python3 crates/calendar_test/make_vectors.py
# The run is deterministic: the random openings and days come from random.Random(498).
# Of day k, the file stdin says what is asked: the opening date, k, its date, and its month, counted from the opening month.
# The file stdout has in the same line, after the colon:
#   whether the opening date is a date, whether it can open; the same of the date of day k, which opens until 2099
#   the date, opening date + timedelta(k); its weekday, 0 for Monday to 6 for Sunday, date.weekday(); its month
#   the date's number, k; the first of days 0 to 399 in its month, and one more than the last, counted day by day
#   the date after, date + timedelta(1); and once more, asked of the date alone, weekday and month
import os
import random
from datetime import date, timedelta


def number(opened, d):
    return 12 * (d.year - opened.year) + d.month - opened.month


def question(opened, k):
    d = opened + timedelta(k)
    return f"all {opened} {k} {d} {number(opened, d)}"


def answer(opened, k):
    d = opened + timedelta(k)
    m = number(opened, d)
    days = [i for i in range(400) if number(opened, opened + timedelta(i)) == m]
    after = d + timedelta(1)
    return (f"{question(opened, k)}: 1 1 1 {int(d.year <= 2099)} {d:%Y%m%d} {d.weekday()} {m} {k} "
            f"{days[0]} {days[-1] + 1} {after:%Y%m%d} {d.weekday()} {m}")


EDGES = [0, 1, 58, 59, 60, 61, 365, 366, 398, 399]

# The limits of `open`, leap years, 2100, year ends and month ends.
OPENINGS = [
    (2000, 1, 1), (2000, 2, 28), (2000, 2, 29), (2000, 3, 1), (2000, 12, 31),
    (2003, 1, 1), (2003, 12, 31), (2004, 1, 1), (2004, 2, 29), (2004, 12, 31),
    (2023, 2, 28), (2023, 12, 31), (2024, 1, 1), (2024, 1, 31), (2024, 2, 28),
    (2024, 2, 29), (2024, 3, 1), (2024, 12, 31), (2025, 1, 1),
    (2095, 12, 31), (2096, 1, 1), (2096, 2, 29), (2096, 12, 31),
    (2098, 12, 31), (2099, 1, 1), (2099, 1, 31), (2099, 2, 28), (2099, 3, 1),
    (2099, 11, 27), (2099, 12, 1), (2099, 12, 30), (2099, 12, 31),
]

pairs = [(date(*o), k) for o in OPENINGS for k in EDGES]

# 2100 is no leap year: the end of its February, and its own end, from openings of 2099.
for o in [(2099, 2, 1), (2099, 6, 15), (2099, 12, 25), (2099, 12, 31)]:
    for end in [date(2100, 2, 28), date(2100, 3, 1), date(2100, 12, 31), date(2101, 1, 1)]:
        k = (end - date(*o)).days
        if k <= 399:
            pairs.append((date(*o), k))

# Both sides of the end of each month of a leap year and of a common one.
for year in [2024, 2099]:
    for month in range(1, 13):
        end = date(year + month // 12, month % 12 + 1, 1) - timedelta(1)
        for k in [0, 1, 28, 31]:
            pairs.append((end, k))

draw = random.Random(498)
first, last = date(2000, 1, 1), date(2099, 12, 31)
for _ in range(240):
    pairs.append((first + timedelta(draw.randint(0, (last - first).days)), draw.randint(0, 399)))

for name, line in [("stdin", question), ("stdout", answer)]:
    path = os.path.join(os.path.dirname(os.path.abspath(__file__)), name)
    with open(path) as f:
        others = [text for text in f if not text.startswith("all ")]
    with open(path, "w") as f:
        f.writelines(others + [line(opened, k) + "\n" for opened, k in dict.fromkeys(pairs)])
