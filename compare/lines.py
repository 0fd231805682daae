"""What the models in Python share: the calendar's numbers, random moments, the line program's answers to lines."""
import random
import subprocess
import sys
from collections import namedtuple
from datetime import date, datetime, timedelta

# a line "template TAB moment", the answer that is due, and the moment if the text must be read back as it, else None
Question = namedtuple("Question", "line due moment")

MONTHS = "January February March April May June July August September October November December".split()
DATES = (("YYYY", "MM", "DD"), ("YYYY", "DDD"), ("IYYY", "IW", "ID"))
EPOCH = datetime(1970, 1, 1)
HOURS = (0, 1, 11, 12, 13, 23)
# which of a moment's seven numbers, and what no moment has there
WRONG = ((0, 0), (0, 10000), (1, 0), (1, 13), (2, 32), (3, 24), (3, -1), (5, 60), (6, 1_000_000))
# the marks of a date whose year, month and day are set
WHOLE = 7


def digits(moment):
    """What each pattern of digits writes, by its name in capitals."""
    year, month, day, hour, minute, second, micros = moment
    iso_year, week, weekday = date(year, month, day).isocalendar()
    return {
        "YYYY": f"{year:04}",
        "MM": f"{month:02}",
        "DD": f"{day:02}",
        "DDD": f"{date(year, month, day).timetuple().tm_yday:03}",
        "IYYY": f"{iso_year:04}",
        "IW": f"{week:02}",
        "ID": f"{weekday}",
        "HH24": f"{hour:02}",
        "HH12": f"{hour % 12 or 12:02}",
        "HH": f"{hour % 12 or 12:02}",
        "MI": f"{minute:02}",
        "SS": f"{second:02}",
        "SSSSS": f"{(hour * 60 + minute) * 60 + second:05}",
        "US": f"{micros:06}",
    }


def random_moment(random_):
    """A moment of the years 1 to 9999, often at one of their ends, often near midnight or noon."""
    last = date.max.toordinal()
    day = date.fromordinal(random_.choice((1, 365, last) + 5 * (random_.randint(1, last),)))
    hour = random_.choice(HOURS + (random_.randrange(24),))
    rest = random_.randrange(60), random_.randrange(60), random_.randrange(1_000_000)
    return day.year, day.month, day.day, hour, *rest


def no_moment(random_, moment):
    """A moment's numbers, one of them wrong."""
    k, wrong = random_.choice(WRONG)
    return (*moment[:k], wrong, *moment[k + 1 :])


def is_utf8(text):
    try:
        text.decode()
    except UnicodeDecodeError:
        return False
    return True


def line(template, moment):
    return template + b"\t" + " ".join(map(str, moment)).encode()


def answers(program, mode, lines):
    """The program's answers in a mode, one for each line."""
    given = b"".join(one + b"\n" for one in lines)
    answered = subprocess.run([program, mode], input=given, stdout=subprocess.PIPE, check=True).stdout.split(b"\n")[:-1]
    if len(answered) != len(lines):
        sys.exit(f"{len(lines)} lines, {len(answered)} answers")
    return answered


def write(program, questions):
    """The texts, each of them as it is due."""
    texts = answers(program, "write", [one.line for one in questions])
    for one, text in zip(questions, texts):
        if text != one.due:
            sys.exit(f"{one.line!r}: {text!r}, and {one.due!r} is due")
    return texts


def values_due(mode, moment):
    """What a moment's text is read as: the microseconds or days since 1970-01-01; or the seven numbers, and after them
    no precision, no offset and the marks of a whole date."""
    since = datetime(*moment) - EPOCH
    if mode == "instant":
        return (since // timedelta(microseconds=1),)
    return (since.days,) if mode == "date" else (*moment, 0, 0, 0, WHOLE)


def read_due(mode, moment):
    """The same as the line program says it."""
    values = (*moment, 0, "none", WHOLE) if mode == "parts" else values_due(mode, moment)
    return f"0 {' '.join(map(str, values))}".encode()


def read_back(program, full):
    """Each text of a full template is read as its moment."""
    lines = [one.line.split(b"\t")[0] + b"\t" + text for one, text in full]
    for mode in ("parts", "instant", "date"):
        for (one, text), read in zip(full, answers(program, mode, lines)):
            if read != read_due(mode, one.moment):
                sys.exit(f"{one.line!r} is written as {text!r} and read as {read!r}, {mode}")


def arguments(asked="PROGRAM"):
    """PROGRAM SEED COUNT, as each model takes them; or what else is asked."""
    if len(sys.argv) != 4:
        sys.exit(f"usage: {sys.argv[0]} {asked} SEED COUNT")
    program, seed, count = sys.argv[1:]
    return program, random.Random(int(seed)), int(count)


def written_and_read(question):
    """Has the program write the lines of COUNT random questions, and read back the texts of full templates."""
    program, random_, count = arguments()
    questions = [question(random_) for _ in range(count)]
    texts = write(program, questions)
    full = [(one, text[2:]) for one, text in zip(questions, texts) if one.moment]
    read_back(program, full)
    print(f"the same texts of {len(questions)} lines, {len(full)} of them read back")
