"""When the field after each step stands: by the times of a session's text, by the unit of a step, or by the step's number."""

import re
from bisect import bisect_right
from datetime import datetime, timedelta, timezone

from .quantities import SECONDS, figure, size_of, ticks

MONTHS = ("Jan", "Feb", "Mar", "Apr", "May", "Jun", "Jul", "Aug", "Sep", "Oct", "Nov", "Dec")
EPOCH = datetime(1970, 1, 1)
MINUTE, HOUR, DAY = 60, 3600, 86400
STRIDES = [*(n * MINUTE for n in (1, 2, 5, 10, 15, 30)), *(n * HOUR for n in (1, 2, 3, 6, 12)), *(n * DAY for n in (1, 2, 5, 10))]
MONTH_STRIDES = (1, 2, 3, 6, 12, 24, 60, 120, 240)
MOST_MARKS = 10
HOURS_UP_TO = 3 * DAY           # a longer stretch is shown in days
BY_STEP, BY_NUMBER, BY_DURATION, BY_DATE = "step", "number", "duration", "date"


def read(words):
    """Kind and figure of a time: a date, a number with a unit (seconds then) or without; None where it is neither."""
    found = re.fullmatch(r"([-+]?[0-9]+(?:\.[0-9]*)?)(?:\s*([a-z]+))?", words[:40])
    if found and (found[2] is None or found[2] in SECONDS):
        value = float(found[1])
        return (BY_DURATION, value * SECONDS[found[2]]) if found[2] else (BY_NUMBER, value)
    try:
        moment = datetime.fromisoformat(re.sub("Z$", "+00:00", words))
    except ValueError:
        return None
    if moment.tzinfo:
        moment = moment.astimezone(timezone.utc).replace(tzinfo=None)
    return BY_DATE, (moment - EPOCH).total_seconds()


class Timeline:
    """Places of the fields on an axis. A step's time is when it begins: the field after step n stands where step n + 1 begins."""

    def __init__(self, labels):
        self.times, self.unit = labels.times, labels.units.get("step")
        length = size_of(self.unit, SECONDS)
        self.kind, self.known, self.rate = BY_STEP, [], float(length) if length else None
        if self.times:
            self.by_times()
        elif self.rate:
            self.kind, self.known = BY_DURATION, [(0, 0.0)]

    def by_times(self):
        """The times are an axis where all are of one kind, the first step has one, and they go on."""
        found = [(step - 1, read(words)) for step, words in sorted(self.times.items())]
        kinds = {time and time[0] for _, time in found}
        known = [(field, time[1]) for field, time in found if time]
        goes_on = all(before[1] < after[1] for before, after in zip(known, known[1:]))
        if len(kinds) > 1 or None in kinds or known[0][0] or not goes_on or (len(known) == 1 and not self.rate):
            return
        self.kind, self.known = kinds.pop(), known
        if len(known) > 1:
            (before, early), (after, late) = known[-2:]
            self.rate = (late - early) / (after - before)

    def at(self, field):
        """Where the field after a step stands: at a time that is known, between two, or past the last by the same way a step."""
        if self.kind == BY_STEP:
            return field
        place = bisect_right(self.known, (field, float("inf"))) - 1
        before, early = self.known[place]
        if place + 1 == len(self.known):
            return early + self.rate * (field - before)
        after, late = self.known[place + 1]
        return early + (late - early) * (field - before) / (after - before)

    def words(self, field):
        """The time of a field as a table says it; nothing where there is none."""
        if field + 1 in self.times:
            return self.times[field + 1]
        if self.kind == BY_STEP:
            return ""
        at = self.at(field)
        if self.kind == BY_DATE:
            return date(at).isoformat(timespec="minutes" if at % MINUTE == 0 else "seconds")
        if self.kind == BY_NUMBER:
            return f"{at:g}"
        return f"{at / HOUR:g} h"

    def axis(self, first, last):
        """Marks of the axis between two places, each with its words, and the words below it."""
        if self.kind == BY_DATE:
            return date_marks(first, last), f"{day(first, True)} to {day(last, True)}"
        size, words = 1, {BY_STEP: f"step of {self.unit}" if self.unit else "step", BY_NUMBER: "time"}.get(self.kind)
        if self.kind == BY_DURATION:
            size, words = (HOUR, "hours") if last - first <= HOURS_UP_TO else (DAY, "days")
        low, high = first / size, last / size
        found = [mark for mark in ticks(low, high, MOST_MARKS, self.kind == BY_STEP) if low <= mark <= high]
        return [(float(mark) * size, figure(mark)) for mark in found], words


def date(at):
    return EPOCH + timedelta(seconds=round(at))


def day(at, year=False):
    moment = date(at)
    return f"{moment.day} {MONTHS[moment.month - 1]}" + (f" {moment.year}" if year else "")


def date_marks(first, last):
    """Marks at whole hours, days or months."""
    stride = next((stride for stride in STRIDES if (last - first) / stride <= MOST_MARKS), None)
    if stride is None:
        return month_marks(first, last)
    numbers = range(int(-(-first // stride)), int(last // stride) + 1)
    return [(number * stride, day(number * stride) if number * stride % DAY == 0 else f"{date(number * stride):%H:%M}") for number in numbers]


def month_marks(first, last):
    begin, end = date(first), date(last)
    months = 12 * (end.year - begin.year) + end.month - begin.month
    stride = next((stride for stride in MONTH_STRIDES if months / stride <= MOST_MARKS), MONTH_STRIDES[-1])
    found = []
    for number in range(12 * begin.year // stride * stride, 12 * end.year + end.month, stride):
        year, month = divmod(number, 12)
        at = (datetime(year, month + 1, 1) - EPOCH).total_seconds()
        if first <= at <= last:
            found.append((at, f"{MONTHS[month]} {year}" if stride < 12 else str(year)))
    return found
