"""Days by their numbers, as the tables of an office have them: 1 January 1970 has the number 0."""
import datetime

EPOCH = datetime.date(1970, 1, 1)
# The first day of an office, and its last: those of a rule without days.
FIRST, LAST = -25_567, 2_859_848


def date(number):
    """The day of this number, as a text."""
    return (EPOCH + datetime.timedelta(number)).isoformat()


def due_day(closed, years):
    """The number of the day from which a deposit may be destroyed; none where its class keeps it permanently."""
    if years == -1:
        return None
    day = EPOCH + datetime.timedelta(closed)
    try:
        day = day.replace(year=day.year + years)
    except ValueError:  # (29 February, in a year that has none)
        day = day.replace(year=day.year + years, day=28)
    return (day - EPOCH).days
