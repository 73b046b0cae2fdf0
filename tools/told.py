"""The faults and warnings of a server on standard error, without its other log lines: for tools that compare them."""
import re

# A clock that gives no moment is logged as a dash.
EVENT = re.compile(r"(?:\d{4}-\d\d-\d\dT\d\d:\d\d:\d\d\.\d{3}Z|-) (ERROR|WARN |INFO |DEBUG) (.*)")
# For tools that read standard error at the end alone: a load of alerts would fill the pipe.
QUIET = ("--log-level", "warn")


def told_of(errors):
    """The faults and warnings, each in the form of the program's last line. A fault with the system's reason, followed by
    the same without it, is given once."""
    told = []
    for line in errors.splitlines():
        event = EVENT.fullmatch(line)
        if line.startswith('{"time":'):
            continue
        if event is None:
            told = [other for other in told if not other.startswith(line + ": ")]
            told.append(line)
        elif event[1] in ("ERROR", "WARN "):
            told.append(f"nmvs-serve: {event[2]}")
    return "".join(line + "\n" for line in told)


def events_of(errors):
    """The level and the text of each event of a log that is written as text."""
    return [(event[1].strip(), event[2]) for event in map(EVENT.fullmatch, errors.splitlines()) if event]
