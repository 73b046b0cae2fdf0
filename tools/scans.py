"""Scans of packs, read in one way or refused, as `read_scan` of nmvs_elements reads them. It stands alone, so that a terminal
may take it over."""
import collections
import string

SEPARATOR = b"\x1d"  # FNC1, as a scanner sends it
LONGEST_SCAN = 100
SYMBOLOGIES = (b"]d2", b"]C1", b"]Q3", b"]e0")
SET_82 = set((string.ascii_letters + string.digits + "!\"%&'()*+,-./:;<=>?_").encode())
NAMES = {"01": "product code (01)", "21": "serial number (21)", "10": "batch number (10)", "17": "expiry date (17)"}
LENGTHS = {"01": 14, "17": 6}
DAYS = (31, 28, 31, 30, 31, 30, 31, 31, 30, 31, 30, 31)

Pack = collections.namedtuple("Pack", "code serial batch expiry national")


def line_of(user, word, scan, national=None):
    """The line by which the user asks this about the pack whose code was scanned. An UPLOAD names batch and expiry; any other
    question is put only if the pack was uploaded with them.
    ValueError: the scan was refused, and the question must not be asked. Its text is for the person who scanned."""
    pack = read_scan(scan, national)
    condition = () if word == "UPLOAD" else ("IF",)
    return " ".join((user, word, pack.code, pack.serial, *condition, pack.batch, pack.expiry))


def members_of(user, scan, national=None):
    """The members of a question over HTTP that the user asks about the pack whose code was scanned. Its reply compares batch and expiry.
    ValueError: the scan was refused, and the question must not be asked. Its text is for the person who scanned."""
    pack = read_scan(scan, national)
    return {"user": user, "code": pack.code, "serial": pack.serial, "scanned": {"batch": pack.batch, "expiry": pack.expiry}}


def read_scan(scan, national=None):
    """The pack whose code these bytes are, where its national number is asked for by 710 to 716, or by nothing.
    ValueError: the first fault, with its text for the person who scanned."""
    if len(scan) > LONGEST_SCAN:
        raise ValueError("the scan is longer than a pack's code can be: scan one code at a time")
    rest = behind_symbology(scan).removeprefix(SEPARATOR)
    names = NAMES if national is None else NAMES | {str(national): f"national number ({national})"}
    found = {}
    while rest:
        identifier = next((it for it in names if rest.startswith(it.encode())), None)
        if identifier is None:
            raise ValueError(unknown(found, len(scan) - len(rest)))
        content = rest[len(identifier) :]
        run = content.split(SEPARATOR, 1)[0]
        length = LENGTHS.get(identifier, len(run))
        if len(run) < length:
            raise ValueError(f"the {names[identifier]} ends too early: scan again")
        if identifier in found:
            raise ValueError(f"the {names[identifier]} stands there twice: scan one code at a time")
        found[identifier], rest = content[:length], content[length:].removeprefix(SEPARATOR)
    for identifier, name in names.items():
        if identifier not in found:
            raise ValueError(f"the scan has no {name}: if it is printed on the pack, the scanner leaves out separators")
    for identifier, name in names.items():
        if not is_value(identifier, found[identifier]):
            raise ValueError(f"the {name} is not well-formed: scan again, and check the scanner's keyboard layout")
    texts = [found[it].decode("ascii") for it in names]
    return Pack(*texts, *[None] * (5 - len(texts)))


def behind_symbology(scan):
    if scan[:3] in SYMBOLOGIES:
        return scan[3:]
    if scan[:3] == b"]d1":
        raise ValueError("this is a Data Matrix code, but none of GS1: scan the code with the product code and the serial number")
    if scan[:1] == b"]":
        raise ValueError("this code is of a kind that no pack has: scan the square two-dimensional code")
    return scan


def unknown(found, place):
    if not found:
        return "this is not the code of a pack: scan the square two-dimensional code"
    return f"what stands behind {place} characters of the scan is none of the elements that are read"


def is_value(identifier, value):
    if identifier == "01":
        return is_digits(value) and sum((b - 48) * (3 if place % 2 == 0 else 1) for place, b in enumerate(value)) % 10 == 0
    if identifier == "17":
        return is_digits(value) and is_date(int(value[:2]), int(value[2:4]), int(value[4:]))
    return 1 <= len(value) <= 20 and set(value) <= SET_82


def is_digits(value):
    return all(48 <= b <= 57 for b in value)


def is_date(year, month, day):
    """Of the years 2000 to 2099, in which each fourth one is a leap year; day 0 is the last of the month."""
    return 1 <= month <= 12 and day <= DAYS[month - 1] + (month == 2 and year % 4 == 0)
