"""What a log and a store hold, in the lines of `aries_dump`: a second reader of docs/FORMATS.md, which shares no code with the program."""
import json
import struct

PLAIN_KINDS = {3: "commit", 4: "abort", 5: "end", 8: "prepare"}
STATES = ("active", "aborting", "prepared")
LARGEST_BODY = 70681


class Damaged(Exception):
    """A frame is damaged: the number of its fault, and where it stands."""


class Bytes:
    """Bytes that are read from their front."""

    def __init__(self, text):
        self.text, self.at = text, 0

    def take(self, count):
        if self.at + count > len(self.text):
            raise ValueError
        self.at += count
        return self.text[self.at - count:self.at]

    def number(self, width):
        return int.from_bytes(self.take(width), "big")

    def at_least(self, width, least):
        return checked(self.number(width), lambda n: n >= least)

    def image(self):
        length = self.number(1)
        return None if length == 255 else self.take(checked(length, lambda n: n <= 48))


def checked(number, is_right):
    if not is_right(number):
        raise ValueError
    return number


def rising(entries):
    numbers = [entry[0][1] for entry in entries]
    if any(left >= right for left, right in zip(numbers, numbers[1:])):
        raise ValueError
    return entries


def entry_of(body):
    transaction = body.at_least(4, 1)
    state = STATES[checked(body.number(1), lambda n: n <= 2)]
    return [("transaction", transaction), ("state", state), ("LastLSN", body.number(8)), ("UndoNxtLSN", body.number(8))]


def dirty_of(body):
    return [("page", body.number(4)), ("RecLSN", body.number(8))]


def record_of(text):
    """The kind of a body, and its fields."""
    body = Bytes(text)
    kind, fields = body.number(1), [("LSN", body.number(8))]
    if kind in (1, 2) or kind in PLAIN_KINDS:
        fields += [("transaction", body.at_least(4, 1)), ("PrevLSN", body.number(8))]
    if kind in (1, 2):
        fields += [("page", body.number(4)), ("slot", checked(body.number(1), lambda n: n <= 15))]
    if kind == 1:
        name, fields = "update", fields + [("before", body.image()), ("after", body.image())]
    elif kind == 2:
        name, fields = "CLR", fields + [("UndoNxtLSN", body.number(8)), ("image", body.image())]
    elif kind in PLAIN_KINDS:
        name = PLAIN_KINDS[kind]
    elif kind == 6:
        name = "checkpoint begin"
    elif kind == 7:
        name, begin = "checkpoint end", body.number(8)
        transactions = rising([entry_of(body) for _ in range(checked(body.number(4), lambda n: n <= 1024))])
        dirty = rising([dirty_of(body) for _ in range(checked(body.number(4), lambda n: n <= 4096))])
        fields += [("BeginLSN", begin), ("transactions", transactions), ("dirty", dirty)]
    else:
        raise ValueError
    checked(body.at, lambda n: n == len(text))
    return name, fields


def frame_at(log, offset, lsn):
    """The kind, the fields and the size of the frame at an offset."""
    length = int.from_bytes(log[offset:offset + 4], "big")
    if not 9 <= length <= LARGEST_BODY:
        raise Damaged(7, offset)
    body = log[offset + 4:offset + 4 + length]
    if len(body) < length:
        return None
    try:
        name, fields = record_of(body)
    except ValueError:
        raise Damaged(8, offset) from None
    if fields[0][1] != lsn:
        raise Damaged(9, offset)
    return name, fields, 4 + length


def is_asked_for(fields, name, asked):
    """Whether a record is among those that the words ask for."""
    found = dict(fields)
    on_page = found["page"] if name in ("update", "CLR") else None
    return (asked.get("from", 0) <= found["LSN"] <= asked.get("to", 2**64)
            and asked.get("transaction", found.get("transaction")) == found.get("transaction")
            and asked.get("page", on_page) == on_page)


def lines_of_log(log, style, **asked):
    """The lines of a log, and the number of its fault and where it is, if there is one."""
    version = {b"ARIESLG1": 1, b"ARIESLG2": 2}.get(log[:8])
    base = 0 if version == 1 else int.from_bytes(log[8:16], "big")
    if version is None or (version == 2 and len(log) < 16) or base >= 2**63:
        return b"", (6, None)
    offset, lsn = 8 * version, base
    lines = [style("log", 0, [("version", version), ("BaseLSN", base)])]
    try:
        while len(log) - offset >= 4:
            found = frame_at(log, offset, lsn + 1)
            if found is None:
                break
            name, fields, size = found
            if is_asked_for(fields, name, asked):
                lines.append(style(name, offset, fields))
            offset, lsn = offset + size, lsn + 1
    except Damaged as fault:
        return "".join(lines).encode(), fault.args
    if offset < len(log):
        lines.append(style("torn tail", offset, [("bytes", len(log) - offset)]))
    return "".join(lines).encode(), None


def page_of(image, number):
    """The fields of a page, None where the image spells no page of this number."""
    own, zero, lsn = struct.unpack(">IIQ", image[:16])
    slots, at = [], 80
    for slot, (place, size) in enumerate(struct.iter_unpack(">HH", image[16:80])):
        if (place, size) == (0, 0):
            continue
        if place != at or size > 48:
            return None
        slots.append((f"slot {slot}", image[place:place + size]))
        at += size
    is_page = (own, zero) == (number, 0) and not any(image[at:])
    return [("number", number), ("PageLSN", lsn), *slots] if is_page else None


def lines_of_store(store, style, page=None):
    """The lines of a store whose header and size are right, and the number of its fault and of the page that is damaged, if there is one."""
    count, _, master = struct.unpack(">IIQ", store[8:24])
    pages = [page_of(store[24 + 1024 * number:][:1024], number) for number in range(count)]
    bad = [number for number in range(count) if pages[number] is None]
    lines = [] if bad else [style("store", 0, [("pages", count), ("master", master)])]
    lines += [style("page", 24 + 1024 * number, fields) for number, fields in enumerate(pages) if fields and page in (None, number)]
    return "".join(lines).encode(), (12, bad[0]) if bad else None


def quoted(value, lead):
    signs = {34: '\\"', 92: "\\\\"}
    return '"' + "".join(signs.get(sign, chr(sign) if 32 <= sign < 127 else f"{lead}{sign:02x}") for sign in value) + '"'


def as_text(kind, offset, fields):
    def shown(value):
        if value is None:
            return "absent"
        if isinstance(value, bytes):
            return quoted(value, "\\x") + f" ({value.hex()})"
        if isinstance(value, list):
            return "[" + "; ".join(", ".join(f"{name} {field}" for name, field in entry) for entry in value) + "]"
        return str(value)

    return f"{offset}: {kind}" + "".join(f", {name} {shown(value)}" for name, value in fields) + "\n"


def as_json(kind, offset, fields):
    def shown(value):
        if isinstance(value, bytes):
            return '{"text":' + quoted(value, "\\u00") + f',"hex":"{value.hex()}"}}'
        if isinstance(value, list):
            return "[" + ",".join(of(entry) for entry in value) + "]"
        return json.dumps(value)

    def of(fields):
        return "{" + ",".join(f'"{name}":{shown(value)}' for name, value in fields) + "}"

    return of([("offset", offset), ("kind", kind), *fields]) + "\n"


STYLES = {"text": as_text, "json": as_json}
