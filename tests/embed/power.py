"""Power cuts. `Machine` runs programs that change the files of a folder, with tests/embed/power.c, which notes what they do, and tests/embed/die_at_call.c,
which kills them. It keeps what a disk is sure to have of the folder, and what was done since. A power cut leaves one of the states that the disk may have:

- What was synced is there.
- Of a write that was not, each sector of 512 bytes is old or new. A sector is a part of the file; bytes beside those written keep what they had.
- The length is one that the file had since its last sync, or one between two of these.
- Bytes that were never written are zeros, or old bytes.
- Each making, rename and removal of a file since the last sync of the folder has happened or not.
"""
import os
import shutil
import signal
import struct
import subprocess

HERE = os.path.dirname(os.path.abspath(__file__))
LIBRARIES = ("power", "die_at_call")
IN_MEMORY = "/dev/shm" if os.path.isdir("/dev/shm") else None  # a folder where files are synced in no time
SECTOR, BLOCK = 512, 4096
HEAD = struct.Struct("=ciqq")  # of an event: kind, descriptor, offset, length
# What is left of the writes to a file: all, nothing, those up to some sector, or some of the sectors, or of the blocks.
ALL, NONE, BEGIN, SECTORS, BLOCKS = range(5)


def built_libraries(room):
    """The libraries that are loaded before a program, those that note first."""
    made = []
    for name in LIBRARIES:
        made.append(os.path.join(room, f"{name}.so"))
        subprocess.run(["cc", "-O1", "-shared", "-fPIC", "-o", made[-1], os.path.join(HERE, f"{name}.c"), "-ldl"], check=True)
    return made


def pieces_of(offset, length):
    """The parts of a write that lie in different sectors, as offsets in the file."""
    end = offset + length
    while offset < end:
        border = min(end, (offset // SECTOR + 1) * SECTOR)
        yield offset, border
        offset = border


class File:
    """What the disk has of a file, what was done since its last sync, and what programs read."""

    def __init__(self, content=b""):
        self.durable, self.seen, self.pending = bytearray(content), bytearray(content), []

    @staticmethod
    def do(content, offset, data):
        """Writes the bytes there; or, if there are none, makes the length the offset."""
        if data is None:
            del content[offset:]
        if len(content) < offset:
            content.extend(bytes(offset - len(content)))
        if data is not None:
            content[offset:offset + len(data)] = data

    def change(self, offset, data=None):
        self.pending.append((offset, data))
        self.do(self.seen, offset, data)

    def sync(self):
        for change in self.pending:
            self.do(self.durable, *change)
        self.pending = []

    def redo(self, pending):
        """What programs read if this was done since the last sync."""
        self.seen, self.pending = bytearray(self.durable), []
        for change in pending:
            self.change(*change)

    def lengths(self):
        """The lengths since the last sync."""
        yield len(self.durable)
        length = len(self.durable)
        for offset, data in self.pending:
            length = offset if data is None else max(length, offset + len(data))
            yield length

    def left_length(self, random):
        lengths = list(self.lengths())
        place = random.choice((len(lengths) - 1, random.randrange(len(lengths))))
        before, after = lengths[max(place - 1, 0)], lengths[place]
        return random.choice((after, random.randint(min(before, after), max(before, after))))

    def kept_pieces(self, random):
        """The parts of the writes that are left, oldest first."""
        writes = [(offset, data) for offset, data in self.pending if data is not None]
        pieces = [(at, to, offset, data) for offset, data in writes for at, to in pieces_of(offset, len(data))]
        how, part = random.choice((ALL, NONE, BEGIN, SECTORS, SECTORS, BLOCKS)), random.choice((0.1, 0.5, 0.9))
        if how == BEGIN:
            pieces = pieces[:random.randint(0, len(pieces))]
        blocks = {}
        for piece in pieces if how != NONE else ():
            is_new = random.random() < part
            if how == BLOCKS:
                is_new = blocks.setdefault(piece[0] // BLOCK, is_new)
            if is_new or how in (ALL, BEGIN):
                yield piece

    def left(self, random, old_bytes):
        """What a power cut leaves of the content."""
        if not self.pending:
            return bytes(self.durable)
        longest = max(self.lengths())
        filler = random.choice((bytes(longest), old_bytes(longest)))
        content = bytearray(self.durable + filler[len(self.durable):])
        cut = min(self.lengths())
        if cut < len(self.durable) and random.random() < 0.5:
            content[cut:] = bytes(len(content) - cut)
        for at, to, offset, data in self.kept_pieces(random):
            content[at:to] = data[at - offset:to - offset]
        return bytes(content[:self.left_length(random)])


class Disk:
    """A folder: its files by their names, as programs see them and as they are sure to be, and what was done since it was synced."""

    def __init__(self, contents):
        self.names = {name: File(content) for name, content in contents.items()}
        self.durable, self.pending, self.old = dict(self.names), [], b""
        self.opened, self.last = {}, None

    def change(self, *change):
        self.pending.append(change)
        self.names = self.changed(self.names, change)

    @staticmethod
    def changed(names, change):
        kind, name, file, *more = change
        names = {other: its for other, its in names.items() if other != name}
        if kind != "remove":
            names[more[0] if more else name] = file
        return names

    def note(self, kind, descriptor, offset, data):
        """An event."""
        file = self.opened.get(descriptor)
        self.last = (kind, file)
        if kind == "P":
            self.opened = {}
        elif kind == "O":
            self.opened[descriptor] = self if not data else self.names.get(data.decode())
        elif kind == "C":
            self.opened.pop(descriptor, None)
        elif kind == "S" and file:
            file.sync()
        elif kind in "MRUZ":
            self.note_name(kind, data.decode(), offset)
        elif file:
            self.note_bytes(kind, file, offset, data)

    @staticmethod
    def note_bytes(kind, file, offset, data):
        if kind == "W":
            file.change(offset, data)
        else:
            file.change(max(offset, len(file.seen)) if kind == "G" else offset)

    def note_name(self, kind, name, offset):
        if kind == "M":
            self.change("make", name, File())
        elif kind == "R":
            self.keep_old(name[offset:])
            self.change("rename", name[:offset], self.names[name[:offset]], name[offset:])
        elif kind == "U":
            self.keep_old(name)
            self.change("remove", name, self.names[name])
        else:
            self.names[name].change(0)
            self.last = (kind, self.names[name])

    def keep_old(self, name):
        """The bytes of a file that goes may come back in one that grows."""
        if name in self.names:
            self.old = bytes(self.names[name].seen) or self.old

    def sync(self):
        self.durable, self.pending = dict(self.names), []

    def is_seen(self, contents):
        return {name: bytes(file.seen) for name, file in self.names.items()} == contents

    def settle(self, contents):
        """After a kill these are the contents of the files. The last event may have been noted without its call, or of a write a part was done."""
        if self.is_seen(contents):
            return
        kind, file = self.last
        if kind in "MRU":
            pending, self.names = self.pending[:-1], dict(self.durable)
            self.pending = []
            for change in pending:
                self.change(*change)
        elif kind == "W":
            offset, data = file.pending[-1]
            name = next(name for name, its in self.names.items() if its is file)
            done = contents[name][offset:offset + len(data)]
            file.redo([*file.pending[:-1], *([(offset, done)] if done else [])])
        elif kind in "TGZ" and file:
            file.redo(file.pending[:-1])
        if not self.is_seen(contents):
            raise AssertionError("what was noted of the files is not what they hold")

    def old_bytes(self, random):
        """Gives bytes that were once in a file, or any."""
        return lambda length: (self.old * (length // max(1, len(self.old)) + 1))[:length] if self.old else random.randbytes(length)

    def left(self, random):
        """The contents of the files that a power cut leaves, by their names."""
        names, how, count = dict(self.durable), random.choice((ALL, NONE, BEGIN, SECTORS)), random.randint(0, len(self.pending))
        for place, change in enumerate(self.pending):
            if how == ALL or (how == BEGIN and place < count) or (how == SECTORS and random.random() < 0.5):
                names = self.changed(names, change)
        return {name: file.left(random, self.old_bytes(random)) for name, file in names.items()}


class Machine:
    """Runs programs on a folder and kills them, with or without a power cut."""

    def __init__(self, room, folder, random):
        self.libraries, self.folder, self.random = built_libraries(room), os.path.realpath(folder), random
        self.events = os.path.join(room, "events")
        self.start_anew()

    def start_anew(self):
        """An empty folder, which is not made."""
        shutil.rmtree(self.folder, ignore_errors=True)
        self.disk = Disk({})

    def contents(self):
        names = os.listdir(self.folder) if os.path.exists(self.folder) else []
        found = {}
        for name in names:
            with open(os.path.join(self.folder, name), "rb") as file:
                found[name] = file.read()
        return found

    def started(self, words, **more):
        """A program; the settings of tests/embed/die_at_call.c may be given."""
        settings = dict(os.environ, LD_PRELOAD=" ".join(self.libraries), POWER_FOLDER=self.folder, POWER_EVENTS=self.events, **more)
        return subprocess.Popen(words, stdin=subprocess.PIPE, stdout=subprocess.PIPE, stderr=subprocess.PIPE, text=True, errors="replace", env=settings)

    def read_events(self):
        """Notes what was done. An event that was not written wholly is of a call that was not made."""
        with open(self.events, "rb") as file:
            events = file.read()
        os.remove(self.events)
        at = 0
        while at + HEAD.size <= len(events):
            kind, descriptor, offset, length = HEAD.unpack_from(events, at)
            at += HEAD.size + length
            if at <= len(events):
                self.disk.note(kind.decode(), descriptor, offset, events[at - length:at])

    def after_end(self, process):
        """To be called after a program has ended."""
        if os.path.exists(self.events):
            self.read_events()
        if process.returncode == -signal.SIGKILL:
            self.disk.settle(self.contents())

    def cut_power(self):
        """Loses some of what was not synced."""
        left = self.disk.left(self.random)
        old = self.disk.old
        shutil.rmtree(self.folder, ignore_errors=True)
        os.mkdir(self.folder, 0o700)
        for name, content in left.items():
            with open(os.path.join(self.folder, name), "wb") as file:
                file.write(content)
        self.disk = Disk(left)
        self.disk.old = old
