"""What a power cut may leave in a folder, from the calls that a program made there, which tests/watch_calls.c notes.

A file has versions: what the disk holds, and what each call since the last sync of the file made of it. So has the list of the folder's files, since the last
sync of the folder. After a power cut the list is one of its versions. A file is as long as one of its versions, or, while it grew, between two, and each of its
sectors comes from any version, with zeros where that version has no bytes.
"""

SECTORS = (512, 16)  # no disk has the second, but most logs in the rows are shorter than the first


class Disk:
    """A folder that holds these files, all of which were synced."""

    def __init__(self, files):
        self.folder = [{name: [text] for name, text in files.items()}]

    def do(self, call):
        word, *words = call.split()
        {"make": self.make, "write": self.write, "cut": self.cut, "sync": self.sync, "rename": self.rename, "remove": self.remove}[word](*words)

    def make(self, name):
        self.folder.append({**self.folder[-1], name: [b""]})

    def write(self, name, offset, digits=""):
        versions, offset, written = self.folder[-1][name], int(offset), bytes.fromhex(digits)
        text = versions[-1].ljust(offset, b"\0")
        versions.append(text[:offset] + written + text[offset + len(written):])

    def cut(self, name, length):
        versions = self.folder[-1][name]
        versions.append(versions[-1][:int(length)])

    def sync(self, name):
        versions = self.folder if name == "." else self.folder[-1][name]
        del versions[:-1]

    def rename(self, name, new_name):
        files = dict(self.folder[-1])
        files[new_name] = files.pop(name)
        self.folder.append(files)

    def remove(self, name):
        self.folder.append({other: versions for other, versions in self.folder[-1].items() if other != name})

    def files(self):
        """What the program sees."""
        return {name: versions[-1] for name, versions in self.folder[-1].items()}

    def is_synced(self):
        """Whether a power cut loses nothing."""
        return len(self.folder) == 1 and all(len(versions) == 1 for versions in self.folder[0].values())

    def after_power_cut(self, chooser):
        return {name: left_of(versions, chooser) for name, versions in chooser.choice(self.folder).items()}


def left_of(versions, chooser):
    """What a power cut leaves of a file: what the disk held, all that was written, or any sectors of any versions."""
    how = chooser.choice(("old", "new", "mixed", "mixed", "mixed", "mixed"))
    if how != "mixed" or len(versions) == 1:
        return versions[0 if how == "old" else -1]
    later, sector = chooser.randrange(1, len(versions)), chooser.choice(SECTORS)
    earlier_length, length = len(versions[later - 1]), len(versions[later])
    size = chooser.choice((earlier_length, length, chooser.randint(min(earlier_length, length), length)))
    sectors = (chooser.choice(versions)[at:at + sector].ljust(sector, b"\0") for at in range(0, size, sector))
    return b"".join(sectors)[:size]


def power_cuts(files, calls, chooser, count):
    """The states in which power cuts may leave these files while a program makes these calls: so many after each call."""
    disk = Disk(files)
    for call in calls:
        disk.do(call)
        yield from [disk.after_power_cut(chooser) for _ in range(count)]
