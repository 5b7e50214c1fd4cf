"""What a power cut leaves of a folder whose files are written by a program over tools/gate/watched_disk.c.

Of what was not synced it may leave any blocks of any writes, any size between, and any of the folder's changes. What a sync failed for is on the disk in
any blocks, too, and no later sync puts it there unless it is written again. Blocks that were left out hold what stood there before, or zeros.
"""
import contextlib
import os

# Of how many bytes a block is that goes to the disk or not, and of how many a page that a sync puts there.
SIZES = ((64, 256), (512, 4096))


def records_of(text):
    """The kind of each record, the file's number, the place, the bytes, and how long it is. (The last one may be the front of one.)"""
    at = 0
    while (newline := text.find(b"\n", at)) >= 0:
        kind, number, place, count = text[at:newline].split(b" ")
        end = newline + 1 + int(count)
        if end > len(text):
            return
        yield kind.decode(), int(number), int(place), text[newline + 1 : end], end - at
        at = end


class File:
    """The bytes of a file as the program sees them, and those on the disk."""

    def __init__(self, text=b""):
        self.cache, self.disk, self.dirty, self.uncut, self.syncing = bytearray(text), bytearray(text), set(), None, None

    def write(self, at, text, page):
        self.cache += bytes(max(0, at - len(self.cache)))
        self.cache[at : at + len(text)] = text
        self.touch(range(at // page, (at + len(text) - 1) // page + 1) if text else ())

    def touch(self, pages):
        """(What is written while a sync goes on is not synced by it.)"""
        self.dirty.update(pages)
        if self.syncing is not None:
            self.syncing.update(pages)

    def cut(self, count):
        del self.cache[count:]
        if len(self.disk) > count:
            self.uncut = self.uncut or bytes(self.disk)
            del self.disk[count:]

    def put(self, begin, end):
        """These bytes go to the disk, as far as there are any."""
        end = min(end, len(self.cache))
        if end > begin:
            self.disk += bytes(max(0, begin - len(self.disk)))
            self.disk[begin:end] = self.cache[begin:end]

    def sync(self, page):
        for it in self.dirty:
            self.put(it * page, (it + 1) * page)
        self.disk += bytes(max(0, len(self.cache) - len(self.disk)))
        self.dirty, self.syncing, self.uncut = self.syncing or set(), None, None

    def some(self, draw, block, page):
        """Any blocks of what is not synced go to the disk: none, all, a front of them, or here and there one."""
        places = [it * page + at for it in sorted(self.dirty) for at in range(0, page, block)]
        way, share, front = draw.choice("nafsss"), draw.choice((0.1, 0.5, 0.9)), draw.randrange(len(places) + 1)
        for number, at in enumerate(places):
            if way == "a" or way == "f" and number < front or way == "s" and draw.random() < share:
                self.put(at, at + block)

    def fail(self, draw, block, page):
        """A sync that fails: from then on nothing is known to be wanting."""
        self.some(draw, block, page)
        self.dirty, self.syncing = set(), None

    def lose(self, draw, block, page):
        """The power goes."""
        if self.uncut is not None and draw.random() < 0.5:
            self.disk = bytearray(self.uncut)
        old = len(self.disk)
        self.some(draw, block, page)
        most = max(len(self.cache), old)
        size = draw.choice((old, len(self.disk), most, draw.randint(old, most)))
        del self.disk[max(size, old) :]
        self.disk += bytes(max(0, size - len(self.disk)))
        self.cache, self.dirty, self.uncut, self.syncing = bytearray(self.disk), set(), None, None


class WatchedFolder:
    """A folder, followed from record to record."""

    def __init__(self, folder, records, draw):
        self.folder, self.records, self.draw, self.read = folder, records, draw, 0
        self.block, self.page = draw.choice(SIZES)
        self.names, self.disk, self.pending, self.numbers, self.syncing = {}, {}, [], {}, None
        self.look()
        self.disk, self.pending = dict(self.names), []

    def look(self):
        """Takes the names of the folder that no record told, and the numbers of their files."""
        self.numbers = {}
        for name in sorted(os.listdir(self.folder)):
            path = f"{self.folder}/{name}"
            if name not in self.names:
                with open(path, "rb") as file:
                    self.change("N", name, None, File(file.read()))
            self.numbers[os.stat(path).st_ino] = self.names[name]

    def change(self, kind, name, other=None, file=None):
        self.pending.append((kind, name, other, file))
        change_names(self.names, (kind, name, other, file))

    def follow(self):
        """Takes the records that came since."""
        with contextlib.suppress(FileNotFoundError), open(self.records, "rb") as file:
            file.seek(self.read)
            for it in records_of(file.read()):
                self.take(*it[:4])
                self.read += it[4]

    def take(self, kind, number, place, text):
        file = self.numbers.get(number)
        if kind == "N":
            self.numbers[number] = File()
            self.change("N", os.path.basename(text.decode()), None, self.numbers[number])
        elif kind == "R":
            name, other = (os.path.basename(it.decode()) for it in text.split(b"\0"))
            self.change("R", name, other, self.names.get(name))
        elif kind == "U":
            self.change("U", os.path.basename(text.decode()))
        elif file is None:
            self.take_folder(kind)
        elif kind == "W":
            file.write(place, text, self.page)
        elif kind == "T":
            file.cut(place)
        elif kind == "B":
            file.syncing = set()
        elif kind == "S":
            file.sync(self.page)
        else:
            file.fail(self.draw, self.block, self.page)

    def take_folder(self, kind):
        """A sync of the folder, or of another one."""
        if kind == "B":
            self.syncing = len(self.pending)
        elif kind == "S" and self.syncing is not None:
            for it in self.pending[: self.syncing]:
                change_names(self.disk, it)
            self.pending, self.syncing = self.pending[self.syncing :], None

    def power_cut(self):
        """Puts into the folder what a power cut leaves."""
        self.killed()
        share = self.draw.choice((0, 0.5, 1))
        for it in self.pending:
            if self.draw.random() < share:
                change_names(self.disk, it)
        self.names, self.pending, self.syncing = dict(self.disk), [], None
        for it in {id(it): it for it in self.names.values()}.values():
            it.lose(self.draw, self.block, self.page)
        for name in os.listdir(self.folder):
            os.remove(f"{self.folder}/{name}")
        for name, it in self.names.items():
            with open(f"{self.folder}/{name}", "wb") as file:
                file.write(it.disk)
        self.look()

    def killed(self):
        """The program was killed: what it wrote is there. (Its last write may be told, and not done.)"""
        self.follow()
        self.look()
        for name, it in self.names.items():
            with open(f"{self.folder}/{name}", "rb") as file:
                it.cache = bytearray(file.read())


def change_names(names, change):
    kind, name, other, file = change
    if kind == "N":
        names[name] = file
    elif kind == "U":
        names.pop(name, None)
    elif file is not None:
        names.pop(name, None)
        names[other] = file
