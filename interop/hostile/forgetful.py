"""A disk that forgets what was not synced: a file system in this process, by the kernel's FUSE protocol alone.

Each read and write of a program comes here (direct I/O: the system keeps no page). At a cut each sector of 512 bytes that
was written since the last sync of its file holds what it held then, or any one of the values written since; the file's
length is the old or the new one; and a name that was made or removed since the last sync of the folder is there or not.
"""
import contextlib
import ctypes
import errno
import os
import shutil
import stat
import struct
import threading

SECTOR = 512
HEADER, REPLY = struct.Struct("<IIQQIIIHH"), struct.Struct("<IiQ")
ATTRIBUTES = struct.Struct("<6Q10I")
(LOOKUP, FORGET, GETATTR, SETATTR, UNLINK, OPEN, READ, WRITE, STATFS, RELEASE, FSYNC, FLUSH, INIT, OPENDIR, READDIR,
 RELEASEDIR, FSYNCDIR, ACCESS, CREATE, INTERRUPT, BATCH_FORGET) = (
     1, 2, 3, 4, 10, 14, 15, 16, 17, 18, 20, 25, 26, 27, 28, 29, 30, 34, 35, 36, 42)
# What a reply to OPEN says: no page is kept. What SETATTR sets: a length.
DIRECT_IO, SIZE = 1, 8
# How many bytes a WRITE has at most, and a request beside its data.
MOST, ROOM = 1 << 17, 1 << 16
FOLDER = 1
LIBC = ctypes.CDLL(None, use_errno=True)


class File:
    """What a file holds now, what of it is durable, and the values of each sector since."""

    def __init__(self, number, size=0):
        self.number = number
        self.now, self.durable = bytearray(size), bytearray(size)
        self.since = {}

    def resize(self, size):
        """A file that is made longer or shorter. A sector past the end has no values."""
        del self.now[size:]
        self.now.extend(bytes(size - len(self.now)))
        self.since = {at: values for at, values in self.since.items() if at * SECTOR < size}

    def write(self, at, data):
        """Writes, and keeps what each sector that it meets then holds."""
        if at + len(data) > len(self.now):
            self.now.extend(bytes(at + len(data) - len(self.now)))
        self.now[at:at + len(data)] = data
        for sector in range(at // SECTOR, (at + len(data) + SECTOR - 1) // SECTOR):
            self.since.setdefault(sector, []).append(bytes(self.now[sector * SECTOR:(sector + 1) * SECTOR]))

    def sync(self):
        """All of it is durable."""
        if len(self.now) != len(self.durable):
            self.durable = bytearray(self.now)
        for sector in self.since:
            span = slice(sector * SECTOR, (sector + 1) * SECTOR)
            self.durable[span] = self.now[span]
        self.since = {}

    def cut(self, rng, share):
        """Loses power: of each sector that was written since the last sync what it held then, or else a value since."""
        lost = 0
        if len(self.now) != len(self.durable) and rng.random() < share:
            self.durable.extend(bytes(max(0, len(self.now) - len(self.durable))))
            del self.durable[len(self.now):]
        for sector, values in self.since.items():
            at = sector * SECTOR
            if rng.random() < share and at < len(self.durable):
                value = rng.choice(values)[:len(self.durable) - at]
                self.durable[at:at + len(value)] = value
            else:
                lost += 1
        self.now, self.since = bytearray(self.durable), {}
        return lost


class Forgetful:
    """The file system, mounted at a folder. One thread answers."""

    def __init__(self, folder, rng):
        self.folder, self.rng = folder, rng
        self.lock = threading.Lock()
        self.files, self.names, self.durable_names = {}, {}, {}
        self.last_number = FOLDER
        self.power, self.is_dark, self.syncs = True, threading.Event(), 0
        self.has_asked = threading.Event()
        self.device = os.open("/dev/fuse", os.O_RDWR | os.O_CLOEXEC)
        options = f"fd={self.device},rootmode=40755,user_id={os.getuid()},group_id={os.getgid()},allow_other"
        if LIBC.mount(b"forgetful", folder.encode(), b"fuse", 6, options.encode()):
            why = os.strerror(ctypes.get_errno())
            os.close(self.device)
            raise OSError(why)
        self.thread = threading.Thread(target=self.serve, daemon=True)
        self.thread.start()

    def close(self):
        """Takes it away."""
        LIBC.umount2(self.folder.encode(), 2)
        self.thread.join(10)
        os.close(self.device)

    def make(self, name, size):
        """A file of zeroes, durable."""
        with self.lock:
            self.durable_names[name] = self.names[name] = self.new_file(size).number

    def new_file(self, size=0):
        """A file without a name."""
        self.last_number += 1
        self.files[self.last_number] = File(self.last_number, size)
        return self.files[self.last_number]

    def contents(self, name):
        """What a file holds."""
        with self.lock:
            return bytes(self.files[self.names[name]].now)

    def durable_contents(self, name):
        """What a cut that loses all leaves of it."""
        with self.lock:
            return bytes(self.files[self.durable_names[name]].durable)

    def cut(self, share=None):
        """The power goes: from here on nothing is answered until `dark`. About this share of what was not synced is kept.
        Gives how many sectors were lost."""
        with self.lock:
            self.power = False
            share = self.rng.choice([0.0, 0.1, 0.5, 0.9, 1.0]) if share is None else share
            lost = sum(file.cut(self.rng, share) for file in self.files.values())
            for name in set(self.names) | set(self.durable_names):
                old, new = self.durable_names.get(name), self.names.get(name)
                left = new if self.rng.random() < share else old
                for names in (self.names, self.durable_names):
                    names.pop(name, None)
                    if left:
                        names[name] = left
            return lost

    def hang(self):
        """From here on nothing is answered until `go_on`, and nothing is lost. `has_asked` says that something waits."""
        with self.lock:
            self.is_dark.clear()
            self.has_asked.clear()
            self.power = False

    def go_on(self):
        """What was asked for meanwhile is answered."""
        with self.lock:
            self.power = True
            self.is_dark.set()

    @contextlib.contextmanager
    def going_on(self):
        """It answers in the end, so that whoever waits for it can be ended."""
        try:
            yield
        finally:
            self.go_on()

    def dark(self):
        """What asked for something as the power went has been killed, and may be answered with an error."""
        self.is_dark.set()

    def restore(self):
        """The power is back, and no process of before is there."""
        with self.lock:
            self.power = True
            self.is_dark.clear()

    def serve(self):
        """Answers the kernel's requests until it is taken away."""
        while True:
            try:
                text = os.read(self.device, MOST + ROOM)
            except InterruptedError:
                continue
            except OSError as fault:
                if fault.errno == errno.ENOENT:
                    continue
                return
            _, kind, unique, node, *_ = HEADER.unpack_from(text)
            if kind in (FORGET, BATCH_FORGET, INTERRUPT):
                continue
            if not self.power and kind not in (GETATTR, LOOKUP, STATFS):
                self.has_asked.set()
                self.is_dark.wait()
            with self.lock:
                status, data = self.answer(kind, node, text[HEADER.size:])
            try:
                os.write(self.device, REPLY.pack(REPLY.size + len(data), -status, unique) + data)
            except OSError as fault:
                if fault.errno == errno.ENODEV:
                    return

    def answer(self, kind, node, body):
        """The error, or 0, and the data of a reply."""
        if kind == INIT:
            return 0, struct.pack("<IIIIHHIIHHI7I", 7, 31, 0, 0, 16, 12, MOST, 1, 0, 0, 0, *[0] * 7)
        if not self.power and kind not in (GETATTR, LOOKUP, STATFS):
            return errno.EIO, b""
        ways = {LOOKUP: self.look_up, GETATTR: self.tell, SETATTR: self.set, UNLINK: self.unlink, READ: self.read,
                WRITE: self.write, CREATE: self.create, READDIR: self.list}
        if kind in ways:
            return ways[kind](node, body)
        if kind in (OPEN, OPENDIR):
            return 0, struct.pack("<QII", 0, DIRECT_IO, 0)
        if kind == FSYNC:
            self.syncs += 1
            self.files[node].sync()
        elif kind == FSYNCDIR:
            self.durable_names = dict(self.names)
        elif kind == STATFS:
            return 0, struct.pack("<5Q4I6I", 1 << 30, 1 << 30, 1 << 30, 1 << 20, 1 << 20, 4096, 255, 4096, 0, *[0] * 6)
        elif kind not in (RELEASE, RELEASEDIR, FLUSH, ACCESS):
            return errno.ENOSYS, b""
        return 0, b""

    def attributes(self, node):
        """Those of the folder or of a file."""
        if node == FOLDER:
            return ATTRIBUTES.pack(node, 4096, 8, 0, 0, 0, 0, 0, 0, stat.S_IFDIR | 0o755, 2, 0, 0, 0, 4096, 0)
        size = len(self.files[node].now)
        return ATTRIBUTES.pack(node, size, size // SECTOR, 0, 0, 0, 0, 0, 0, stat.S_IFREG | 0o644, 1, 0, 0, 0, 4096, 0)

    def entry(self, node):
        """What LOOKUP tells of a name: nothing of it may be kept."""
        return struct.pack("<4QII", node, 0, 0, 0, 0, 0) + self.attributes(node)

    def look_up(self, _, body):
        node = self.names.get(body.rstrip(b"\0").decode())
        return (0, self.entry(node)) if node else (errno.ENOENT, b"")

    def tell(self, node, _):
        return 0, struct.pack("<QII", 0, 0, 0) + self.attributes(node)

    def set(self, node, body):
        valid, _, _, size = struct.unpack_from("<IIQQ", body)
        if valid & SIZE:
            self.files[node].resize(size)
        return self.tell(node, b"")

    def unlink(self, _, body):
        return (0, b"") if self.names.pop(body.rstrip(b"\0").decode(), None) else (errno.ENOENT, b"")

    def read(self, node, body):
        _, at, count = struct.unpack_from("<QQI", body)
        return 0, bytes(self.files[node].now[at:at + count])

    def write(self, node, body):
        _, at, count = struct.unpack_from("<QQI", body)
        self.files[node].write(at, body[40:40 + count])
        return 0, struct.pack("<II", count, 0)

    def create(self, _, body):
        file = self.new_file()
        self.names[body[16:].rstrip(b"\0").decode()] = file.number
        return 0, self.entry(file.number) + struct.pack("<QII", 0, DIRECT_IO, 0)

    def list(self, _, body):
        _, at, count = struct.unpack_from("<QQI", body)
        text = b""
        for place, (name, node) in enumerate(sorted(self.names.items()), 1):
            one = struct.pack("<QQII", node, place, len(name), stat.S_IFREG >> 12) + name.encode()
            one += bytes(-len(one) % 8)
            if place > at and len(text) + len(one) <= count:
                text += one
        return 0, text


def missing():
    """Why there can be no such disk here, or None."""
    if not os.path.exists("/dev/fuse"):
        return "there is no /dev/fuse"
    if os.geteuid():
        return "only root may mount"
    return None


def tidy(folder):
    """Takes a folder away on which one was mounted."""
    shutil.rmtree(folder, ignore_errors=True)
