"""What the scripts share: a server in a folder of its own, a client that speaks bare NBD, and a client of the
control port (tools/nbdmirror_control.py).

It needs nothing but an interpreter's standard library. The program is crates/nbdmirror/out/nbdmirror,
or what NBDMIRROR names.

  interop/nbd.py ports N    prints N free ports, for scripts in other languages
"""
import os
import random
import resource
import shutil
import signal
import socket
import struct
import subprocess
import sys
import tempfile
import threading
import time

TOP = os.path.dirname(os.path.dirname(os.path.abspath(__file__)))
sys.path.insert(0, f"{TOP}/tools")
from nbdmirror_control import Control, stripes_in  # pylint: disable=wrong-import-position

PROGRAM = os.path.abspath(os.environ.get("NBDMIRROR", f"{TOP}/crates/nbdmirror/out/nbdmirror"))
BLOCK = 512
MIB = 1 << 20

REQUEST, REPLY = 0x25609513, 0x67446698
READ, WRITE, DISC, FLUSH, TRIM, WRITE_ZEROES = 0, 1, 2, 3, 4, 6
FUA = 1
EIO, ENOMEM = 5, 12
# Bounds on waiting are for a machine with nothing else to do, and a slow or busy one gets so many times as much.
PATIENCE = 5

# A script that is told to stop ends its server first.
signal.signal(signal.SIGTERM, lambda *_: sys.exit(1))


def figure(text):
    """A line with what was measured."""
    print(f"  {text}", flush=True)


def wait_until(holds, seconds, what):
    """Waits until holds() is true, for so many seconds on an idle machine."""
    seconds *= PATIENCE
    end = time.monotonic() + seconds
    while not holds():
        assert time.monotonic() < end, f"not within {seconds} seconds: {what}"
        time.sleep(0.05)


class Hand(threading.Thread):
    """A thread that is at work already, and whose fault `finish` raises."""

    def __init__(self, work, *words):
        super().__init__()
        self.work, self.words, self.fault = work, words, None
        self.start()

    def run(self):
        try:
            self.work(*self.words)
        except BaseException as fault:  # pylint: disable=broad-except
            self.fault = fault

    def finish(self):
        """Waits for its end, which must be a good one."""
        self.join()
        if self.fault:
            raise self.fault


def free_port():
    """A port below those that the system hands out, so that no client takes it meanwhile."""
    while True:
        port = random.randrange(15000, 32000)
        with socket.socket() as trial:
            try:
                trial.bind(("127.0.0.1", port))
                return port
            except OSError:
                pass


def free_ports(count):
    """So many of them, no two the same."""
    ports = set()
    while len(ports) < count:
        ports.add(free_port())
    return list(ports)


def used_by(pid):
    """Threads, descriptors, and memory in KiB of a process."""
    with open(f"/proc/{pid}/status", encoding="ascii") as file:
        fields = dict(line.split(":", 1) for line in file)
    return int(fields["Threads"]), len(os.listdir(f"/proc/{pid}/fd")), int(fields["VmRSS"].split()[0])


class Server:
    """A running nbdmirror over leg files that it makes where they are not there: as many as `legs` says, in a folder
    of its own or those of `folders`, or `files`. It has no superblocks where no option says otherwise."""
    superblocks = ("--superblock", "none")

    def __init__(self, legs=1, size=8 * MIB, options=(), address_space=None, stack=None, one_arena=False,
                 folders=None, files=None, program=PROGRAM, environment=None):
        self.room = tempfile.mkdtemp(prefix="nbdmirror-")
        self.program = program
        self.files = files or [f"{(folders or {}).get(n, self.room)}/leg{n}" for n in range(legs)]
        for name in self.files:
            if not os.path.exists(name):
                with open(name, "wb") as file:
                    file.truncate(size)
        self.size = size
        self.options = [*(() if "--superblock" in options else self.superblocks), *options]
        self.bounds = {resource.RLIMIT_AS: address_space, resource.RLIMIT_STACK: stack}
        # With one arena address space is what is used, and not what threads set aside.
        self.environment = {**({"MALLOC_ARENA_MAX": "1"} if one_arena else {}), **(environment or {})}
        self.process = None

    def __enter__(self):
        try:
            self.start()
        except BaseException:
            self.__exit__()
            raise
        return self

    def __exit__(self, *_):
        self.end()

    def end(self):
        """Takes all of it away that is still there."""
        if self.process:
            self.kill()
        shutil.rmtree(self.room, ignore_errors=True)

    def errors(self):
        """What the server has written on standard error."""
        with open(f"{self.room}/err", encoding="utf-8", errors="replace") as file:
            return file.read()

    def printed(self):
        """What the server has written on standard output."""
        with open(f"{self.room}/out", encoding="utf-8") as file:
            return file.read()

    def start(self, *options):
        """Starts it and waits until it listens."""
        for _ in range(5):
            if self.try_start(options):
                return
        raise AssertionError(f"the server does not start: {self.errors()}")

    def launch(self, options=()):
        """Starts it at free ports, and does not wait."""
        self.port, self.control_port = free_ports(2)
        words = [self.program, "--listen", f"127.0.0.1:{self.port}",
                 "--control", f"127.0.0.1:{self.control_port}", *self.options, *options, *self.files]

        def bound():
            for limit, most in self.bounds.items():
                if most:
                    resource.setrlimit(limit, (most, most))

        with open(f"{self.room}/out", "wb") as out, open(f"{self.room}/err", "wb") as err:
            self.process = subprocess.Popen(words, stdin=subprocess.DEVNULL, stdout=out, stderr=err,
                                            preexec_fn=bound if any(self.bounds.values()) else None,
                                            env={**os.environ, **self.environment})

    def try_start(self, options):
        self.launch(options)
        end = time.monotonic() + 60 * PATIENCE
        while time.monotonic() < end and self.process.poll() is None:
            if "control on" in self.printed():
                return True
            time.sleep(0.005)
        status = self.process.poll()
        self.kill()
        assert status == 4, f"the server ends with status {status} as it starts: {self.errors()}"
        return False

    def kill(self):
        """Ends it as a crash would."""
        if self.process.poll() is None:
            self.process.kill()
        self.process.wait()
        self.process = None

    def quit(self, seconds=60):
        """Ends it by the control port; all clients have left."""
        assert self.control("quit") == ["bye"]
        status = self.process.wait(seconds * PATIENCE)
        assert status == 0, f"the server ends with status {status}: {self.errors()}"
        self.process = None

    def check_alive(self, seconds=30):
        """It must still run and serve, once it has a place."""
        wait_until(self.serves, seconds, "a new client is served")

    def serves(self):
        """Whether a new client is served. False where no place is free."""
        status = self.process.poll()
        assert status is None, f"the server has ended with status {status}: {self.errors()}"
        try:
            client = Client(self.port)
        except ConnectionResetError:
            return False
        with client:
            client.call(READ, 0, BLOCK)
            client.leave()
        return True

    def control(self, line):
        """The lines of an answer of the control port."""
        with Control(("127.0.0.1", self.control_port), 60 * PATIENCE) as port:
            port.send(line)
            return [*port.status_lines(), "end"] if line == "status" else [port.next_line()]

    def legs(self):
        """For each stripe how its legs stand. A stripe that stopped has none."""
        return [stripe.get("legs", []) for stripe in stripes_in(self.control("status")[:-1])]

    def states(self, leg):
        """How this leg stands in each stripe: in, out, join; None where the stripe stopped."""
        return [legs[leg]["state"] if legs else None for legs in self.legs()]

    def in_sync(self, leg):
        """Whether a leg is in sync in each stripe."""
        return set(self.states(leg)) == {"in"}

    def is_out(self, leg):
        """Whether a leg is out in some stripe."""
        return "out" in self.states(leg)

    def wait_for_copy(self, seconds=120):
        """Waits until no leg is being copied."""
        wait_until(lambda: not any(leg["state"] == "join" for legs in self.legs() for leg in legs),
                   seconds, "the end of a copy")

    def heal(self, leg, seconds=120):
        """Attaches a leg and waits until it is in sync."""
        self.control(f"attach {leg}")
        self.wait_for_copy(seconds)
        assert self.in_sync(leg), f"leg {leg} is not in sync: {self.legs()}"

    def used(self):
        """Threads, descriptors, and memory in KiB."""
        return used_by(self.process.pid)

    def used_at_rest(self, seconds=60):
        """What is used once threads and descriptors have stayed the same for half a second."""
        end, last, since = time.monotonic() + seconds * PATIENCE, None, 0.0
        while time.monotonic() < end:
            now = self.used()
            if last is None or now[:2] != last[:2]:
                last, since = now, time.monotonic()
            elif time.monotonic() - since > 0.5:
                return now
            time.sleep(0.05)
        raise AssertionError(f"the server does not come to rest: {self.used()}")

    def bound_address_space(self, most):
        """Bounds the address space of the server that runs: what it read of its bounds at its start is more."""
        resource.prlimit(self.process.pid, resource.RLIMIT_AS, (most, most))

    def address_space_used(self):
        """The address space in bytes."""
        with open(f"/proc/{self.process.pid}/statm", encoding="ascii") as file:
            return int(file.read().split()[0]) * resource.getpagesize()

    def wait_for_use(self, before, more_memory, seconds=60):
        """Waits until threads and descriptors are as before, and memory at most so much (KiB) above."""
        def is_as_before():
            now = self.used()
            return now[:2] == before[:2] and now[2] <= before[2] + more_memory
        try:
            wait_until(is_as_before, seconds, "threads, descriptors and memory as before")
        except AssertionError:
            raise AssertionError(f"before {before}, now {self.used()}") from None
        return self.used()

    def check_legs_equal(self):
        """All legs' files must hold the same bytes."""
        for other in self.files[1:]:
            assert subprocess.run(["cmp", self.files[0], other], check=False).returncode == 0


def need_strace():
    """Leaves with the status of a script that cannot run where there is no strace that may trace here."""
    why = None
    if not shutil.which("strace"):
        why = "strace is not installed"
    elif subprocess.run(["strace", "-o", "/dev/null", "true"], capture_output=True, check=False).returncode:
        why = "strace may not trace here"
    if why:
        print(f"  {why}", file=sys.stderr)
        sys.exit(77)


class Traced:
    """While it stands, the server's calls of these names are written down, and tampered with as further words say."""

    def __init__(self, server, names, *tampering):
        self.pid = server.process.pid
        self.log = f"{server.room}/strace"
        words = ["-e", f"trace={names}", *(word for it in tampering for word in ("-e", it))]
        self.process = subprocess.Popen(
            ["strace", "-f", "-qq", *words, "-o", self.log, "-p", str(self.pid)],
            stdin=subprocess.DEVNULL, stderr=subprocess.DEVNULL)

    def __enter__(self):
        wait_until(self.is_attached, 30, "strace attaches")
        return self

    def __exit__(self, *_):
        self.process.send_signal(signal.SIGINT)
        self.process.wait()

    def is_attached(self):
        """Whether all of the server's threads are traced."""
        assert self.process.poll() is None, "strace does not attach"
        text = subprocess.run(f"cat /proc/{self.pid}/task/*/status", shell=True, capture_output=True, text=True,
                              check=False).stdout
        tracers = [line.split()[1] for line in text.splitlines() if line.startswith("TracerPid")]
        return bool(tracers) and all(it == str(self.process.pid) for it in tracers)

    def calls(self):
        """The text of each call so far, from its name on. One that is cut in two counts where it begins."""
        with open(self.log, encoding="utf-8", errors="replace") as file:
            begun = [line.split(maxsplit=1)[1] for line in file if "(" in line and "resumed>" not in line]
        return [line.split("<")[0].strip() for line in begun]


def request(kind, offset, length, payload=b"", cookie=7, flags=0):
    """The bytes of a request."""
    return struct.pack(">IHHQQI", REQUEST, flags, kind, cookie, offset, length) + payload


def option(number, payload=b""):
    """The bytes of an option of the handshake."""
    return b"IHAVEOPT" + struct.pack(">II", number, len(payload)) + payload


GREETING = b"NBDMAGICIHAVEOPT\0\3"
GO = option(7, struct.pack(">I", 4) + b"disk" + b"\0\0")
HANDSHAKE = struct.pack(">I", 3) + GO


class Refused(Exception):
    """A request was answered with an error."""

    def __init__(self, error):
        super().__init__(f"error {error}")
        self.error = error


class Client:
    """A session after its handshake. Requests may be sent ahead; a reply is told by its cookie."""

    def __init__(self, port, timeout=60.0 * PATIENCE):
        self.socket = socket.create_connection(("127.0.0.1", port), timeout=timeout)
        self.socket.setsockopt(socket.IPPROTO_TCP, socket.TCP_NODELAY, 1)
        self.input = self.socket.makefile("rb", buffering=1 << 18)
        self.lengths = {}
        self.cookie = 0
        try:
            assert self.take(18) == GREETING
            self.socket.sendall(HANDSHAKE)
            kind = 0
            while kind != 1:
                _, _, kind, length = struct.unpack(">QIII", self.take(20))
                self.take(length)
        except BaseException:
            self.close()
            raise

    def __enter__(self):
        return self

    def __exit__(self, *_):
        self.close()

    def close(self):
        """Leaves without a word."""
        self.input.close()
        self.socket.close()

    def leave(self):
        """Leaves by a DISC, and waits for the server to close."""
        self.socket.sendall(request(DISC, 0, 0))
        assert self.input.read(1) == b""
        self.close()

    def take(self, count):
        """So many bytes of the server's."""
        found = self.input.read(count)
        if len(found) < count:
            raise ConnectionResetError("the server closed the connection")
        return found

    def prepare(self, kind, offset, length, payload=b"", flags=0):
        """The bytes of a request whose reply is then expected, and its cookie."""
        self.cookie += 1
        self.lengths[self.cookie] = length if kind == READ else 0
        return request(kind, offset, length, payload, self.cookie, flags), self.cookie

    def send(self, *words, **more):
        """Sends a request and returns its cookie."""
        text, cookie = self.prepare(*words, **more)
        self.socket.sendall(text)
        return cookie

    def receive(self):
        """The next reply: cookie, error and a READ's bytes."""
        magic, error, cookie = struct.unpack(">IIQ", self.take(16))
        assert magic == REPLY, f"a reply begins with {magic:08x}"
        length = self.lengths.pop(cookie)
        return cookie, error, self.take(length) if error == 0 else b""

    def read_at_once(self, count):
        """So many READs of a block in one piece, which are all handed out before the first reply."""
        texts = [self.prepare(READ, turn * BLOCK, BLOCK)[0] for turn in range(count)]
        self.socket.sendall(b"".join(texts))
        for _ in texts:
            self.receive()

    def call(self, *words, **more):
        """A request and its reply, with nothing else outstanding."""
        cookie = self.send(*words, **more)
        found, error, payload = self.receive()
        assert found == cookie, f"cookie {found} for {cookie}"
        if error:
            raise Refused(error)
        return payload


if __name__ == "__main__":
    assert sys.argv[1] == "ports", __doc__
    print(*free_ports(int(sys.argv[2])))
