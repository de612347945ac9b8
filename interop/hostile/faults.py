"""A leg's file answers wrongly: strace gets between the server and its calls of that file."""
import shutil
import signal
import subprocess

import harness as h


def need_strace():
    """Leaves with the status that says so where there is no strace that may attach."""
    if not shutil.which("strace"):
        h.not_run("strace is not installed")
    trial = subprocess.run(["strace", "-o", "/dev/null", "true"], capture_output=True, check=False)
    if trial.returncode:
        h.not_run("strace may not trace here")


class Fault:
    """While it stands, the server's calls of one leg's file are tampered with, as in `pwrite64:error=EIO`."""

    def __init__(self, server, leg, *tampering):
        self.log = f"{server.room}/strace"
        words = ["strace", "-f", "-qq", "-o", self.log, "-p", str(server.process.pid),
                 "-P", server.files[leg]]
        names = ",".join(it.split(":")[0] for it in tampering)
        words += ["-e", f"trace={names}"] + [f"--inject={it}" for it in tampering]
        self.process = subprocess.Popen(words, stdin=subprocess.DEVNULL, stderr=subprocess.DEVNULL)
        status = f"/proc/{server.process.pid}/task"
        h.wait_until(lambda: self.is_attached(status), 30, "strace attaches")

    def is_attached(self, tasks):
        """Whether all of the server's threads are traced."""
        assert self.process.poll() is None, "strace does not attach"
        text = subprocess.run(f"cat {tasks}/*/status", shell=True, capture_output=True, text=True,
                              check=False).stdout
        tracers = [line.split()[1] for line in text.splitlines() if line.startswith("TracerPid")]
        return bool(tracers) and all(it == str(self.process.pid) for it in tracers)

    def __enter__(self):
        return self

    def __exit__(self, *_):
        self.process.send_signal(signal.SIGINT)
        self.process.wait()

    def count(self):
        """How many calls were tampered with so far."""
        with open(self.log, encoding="utf-8", errors="replace") as file:
            return sum("(INJECTED)" in line or "(DELAYED)" in line for line in file)
