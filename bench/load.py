"""fio as a client of a server's export, for the benchmarks."""
import json
import subprocess
import tempfile


def started(port, size, seconds, words):
    """fio as it works on the export for so long. `words` are its own options, as one text."""
    return subprocess.Popen(
        ["fio", "--name=row", "--ioengine=nbd", f"--uri=nbd://127.0.0.1:{port}/disk", f"--size={size}",
         "--time_based", f"--runtime={seconds}", "--output-format=json", "--group_reporting", *words.split()],
        stdout=subprocess.PIPE, stderr=subprocess.PIPE, text=True, cwd=tempfile.gettempdir())


def finished(ran):
    """What a fio that was started tells of all its jobs together, once it has ended."""
    out, err = ran.communicate()
    if ran.returncode != 0:
        raise SystemExit(f"fio fails: {err[-500:]}")
    return json.loads(out[out.index("{"):])["jobs"][0]


def worked(port, size, seconds, words):
    """The same, from its start to its end."""
    with started(port, size, seconds, words) as ran:
        return finished(ran)
