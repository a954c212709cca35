"""Tries of crates with something in them made wrong: .ci/edits and tests/definitions/run.

Each try is done on a copy of the crates outside of the repository, over what is proved here, and several run side by side.
"""

import concurrent.futures
import fcntl
import hashlib
import json
import os
import re
import shutil
import subprocess
import sys
import tempfile
import threading
import time

ROOT = os.path.dirname(os.path.dirname(os.path.realpath(__file__)))
PARTS = ("src", "specs", "proofs")
# What hangs is stopped: a check takes a minute at most, or some where it has to build what it stands on.
LIMIT = 3600


def read(path):
    with open(path, encoding="utf-8") as file:
        return file.read()


def write(path, text):
    with open(path, "w", encoding="utf-8") as file:
        file.write(text)


def crates():
    return sorted(it for it in os.listdir(f"{ROOT}/crates") if os.path.isdir(f"{ROOT}/crates/{it}/src"))


def replaced(text, old, new):
    """The text with `old` replaced, which has to stand in it once; None where it doesn't."""
    return text.replace(old, new) if text.count(old) == 1 else None


def joined(log):
    """The lines of a log, what is indented behind the line that it belongs to."""
    lines = []
    for line in log.split("\n"):
        if line.startswith("  ") and lines:
            lines[-1] += " " + line.strip()
        else:
            lines.append(line)
    return lines


def link(one, other):
    # rt removes a file of a library before it makes it anew, and never writes into it.
    try:
        os.link(one, other)
    except OSError:
        shutil.copy2(one, other)


class Copy:
    """A copy of the crates, with the libraries that are built here."""

    def __init__(self, folder):
        self.folder, self.tried = folder, None
        os.makedirs(f"{folder}/crates")
        for name in ("crates.txt", "HANDLES"):
            if os.path.isfile(f"{ROOT}/{name}"):
                shutil.copy2(f"{ROOT}/{name}", folder)
        for crate in crates():
            self.restore(crate)
            built = f"{ROOT}/crates/{crate}/out/rlib"
            if os.path.isdir(built):
                shutil.copytree(built, f"{folder}/crates/{crate}/out/rlib", copy_function=link)

    def path(self, crate, inside=""):
        return f"{self.folder}/crates/{crate}/{inside}"

    def restore(self, crate):
        """The crate as it stands here."""
        for part in PARTS:
            shutil.rmtree(self.path(crate, part), ignore_errors=True)
            if os.path.isdir(f"{ROOT}/crates/{crate}/{part}"):
                shutil.copytree(f"{ROOT}/crates/{crate}/{part}", self.path(crate, part))

    def begin(self, crate):
        """The same, and what its own checks kept. The crate that was tried before, which others stand on, is put back first."""
        if self.tried:
            self.restore(self.tried)
        self.tried = crate
        self.restore(crate)
        kept = f"{ROOT}/crates/{crate}/out/incremental"
        if os.path.isdir(kept) and not os.path.isdir(self.path(crate, "out/incremental")):
            shutil.copytree(kept, self.path(crate, "out/incremental"))

    def apply(self, crate, pairs):
        """Replaces the second of each three by the third, in the file that is the first. Whether each stood there once."""
        for file, old, new in pairs:
            text = replaced(read(self.path(crate, file)), old, new)
            if text is None:
                return False
            write(self.path(crate, file), text)
        return True

    def rt(self, crate, *words):
        """The status and what rt says, in the crate's folder."""
        how = {"stdin": subprocess.DEVNULL, "stdout": subprocess.PIPE, "stderr": subprocess.STDOUT, "errors": "replace"}
        ran = subprocess.run(["rt", *words], cwd=self.path(crate), timeout=LIMIT, check=False, **how)
        return ran.returncode, ran.stdout

    def check(self, crate, *flags):
        return self.rt(crate, "check", "--jobs", "1", *flags)

    def names(self, crate):
        """The names that rt gives the steps and goals of the crate's functions as it stands in the copy."""
        with tempfile.TemporaryDirectory() as room:
            self.rt(crate, "names", room)
            listed = f"{room}/names.json"
            return json.loads(read(listed)) if os.path.isfile(listed) else {}


def side_by_side():
    """How many checks run at once: RT_JOBS, or one a processor and 3 GB of free memory."""
    given = os.environ.get("RT_JOBS", "")
    if given.isdigit() and int(given):
        return int(given)
    free = re.search(r"MemAvailable:\s+(\d+)", read("/proc/meminfo"))
    room = int(free[1]) // 3_000_000 if free else 1
    return max(1, min(len(os.sched_getaffinity(0)), room))


def run_all(tasks, work, tell):
    """Does work(copy, task) for each task, several at once on a copy each, has tell print what each gave, and returns that in their order."""
    owner = hashlib.sha256(ROOT.encode()).hexdigest()[:8]
    top = f"{tempfile.gettempdir()}/jwe-gateway-tries-{os.geteuid()}-{owner}"
    os.makedirs(top, mode=0o700, exist_ok=True)
    if os.stat(top).st_uid != os.geteuid():
        sys.exit(f"{top} is somebody else's")
    with open(f"{top}/lock", "w", encoding="utf-8") as lock:
        fcntl.flock(lock, fcntl.LOCK_EX)
        own, telling = threading.local(), threading.Lock()
        number = iter(range(len(tasks)))

        def one(task):
            if not hasattr(own, "copy"):
                own.copy = Copy(f"{top}/{next(number)}")
            begun = time.monotonic()
            found = work(own.copy, task)
            with telling:
                tell(found, time.monotonic() - begun)
            return found

        def clear():
            for name in os.listdir(top):
                shutil.rmtree(f"{top}/{name}", ignore_errors=True)

        clear()
        try:
            with concurrent.futures.ThreadPoolExecutor(side_by_side()) as pool:
                return list(pool.map(one, tasks))
        finally:
            clear()
