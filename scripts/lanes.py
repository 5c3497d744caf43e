"""How ./test works through its jobs: side by side, with a report a group, and an end that leaves nothing behind."""

import os
import shutil
import signal
import subprocess
import sys
import tempfile
import threading
import time

# How many jobs at once, and after how many seconds a run of the program or a script is given up.
LANES, RUN_SECONDS, SCRIPT_SECONDS = 2, 60, 240
# Where nobody looks on, the count is told so often.
SECONDS_APART = 15


class RowsJob:
    """The stored runs of a command."""

    def __init__(self, group, rows):
        self.group, self.rows = group, rows

    def names(self):
        return [row.name for row in self.rows]

    def only(self, names):
        """The job of those rows alone that are named."""
        return RowsJob(self.group, [row for row in self.rows if row.name in names])

    def run(self, work):
        room = tempfile.mkdtemp(dir=work.room)
        for row in self.rows:
            if work.is_over:
                return
            work.tell(self.group, row.name, row.faults(work.outcome, room))


class ScriptJob:
    """A script, or a part of one: it writes a line for each thing that it tries, `ok: ..`, or `NOT: ..` or `WRONG: ..` where it does not hold."""

    def __init__(self, group, name, words):
        self.group, self.name, self.words = group, name, words

    def names(self):
        return [self.name]

    def only(self, names):
        return self

    def run(self, work):
        """Tries it, and once more where something failed: a busy machine may hold a service up. What fails twice has failed."""
        found = self.outcomes(work)
        if any(faults for _, faults in found) and not work.is_over:
            found = self.outcomes(work)
        for name, faults in found:
            work.tell(self.group, name, faults)

    def outcomes(self, work):
        """What was tried, each with what is wrong with it, or None."""
        environment = {**os.environ, "ALLOCD_PROGRAM": work.program, "TMPDIR": work.room, "PYTHONDONTWRITEBYTECODE": "1"}
        how = {"env": environment, "stdin": subprocess.DEVNULL, "stdout": subprocess.PIPE, "stderr": subprocess.STDOUT}
        more, found = [], []
        with work.started(self.words, SCRIPT_SECONDS, **how) as it:
            for line in it.stdout:
                line = line.decode(errors="replace").rstrip("\n")
                kind, _, what = line.partition(": ")
                if kind not in ("ok", "NOT", "WRONG"):
                    more = [*more[-7:], line]
                    continue
                found.append((f"{self.name}: {what}", None if kind == "ok" else more or ["it does not hold"]))
                more = []
        if it.returncode and not any(faults for _, faults in found):
            found.append((self.name, [*more, f"ended with status {it.returncode}"]))
        return found


class Started:
    """A process with all that it starts: at the end, and where it takes too long, none of that is left."""

    def __init__(self, work, words, seconds, **how):
        self.work, self.seconds = work, seconds
        self.it = subprocess.Popen(words, start_new_session=True, **how)

    def __enter__(self):
        self.timer = threading.Timer(self.seconds, self.kill)
        self.timer.start()
        self.work.running.add(self)
        if self.work.is_over:
            self.kill()
        return self.it

    def __exit__(self, *_):
        if self.it.stdout:
            self.it.stdout.close()
        self.it.wait()
        self.timer.cancel()
        self.kill()
        self.work.running.discard(self)

    def kill(self):
        try:
            os.killpg(self.it.pid, signal.SIGKILL)
        except ProcessLookupError:
            pass


class Work:
    """Jobs, and what came of each row."""

    def __init__(self, program, jobs):
        self.program, self.jobs, self.count = program, list(jobs), len(jobs)
        self.lock, self.running, self.is_over = threading.Lock(), set(), False
        self.left = {}
        for job in jobs:
            self.left[job.group] = self.left.get(job.group, 0) + 1
        self.passed, self.failed = dict.fromkeys(self.left, 0), {group: [] for group in self.left}
        self.is_seen = sys.stderr.isatty()

    def started(self, words, seconds, **how):
        return Started(self, words, seconds, **how)

    def outcome(self, words, text, folder, errors=subprocess.DEVNULL):
        """The status of a run of the program, and what it wrote. What it wrote to standard error goes to a file, if one is given."""
        how = {"cwd": folder, "stdin": subprocess.PIPE, "stdout": subprocess.PIPE, "stderr": errors}
        with self.started([self.program, *words], RUN_SECONDS, **how) as it:
            found = it.communicate(text)[0]
        return it.returncode, found

    def tell(self, group, name, faults):
        """What came of a row: its faults, or None."""
        with self.lock:
            if faults is None:
                self.passed[group] += 1
            elif not self.is_over:
                self.failed[group].append((name, faults))

    def counts(self):
        return sum(self.passed.values()), sum(map(len, self.failed.values()))

    def lane(self):
        """Does one job after the other until none is left."""
        while not self.is_over:
            with self.lock:
                if not self.jobs:
                    return
                job = self.jobs.pop(0)
            job.run(self)
            with self.lock:
                self.left[job.group] -= 1
                if not self.left[job.group] and not self.is_over:
                    self.tell_group(job.group)

    def tell_group(self, group):
        failed = self.failed[group]
        lines = [f"{group}: {self.passed[group]} passed{f', {len(failed)} failed' if failed else ''}"]
        for name, faults in failed:
            lines += [f"  FAILED {name}", *(f"    {line}" for line in faults)]
        self.clear()
        print("\n".join(lines), flush=True)

    def clear(self):
        if self.is_seen:
            print("\r\033[K", end="", file=sys.stderr, flush=True)

    def tell_count(self):
        passed, failed = self.counts()
        line = f"{passed} passed, {failed} failed so far; {self.count - sum(self.left.values())} of {self.count} parts done"
        print(f"\r\033[K{line}" if self.is_seen else line, end="" if self.is_seen else "\n", file=sys.stderr, flush=True)

    def run(self):
        """Does all, and gives how many rows passed and failed."""
        self.room = tempfile.mkdtemp(prefix="allocd-test-")
        lanes = [threading.Thread(target=self.lane) for _ in range(LANES)]
        try:
            for lane in lanes:
                lane.start()
            told = time.monotonic()
            while any(lane.is_alive() for lane in lanes):
                time.sleep(0.1)
                if time.monotonic() - told > (0.3 if self.is_seen else SECONDS_APART):
                    told = time.monotonic()
                    self.tell_count()
        finally:
            self.is_over = True
            for it in list(self.running):
                it.kill()
            for lane in lanes:
                lane.join()
            self.clear()
            for _ in range(50):
                if not end_strays(self.room):
                    break
                time.sleep(0.1)
            remove(self.room)
        return self.counts()


def end_strays(room):
    """Ends what a script has started in a session of its own, and left: it was told of this room. Says whether there was any."""
    found = False
    for name in filter(str.isdigit, os.listdir("/proc")):
        try:
            with open(f"/proc/{name}/environ", "rb") as it:
                is_ours = f"TMPDIR={room}".encode() in it.read().split(b"\0")
            if is_ours:
                os.kill(int(name), signal.SIGKILL)
                found = True
        except OSError:
            pass
    return found


def remove(folder):
    """Removes a folder, and what a script that was cut off has mounted in it."""
    with open("/proc/mounts") as it:
        for place in [line.split()[1] for line in it]:
            if place.startswith(f"{folder}/"):
                subprocess.run(["umount", "-l", place], stderr=subprocess.DEVNULL)
    shutil.rmtree(folder, ignore_errors=True)
