"""Commands that wait for one another, as many at a time as there are processors and memory for.

The first of them is the one with the longest chain of work behind it. It has all processors that it can use. A check leaves
processors idle at its beginning and its end, so the others run beside it, on half as many jobs and at a lower priority."""
import os
import signal
import subprocess
import sys
import time

from crates import ROOT, text_of

LOGS = f"{ROOT}/target/log"
# The priority of what runs beside the first: so much nicer.
NICER = 10


def processors():
    """How many there are to use: RT_JOBS says, or those that this process may run on."""
    return int(os.environ.get("RT_JOBS") or len(os.sched_getaffinity(0)))


class Task:
    """A command. `words` makes it of a number of jobs, of which it can use `most`; it starts once the tasks named in `after`
    have ended well. `work` is how much there is to do, in lines, and `memory` how many bytes one job takes. `what` is said of
    it when it has ended well. Where it fails it ends all others, or, if it is `alone`, those that wait for it."""

    def __init__(self, name, words, after=(), most=1, work=1, memory=0, cwd=ROOT, what="proved", alone=False):
        self.name, self.words, self.after, self.most, self.work = name, words, list(after), most, work
        self.memory, self.cwd, self.what, self.alone = memory, cwd, what, alone
        self.jobs, self.is_first, self.status, self.seconds, self.worked = 0, True, None, 0, 0

    def log(self):
        return f"{LOGS}/{self.name}.log"

    def text(self):
        return text_of(self.log())

    def start(self, jobs, is_first):
        os.makedirs(LOGS, exist_ok=True)
        self.jobs, self.is_first, self.began = jobs, is_first, time.monotonic()
        words = self.words(jobs) if is_first else ["nice", "-n", str(NICER), *self.words(jobs)]
        with open(self.log(), "wb") as log:
            self.ran = subprocess.Popen(words, cwd=self.cwd, stdin=subprocess.DEVNULL, stdout=log, stderr=subprocess.STDOUT, start_new_session=True)

    def has_ended(self):
        pid, status, used = os.wait4(self.ran.pid, os.WNOHANG)
        if not pid:
            return False
        self.status = self.ran.returncode = os.WEXITSTATUS(status) if os.WIFEXITED(status) else -os.WTERMSIG(status)
        self.seconds, self.worked = time.monotonic() - self.began, used.ru_utime + used.ru_stime
        return True

    def end(self):
        try:
            os.killpg(self.ran.pid, signal.SIGTERM)
        except ProcessLookupError:
            pass
        self.ran.wait()

    def takes(self, jobs):
        """The memory for so many jobs: each after the first takes less than the first."""
        return self.memory * (1 + 0.6 * (jobs - 1))


def chains(tasks):
    """How much work each task has in it and in what waits for it, along the longest way."""
    behind = {}

    def chain(task):
        if task.name not in behind:
            behind[task.name] = task.work + max([chain(it) for it in tasks if task.name in it.after], default=0)
        return behind[task.name]

    for it in tasks:
        chain(it)
    return behind


def begin(ready, running, behind, lanes, memory, say):
    """Starts what can be started of these, those with the longest chains first. The first has the processors; the others share
    what it can't use, and half as many again, by their chains."""
    ready = sorted(ready, key=lambda it: -behind[it.name])
    for index, task in enumerate(ready):
        is_first = not any(it.is_first for it in running)
        if is_first:
            jobs = min(task.most, lanes)
        else:
            first = sum(it.jobs for it in running if it.is_first)
            idle = max(lanes - first, lanes // 2) - sum(it.jobs for it in running if not it.is_first)
            if idle < 1:
                return
            share = round(idle * behind[task.name] / sum(behind[it.name] for it in ready[index:]))
            jobs = max(1, min(task.most, share, idle))
        room = memory - sum(it.takes(it.jobs) for it in running)
        while jobs > 1 and task.takes(jobs) > room:
            jobs -= 1
        if running and task.takes(jobs) > room:
            continue
        task.start(jobs, is_first)
        running.append(task)
        say(task)


def show(task):
    """Prints the log of a task that failed, the end of it if it is long."""
    lines = task.text().rstrip("\n").split("\n")
    print(f"== {task.name} failed (status {task.status})" + (f", the last 200 lines of {os.path.relpath(task.log(), ROOT)}" if len(lines) > 200 else ""))
    print("\n".join(lines[-200:]), flush=True)


def run(tasks, lanes=None, memory=float("inf"), say=lambda task: None):
    """Runs tasks, and gives those that failed, of which each log is printed."""
    lanes, behind = lanes or processors(), chains(tasks)
    left, running, failed = list(tasks), [], []
    # told to stop, it stops what it started
    for it in (signal.SIGTERM, signal.SIGHUP):
        signal.signal(it, lambda number, _: sys.exit(128 + number))
    try:
        while left or running:
            lost = {it.name for it in failed}
            left = [it for it in left if not lost & set(it.after)]
            well = {it.name for it in tasks if it.status == 0}
            named = {it.name for it in tasks}
            begin([it for it in left if set(it.after) & named <= well], running, behind, lanes, memory, say)
            left = [it for it in left if it not in running]
            ended = [it for it in running if it.has_ended()]
            running = [it for it in running if it not in ended]
            for it in ended:
                say(it)
                if it.status:
                    failed.append(it)
                    show(it)
            if not all(it.alone for it in failed):
                return failed
            if not ended and running:
                time.sleep(0.05)
            elif left and not running and not ended:
                sys.exit(f"tools/lib/side_by_side.py: {left[0].name} waits for what never comes")
        return failed
    finally:
        for it in running:
            it.end()
