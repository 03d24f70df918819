"""How long a command takes, and how much of the processors' time the host of a virtual machine kept from it."""
import time

# The host's part is told where it is this much of what was asked for, in percent.
WORTH_TELLING = 2


def ticks():
    """The ticks in which the processors were asked for until now, by the first line of /proc/stat, and those of them that the host gave to
    others; none where the system doesn't say."""
    try:
        with open("/proc/stat", encoding="ascii") as it:
            user, nice, system, _idle, _iowait, irq, softirq, steal = map(int, it.readline().split()[1:9])
    except (OSError, ValueError):
        return 0, 0
    return user + nice + system + irq + softirq + steal, steal


class Stopwatch:
    """It runs from when it is made; as text it is what it shows."""

    def __init__(self):
        self.began, self.then = time.monotonic(), ticks()

    def __str__(self):
        seconds = f"{time.monotonic() - self.began:.0f} s"
        asked, kept = (now - then for now, then in zip(ticks(), self.then))
        share = round(100 * kept / asked) if asked else 0
        return f"{seconds} (the host kept {share} percent of the processors' time from this machine)" if share >= WORTH_TELLING else seconds
