"""How much of the processors other work takes while something is measured, as Linux tells it."""

import os
import sys
import time

# Of one processor; what a system does for itself at rest stays below it.
MOST = 0.2
SECONDS_OF_A_LOOK = 2.0
TICKS = os.sysconf("SC_CLK_TCK")


class NotAtRest(Exception):
    """Other work took more of the processors than it may."""


def busy_seconds():
    """What all processors worked since the system began, without what a host kept from them."""
    with open("/proc/stat", encoding="ascii") as lines:
        user, nice, system, _, _, interrupts, soft = map(int, next(lines).split()[1:8])
    return (user + nice + system + interrupts + soft) / TICKS


class Others:
    """Sees to it that other work stays small: what is more is told, and if rest is a must, it ends the run."""

    def __init__(self, must_rest):
        self.must_rest = must_rest
        self.servers = []
        self.start = None

    def taken(self):
        """What was worked but by this process, those that it started and that have ended, and the servers."""
        times = os.times()
        own = times.user + times.system + times.children_user + times.children_system
        return busy_seconds() - own - sum(server.seconds() for server in self.servers)

    def begin(self):
        self.start = (time.monotonic(), self.taken())

    def end(self, what):
        begin, before = self.start
        share = (self.taken() - before) / (time.monotonic() - begin)
        if share <= MOST:
            return
        found = f"other work took {share:.1f} of {os.cpu_count()} processors ({what}), and {MOST} may be"
        if self.must_rest:
            raise NotAtRest(found)
        print(found, file=sys.stderr)

    def look(self):
        """Looks at the machine before anything is run."""
        self.begin()
        time.sleep(SECONDS_OF_A_LOOK)
        self.end("before the run")
