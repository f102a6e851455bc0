# Proves programs, and the libraries below them, from nothing and side by side, as `rt ci` does: each crate over the
# statements of those below it, which takes half of what a proof takes that others can go on from.
import os
import shutil
import tempfile
import time
from concurrent.futures import FIRST_COMPLETED, ThreadPoolExecutor, wait

from kept import Kept, made_of, sweep
from libraries import MOST_JOBS, ROOMS, TOP, Failed, all_below, crates, lowest_first
from standing import path_of

ANEW = f"{TOP}/tools/build/rt-anew"
# A build's room begins so.
PREFIX = "build."
# The processor seconds that a crate's proof is reckoned to take: each, each line of code, and each line of the code
# below it, whose statements are read; a program is compiled, too. So it was on a slow machine, with all processors at
# work. The lines of specifications and proofs told nothing more.
EACH, A_LINE, A_LINE_BELOW, A_LINE_COMPILED = 17, 0.11, 0.0012, 0.003
# Once this part of a build is done, its pace is known.
SOME = 0.1
# A crate that is checked with several jobs takes so much more memory, and less time, for each further one.
MORE_MEMORY, GAIN = 0.6, 0.5
# Ways to share the processors: a crate gets so many jobs even where others wait, if the chain behind it is so many
# times as long as all that is left takes on all processors. A plan takes the way by which it is reckoned to end first.
WAYS = [(jobs, times) for jobs in (1, 2, 3) for times in (1, 1.5, 2)]


def lines_in(folder):
    """The lines of the files below a folder."""
    count = 0
    for at, _, names in os.walk(folder):
        for name in names:
            with open(f"{at}/{name}", "rb") as file:
                count += file.read().count(b"\n")
    return count


class Plan:
    """What has to be proved for some programs, and in which order."""

    def __init__(self, rt, programs):
        listed = crates()
        wanted = set(programs).union(*(all_below(it, listed) for it in programs))
        self.names = [it for it in lowest_first(listed) if it in wanted]
        self.below = {it: [low for low in self.names if low in all_below(it, listed)] for it in self.names}
        self.programs, self.sums = programs, {}
        with open(f"{rt.KIT}/WHAT", encoding="utf-8") as file:
            self.kit = file.read()
        with open(f"{TOP}/crates.txt", encoding="utf-8") as file:
            self.listed = [it for it in file if it[:1].isalpha()]
        known, rt.rtlib.Crate = {}, rt.Crate
        self.memory = {it: rt.need(rt.Crate(f"{TOP}/crates/{it}", TOP, known)) for it in self.names}
        self.seconds = self.reckoned()
        sweep(listed)
        for it in self.names:
            self.stands(it)
        self.left = [it for it in self.names if it not in self.sums]
        self.behind = self.chains()
        self.way = min(WAYS, key=lambda way: self.minutes(rt.processors(), self.left, way))

    def reckoned(self):
        """The processor seconds that each crate is reckoned to take."""
        own = {it: lines_in(f"{TOP}/crates/{it}/src") for it in self.names}
        seconds = {}
        for it in self.names:
            below = sum(own[low] for low in self.below[it])
            seconds[it] = EACH + A_LINE * own[it] + A_LINE_BELOW * below
            if it in self.programs:
                seconds[it] += A_LINE_COMPILED * below
        return seconds

    def chains(self):
        """The seconds of the longest chain of crates that wait for each one, with its own."""
        longest = {it: self.seconds[it] for it in self.left}
        for name in reversed(self.left):
            for it in self.below[name]:
                if it in longest:
                    longest[it] = max(longest[it], self.seconds[it] + longest[name])
        return longest

    def made_of(self, name):
        """The sum of what a crate is made of, once the sums of all below it are known."""
        return made_of(name, self.kit, self.listed, {it: self.sums[it] for it in self.below[name]})

    def stands(self, name):
        """Whether a library stands proved; if so, its sum is known then."""
        if name in self.programs or not all(it in self.sums for it in self.below[name]):
            return False
        was_made_of, found = Kept(name).note()
        if was_made_of != self.made_of(name):
            return False
        self.sums[name] = found
        return True

    def ready(self, left, given):
        """Those left that wait for none, the longest chain first."""
        return sorted((it for it in left if given.issuperset(self.below[it])), key=lambda it: -self.behind[it])

    def jobs(self, name, left, waiting, lanes, idle, way):
        """How many of the processors that are idle a crate gets where so many wait, by one of the ways."""
        most, times = way
        rest = sum(self.seconds[it] for it in left)
        is_long = self.behind[name] > times * rest / lanes
        return max(1, min(max(idle // waiting, most if is_long else 1), idle, MOST_JOBS))

    def minutes(self, lanes, left, way):
        """The minutes that so many processors are reckoned to take for crates that are left, by one of the ways."""
        left, given, running, now = list(left), set(self.names).difference(left), {}, 0
        while left or running:
            ready = self.ready(left, given)
            for at, it in enumerate(ready):
                idle = lanes - sum(jobs for _, jobs in running.values())
                if idle > 0:
                    jobs = self.jobs(it, left, len(ready) - at, lanes, idle, way)
                    left.remove(it)
                    running[it] = now + self.seconds[it] / (1 + GAIN * (jobs - 1)), jobs
            done = min(running, key=running.get)
            now = running.pop(done)[0]
            given.add(done)
        return now / 60


class Build:
    """A build of what a plan has left, in a room."""

    def __init__(self, rt, children, plan, tell):
        self.rt, self.children, self.plan, self.tell, self.room = rt, children, plan, tell, None
        self.begun, self.whole = time.monotonic(), plan.minutes(rt.processors(), plan.left, plan.way)

    def made(self, name, jobs):
        """Proves and builds one crate over those below it, which stand in the room; returns a library's sum."""
        plan = self.plan
        made = plan.made_of(name)
        status, said = self.children.run([ANEW, name, self.room, str(jobs)], TOP)
        if status:
            raise Failed(f"{told(said)}{name} could not be built")
        if plan.made_of(name) != made:
            raise Failed(f"the sources of {name} have changed while it was proved: call again")
        if name not in plan.programs:
            return Kept(name).keep(self.room, made)
        os.replace(f"{self.room}/{os.path.basename(path_of(name))}", path_of(name))
        return made

    def given(self, name, jobs):
        """The sum of a library that stands after all, since what is below it came out as it was, or is proved now."""
        if self.plan.stands(name):
            Kept(name).lay_out(self.room)
            return self.plan.sums[name]
        return self.made(name, jobs)

    def begin(self, pool, left, running, memory):
        """Begins what there are processors and memory for."""
        lanes, ready = self.rt.processors(), self.plan.ready(left, set(self.plan.sums))
        for at, it in enumerate(ready):
            idle = lanes - sum(jobs for _, jobs, _ in running.values())
            needs, room = self.plan.memory[it], memory - sum(it for _, _, it in running.values())
            if idle < 1 or running and needs > room:
                continue
            spare = 1 + int(max(0, room / needs - 1) / MORE_MEMORY)
            jobs = min(self.plan.jobs(it, left, len(ready) - at, lanes, idle, self.plan.way), spare)
            left.remove(it)
            running[pool.submit(self.given, it, jobs)] = it, jobs, needs * (1 + MORE_MEMORY * (jobs - 1))

    def all(self):
        """Proves and builds all that is left; raises Failed with what the first failure said."""
        for it in self.plan.programs:
            os.makedirs(f"{TOP}/crates/{it}/out", exist_ok=True)
        os.makedirs(ROOMS, exist_ok=True)
        for it in os.listdir(ROOMS):
            if it.startswith(PREFIX):
                shutil.rmtree(f"{ROOMS}/{it}", ignore_errors=True)
        self.room = tempfile.mkdtemp(prefix=PREFIX, dir=ROOMS)
        try:
            for it in self.plan.sums:
                Kept(it).lay_out(self.room)
            self.in_lanes()
        finally:
            self.children.end()
            shutil.rmtree(self.room, ignore_errors=True)

    def minutes_left(self, left, running):
        """The minutes that the crates left are likely to take, and those that run, of which half is done, by the build's
        own pace; None while that isn't known."""
        lanes, way = self.rt.processors(), self.plan.way
        rest = (self.plan.minutes(lanes, left + running, way) + self.plan.minutes(lanes, left, way)) / 2
        done = self.whole - rest
        passed = (time.monotonic() - self.begun) / 60
        return rest * passed / done if done > SOME * self.whole else None

    def in_lanes(self):
        """Proves side by side, as many at a time as processors and memory allow."""
        left, running, memory, count = list(self.plan.left), {}, 0.85 * self.rt.free(), 0
        with ThreadPoolExecutor(self.rt.processors()) as pool:
            try:
                while left or running:
                    self.begin(pool, left, running, memory)
                    for it in wait(running, return_when=FIRST_COMPLETED).done:
                        name, _, _ = running.pop(it)
                        self.plan.sums[name] = it.result()
                        count += 1
                        self.tell(name, count, self.minutes_left(left, [it for it, _, _ in running.values()]))
            except BaseException:
                self.children.end()
                raise


def told(said):
    """What a proof that fails said, without the functions that are proved and the counts of what was read."""
    quiet = (": proved", " checked=0")
    return "".join(f"{it}\n" for it in said.splitlines() if not it.endswith(quiet))
