#!/usr/bin/env python3
"""Proves and builds the program from these sources, from the bottom up.

usage: tools/build.py TO LOG

`rt ci` does it, over a copy of the crates of which the program is made, without their edits: each is proved from nothing, once those below it are, and those that
don't stand on each other side by side. There is no pass over all sources at once. What is proved is kept beside the kit, crate by crate, so a build that is broken
off goes on from there, and what `rt ci` has proved on this machine isn't proved again. The program is what `rt ci` leaves, once it has run it.

It takes some 6 GB: as many checks run at once as there are processors, and at most three, since one takes up to 3 GB; where they come near that bound, the
youngest of them waits until there is room again. What waits keeps its memory, so with four at once only one of them goes on for most of the time. For each
crate a line on standard error has its minutes and what is left. What `rt ci` says goes to LOG. The status is 0 where TO is the program.
"""
import os
import re
import shutil
import signal
import subprocess
import sys
import tempfile
import time

import checks

TOP = os.path.normpath(os.path.join(os.path.dirname(os.path.abspath(__file__)), '..'))
PROGRAM = 'boomer'
# In bytes: all processes of a build together, and that from which on a check waits or goes on.
MOST, WAITS_FROM, GOES_ON_BELOW = 6_000_000_000, 5_500_000_000, 5_300_000_000
# Side by side, and the memory for each of them that has to be free, in bytes.
MOST_LANES, LANE = 3, 1_500_000_000
ROW = re.compile(r'^\| `(\w+)` \| [^|]*\| ([\d.]+)', re.M)


def say(text):
    print(f'boomer: {text}', file=sys.stderr, flush=True)


def text_of(path):
    with open(path, encoding='utf-8', errors='replace') as it:
        return it.read()


def crates_of_program():
    """The crates of which the program is made, itself too, by crates.txt."""
    lines = (line.partition('#')[0] for line in text_of(os.path.join(TOP, 'crates.txt')).split('\n'))
    uses = {head.split()[0]: rest.split() for head, _, rest in (line.partition(':') for line in lines) if head.strip()}
    found = [PROGRAM]
    for crate in found:
        found += [it for it in uses[crate] if it in uses and it not in found]
    return found


def copy_to(folder, crates):
    """Copies what `rt ci` reads of these crates. The folder is the top of a repository for it, wherever it lies."""
    os.makedirs(os.path.join(folder, '.git'))
    for crate in crates:
        source = os.path.join(TOP, 'crates', crate)
        shutil.copytree(source, os.path.join(folder, 'crates', crate), ignore=shutil.ignore_patterns('out', 'must-fail'))
    with open(os.path.join(folder, 'crates.txt'), 'w', encoding='utf-8') as it:
        it.writelines(f'{line}\n' for line in text_of(os.path.join(TOP, 'crates.txt')).split('\n') if re.split('[ :]', line)[0] in crates)
    if os.path.isfile(os.path.join(TOP, 'HANDLES')):
        shutil.copy(os.path.join(TOP, 'HANDLES'), folder)


def lanes():
    """How many checks may run side by side."""
    free = 1024 * int(re.search(r'MemAvailable:\s+(\d+)', text_of('/proc/meminfo'))[1])
    return max(1, min(MOST_LANES, len(os.sched_getaffinity(0)), int(min(free, MOST) // LANE)))


class Progress:
    """Tells how far a build is: a line for each crate that was proved in it. How much is left goes by the minutes of docs/CHECKING.md."""

    def __init__(self, crates):
        page = os.path.join(TOP, 'docs', 'CHECKING.md')
        minutes = dict(ROW.findall(text_of(page))) if os.path.isfile(page) else {}
        self.left = {crate: float(minutes.get(crate, 1)) for crate in crates}
        self.all, self.began, self.first, self.work, self.kept, self.read = len(crates), time.monotonic(), {}, 0, 0, 0

    def see(self, running):
        for check in running:
            self.first.setdefault(check.crate, time.monotonic())

    def tell(self, log):
        """Tells of the lines of the log that are new."""
        lines = log.split('\n')[:-1]
        for line in lines[self.read:]:
            proved = re.fullmatch(r'rt: (\w+) (proved|is kept: .*)', line)
            if proved and proved[1] in self.left:
                self.tell_crate(proved[1], proved[2] == 'proved')
        self.read = len(lines)

    def tell_kept(self):
        """Tells once how many crates were proved before."""
        if self.kept:
            say(f'{self.kept} of {self.all} crates were proved before')
            self.kept = 0

    def tell_crate(self, crate, is_new):
        work, now = self.left.pop(crate), time.monotonic()
        if not is_new:
            self.kept += 1
            return
        self.tell_kept()
        self.work += work
        minutes = (now - self.first.get(crate, now)) / 60
        rest = (now - self.began) / 60 * sum(self.left.values()) / self.work if self.work else 0
        say(f'{crate} proved in {minutes:.1f} minutes; {len(self.left)} of {self.all} crates are left' + (f', some {rest:.0f} minutes' if self.left else ''))


class Memory:
    """Keeps a build within its memory: the youngest check waits where all together come near the bound."""

    def __init__(self):
        self.waiting, self.highest = [], 0

    def look(self, process, running):
        much = checks.memory_below(process)
        self.highest = max(self.highest, much)
        awake = sorted((it for it in running if it.process not in self.waiting), key=lambda it: it.began)
        if much > WAITS_FROM and len(awake) > 1:
            self.send(awake[-1].process, signal.SIGSTOP)
            self.waiting.append(awake[-1].process)
        elif self.waiting and (much < GOES_ON_BELOW or not awake):
            self.send(self.waiting.pop(), signal.SIGCONT)

    @staticmethod
    def send(process, number):
        """Has a check, with the parts into which it forked, wait or go on."""
        for it in checks.below(process):
            try:
                os.kill(it, number)
            except ProcessLookupError:
                pass


def prove(folder, log, crates):
    """Runs `rt ci` in the folder until it ends, and returns its status. Where this program is told to end, or who called it is gone, so does `rt ci`."""
    caller, progress, memory = os.getppid(), Progress(crates), Memory()
    with open(log, 'w', encoding='utf-8') as out:
        environment = {**os.environ, 'RT_JOBS': str(lanes())}
        ran = subprocess.Popen(['rt', 'ci'], cwd=folder, env=environment, stdin=subprocess.DEVNULL, stdout=out, stderr=subprocess.STDOUT, start_new_session=True)
    try:
        while ran.poll() is None and os.getppid() == caller:
            running = list(checks.running(ran.pid))
            progress.see(running)
            progress.tell(text_of(log))
            memory.look(ran.pid, running)
            time.sleep(1)
        progress.tell(text_of(log))
        progress.tell_kept()
    finally:
        if ran.poll() is None:
            # The checks end with it.
            os.killpg(ran.pid, signal.SIGKILL)
    with open(log, 'a', encoding='utf-8') as out:
        print(f'highest sum of resident memory: {memory.highest / 1e9:.1f} GB', file=out)
    return ran.wait()


def main(to, log):
    for number in (signal.SIGTERM, signal.SIGHUP, signal.SIGINT):
        signal.signal(number, lambda it, _: sys.exit(128 + it))
    crates = crates_of_program()
    with tempfile.TemporaryDirectory(prefix='boomer-build-') as room:
        folder = os.path.join(room, 'repository')
        copy_to(folder, crates)
        status = prove(folder, log, crates)
        made = os.path.join(folder, 'crates', PROGRAM, 'out', PROGRAM)
        if status or not os.path.isfile(made):
            return 1
        # Renamed, so that no call meets half of it.
        shutil.copy(made, f'{to}.new')
        os.replace(f'{to}.new', to)
    return 0


if __name__ == '__main__':
    sys.exit(main(*sys.argv[1:]) if len(sys.argv) == 3 else __doc__)
