"""Refuses each allocation of commands in turn. See allocations.sh."""
import concurrent.futures
import os
import subprocess
import sys
import tempfile

TOP = os.path.dirname(os.path.dirname(os.path.abspath(__file__)))
EXAMPLES = ["copies", "boxes", "run", "alias", "files", "explained", "certified", "batch", "paths", "refined"]
# Status 13 is that of want of memory.
SHORT = 13
# A file that a method opens and reads, and that is closed while another local holds it too; and its protocol.
PASSED = b"""class F { void open() { return; } void read() { return; } void close() { return; } }
class Main {
static void use(F) { F p; p := @parameter0: F; virtualinvoke p.<F: void open()>(); virtualinvoke p.<F: void read()>(); return; }
static void main(java.lang.String[]) { F f, g; f = new F; staticinvoke <Main: void use(F)>(f); g = f; virtualinvoke f.<F: void close()>(); return; } }
"""
PROTOCOL = "F closed;closed open opened;opened read opened;opened close closed"


class Refuser:
    """Runs one program with the allocation of a number refused."""

    def __init__(self, folder, shim):
        self.folder = folder
        self.shim = shim

    def run(self, words, text, number):
        """The status, what was written, and whether there was such an allocation."""
        told = os.path.join(self.folder, f"told{number}-{os.getpid()}")
        env = {"LD_PRELOAD": self.shim, "REFUSE": str(number), "REFUSED": told}
        done = subprocess.run(words, input=text, capture_output=True, env=env, timeout=60)
        there = os.path.exists(told)
        if there:
            os.remove(told)
        return done.returncode, done.stdout, there

    def count(self, words, text, is_right):
        """How many allocations there are, and those behind whose refusal something else came."""
        ample = self.run(words, text, 0)
        number, wrong = 1, []
        with concurrent.futures.ThreadPoolExecutor() as pool:
            while True:
                # So many at once.
                part = range(number, number + 256)
                ends = list(pool.map(lambda n: self.run(words, text, n), part))
                for at, end in zip(part, ends):
                    if not end[2]:
                        return at - 1, wrong
                    if not is_right(ample, end):
                        wrong.append((at, end))
                number += 256


def is_answered(ample, end):
    """As with ample memory, or refused with nothing written."""
    return end[:2] == ample[:2] or end[:2] == (SHORT, b"")


def is_as_before(ample, end):
    """As with ample memory: each call was made once more."""
    return end[:2] == ample[:2]


def tells(name, count, wrong):
    print(f"{name}: {count} allocations, {len(wrong)} with something else")
    for number, end in wrong[:5]:
        print(f"  {number}: status {end[0]}, {len(end[1])} bytes written")
    sys.stdout.flush()
    return len(wrong)


def program():
    """The program of ./boomer, or the one that BOOMER names."""
    if "BOOMER" in os.environ:
        return os.environ["BOOMER"]
    subprocess.run([os.path.join(TOP, "boomer"), "demo", "1"], check=True, stdout=subprocess.DEVNULL)
    return os.path.join(TOP, "crates", "boomer", "out", "boomer")


def tests():
    """The program of the tests of calls that are made once more where there was no memory, proved and built by the kit."""
    subprocess.run(["rt", "test", "memory_rows"], cwd=TOP, check=True, stdout=subprocess.DEVNULL)
    return os.path.join(TOP, "crates", "memory_rows", "out", "memory_rows_tests")


def commands(names):
    for name in names:
        path = os.path.join(TOP, "examples", name + ".jimple")
        with open(path, "rb") as file:
            text = file.read()
        with open(path + ".args") as file:
            yield name, file.read().splitlines(), text


def main(names):
    bad = 0
    with tempfile.TemporaryDirectory() as folder:
        shim = os.path.join(folder, "refuse.so")
        subprocess.run(["cc", "-O2", "-shared", "-fPIC", "-o", shim, os.path.join(TOP, "tests", "refuse.c")], check=True)
        refuser = Refuser(folder, shim)
        boomer = program()
        for name, words, text in commands(names or EXAMPLES):
            bad += tells(name, *refuser.count([boomer] + words, text, is_answered))
        if not names:
            bad += tells("a file that is passed", *refuser.count([boomer, "typestate", "Main", PROTOCOL, "100"], PASSED, is_answered))
            bad += tells("demo 8", *refuser.count([boomer, "demo", "8"], b"", is_answered))
            tested = tests()
            listed = subprocess.run([tested, "--list"], check=True, capture_output=True, text=True).stdout
            for test in [line[: -len(": test")] for line in listed.splitlines() if line.endswith(": test")]:
                bad += tells(test, *refuser.count([tested, test], b"", is_as_before))
    return 1 if bad else 0


if __name__ == "__main__":
    sys.exit(main(sys.argv[1:]))
