"""The checks of the prover that run below a process, as Linux tells of them in /proc, for the tools beside this file: `rt` prints neither times nor memory."""
import os
from collections import defaultdict, namedtuple

TICKS, PAGE = os.sysconf('SC_CLK_TCK'), os.sysconf('SC_PAGE_SIZE')

# A check: the processor seconds are those of its children too, the memory is what is resident, in bytes. The kind is 'proof', 'tests' or 'edits'.
Check = namedtuple('Check', 'process crate kind seconds memory began')


def stat_of(process):
    """What /proc/PID/stat says behind the name: the state, the parent, and so on; None where the process is gone."""
    try:
        with open(f'/proc/{process}/stat', 'rb') as it:
            return it.read().rpartition(b')')[2].split()
    except OSError:
        return None


def below(above):
    """The processes below a process, itself too, each with its stat."""
    stats = {int(name): stat_of(name) for name in os.listdir('/proc') if name.isdigit()}
    children = defaultdict(list)
    for process, stat in stats.items():
        if stat:
            children[int(stat[1])].append(process)
    found = [above] if stats.get(above) else []
    for process in found:
        found += children[process]
    return {process: stats[process] for process in found}


def kind_of(process, words):
    """What a check is for: `rt ci` tries an edit, and checks what edits begin with, in a folder rt-edit-.. of its own."""
    if os.path.basename(os.readlink(f'/proc/{process}/cwd')).startswith('rt-edit-'):
        return 'edits'
    return 'tests' if b'--test' in words else 'proof'


def running(above):
    """The checks that run below a process. The parts into which a check forks are its children."""
    for process, stat in below(above).items():
        try:
            with open(f'/proc/{process}/cmdline', 'rb') as it:
                words = it.read().split(b'\0')
            if os.path.basename(words[0]) != b'rattle' or b'--crate-name' not in words:
                continue
            crate = words[words.index(b'--crate-name') + 1].decode()
            yield Check(process, crate, kind_of(process, words), sum(map(int, stat[11:15])) / TICKS, int(stat[21]) * PAGE, int(stat[19]))
        except OSError:
            # It has ended meanwhile.
            continue


def memory_below(above):
    """What the processes below a process have resident together, in bytes."""
    return sum(int(stat[21]) * PAGE for stat in below(above).values())
