"""Programs over crates of this repository, for benchmarks, and texts that they read."""
import os
import random
import shutil
import subprocess
import sys

TOP = os.path.join(os.path.dirname(os.path.abspath(__file__)), '..')

LIMIT = 16 * 1024 * 1024

# Code that finds the node that the programs ask about.
ASKED = '''// The local at the last statement of `main`.
fn asked(linked: &Linked, local: &str) -> Option<Node> {
    let method = linked.find_method("<Main: void main(java.lang.String[])>")?;
    if method >= linked.methods() {
        return None;
    }
    let number = linked.find_local(method, local)?;
    let index = u32::try_from(linked.code(method).len()).ok()?.checked_sub(1)?;
    let place = Place {
        method,
        index,
        raised: false,
    };
    Some(Node {
        place,
        var: Var::Local(number),
    })
}
'''

# A program from standard input, linked with the prelude: `told` is asked of the local at the end of `main` that is the one word of the command line.
LINKED = '''// Microseconds since then.
fn micros_since<R: Clock>(rt: &R, start: Instant) -> u64 {
    match start.elapsed(rt) {
        Ok(took) => u64::try_from(took.as_micros()).unwrap_or(u64::MAX),
        Err(_) => u64::MAX,
    }
}

fn measured<R: AllocGlobal + Clock + Threads + Sync>(rt: &R, linked: &Linked, local: &str) -> Result<String>
    requires { IsWellLinked linked.now }
{
    match asked(linked, local) {
        Some(node) if is_node(linked, node) => told(rt, linked, node),
        _ => Ok(String::from_str(rt.alloc(), "no such place")?),
    }
}

fn answer<R: AllocGlobal + Clock + Threads + Sync>(rt: &R, bytes: &[u8], local: &str) -> Result<String> {
    let Ok(text) = str::from_utf8(bytes) else {
        return Ok(String::from_str(rt.alloc(), "no text")?);
    };
    match linked_of(rt.alloc(), text) {
        Some(Ok(linked)) => measured(rt, &linked, local),
        _ => Ok(String::from_str(rt.alloc(), "no linked program")?),
    }
}

fn main(rt: HostRuntime) -> Result<()> {
    let mut bytes = Vec::new(rt.alloc());
    rt.stdin().read_to_end(&mut bytes)?;
    let Some(local) = env::args(&rt)?.nth(1) else {
        return Ok(());
    };
    let line = answer(&rt, &bytes, &local)?;
    println!(rt; "{line}")?;
    Ok(())
}
'''

INIT = '  void <init>() { return; }\n'


def crates():
    """The line of crates.txt of each crate, and the names of what it uses."""
    with open(os.path.join(TOP, 'crates.txt')) as lines:
        listed = [line for line in lines if ':' in line and not line.startswith('#')]
    return {line.split(':')[0]: (line, line.split(':')[1].split()) for line in listed}


def below(names, known):
    """The crates of these names, and all that they stand on."""
    found, waiting = [], list(names)
    while waiting:
        name = waiting.pop()
        if name in known and name not in found:
            found.append(name)
            waiting.extend(known[name][1])
    return found


def build(folder, name, uses, program, proofs=()):
    """Proves and builds a program over the crates of which `uses` has the names, in the folder, and gives its path. `proofs` are pairs of a file
    of proofs, without its ending, and its text. What a check on this machine proved before isn't proved again."""
    known = crates()
    needed = below(uses.split(), known)
    with open(os.path.join(folder, 'crates.txt'), 'w') as out:
        out.write(''.join(known[crate][0] for crate in needed) + f'{name}: {uses}\n')
    shutil.copy(os.path.join(TOP, 'HANDLES'), folder)
    for crate in needed:
        shutil.copytree(os.path.join(TOP, 'crates', crate), os.path.join(folder, 'crates', crate), ignore=shutil.ignore_patterns('out', 'must-fail'))
    crate = os.path.join(folder, 'crates', name)
    write(os.path.join(crate, 'src', 'main.rt'), program)
    for file, proof in proofs:
        write(os.path.join(crate, 'proofs', file + '.antt'), proof)
    done = subprocess.run(['rt', 'run'], cwd=crate, stdin=subprocess.DEVNULL, capture_output=True, text=True)
    if done.returncode:
        sys.exit('the program does not build:\n' + (done.stdout + done.stderr)[-4000:])
    return os.path.join(crate, 'out', name)


def write(path, text):
    os.makedirs(os.path.dirname(path), exist_ok=True)
    with open(path, 'w') as out:
        out.write(text)


def asks(name):
    """The proof of `told` of the program, which asks for the demand of one node."""
    return f'''use Rattle.demand_set.proofs.Appended.{{Has-one}}
use Rattle.{name}.proofs.told.Goals as goal

pub demand-requires : goal.demand-requires
demand-requires g c = record {{ nodes = λ n has. rw (Has-one _ n has) c.requires.node }}
'''


def run_measured(path, data):
    """What the program says of the data, its seconds, and the most memory in bytes."""
    with subprocess.Popen([path], stdin=subprocess.PIPE, stdout=subprocess.PIPE) as child:
        child.stdin.write(data)
        child.stdin.close()
        answer = child.stdout.read().decode().strip()
        _, _, usage = os.wait4(child.pid, 0)
        child.returncode = 0
    return answer, usage.ru_utime + usage.ru_stime, usage.ru_maxrss * 1024


def library(size):
    """A program of many classes in the layout of a compiler's output, with names drawn at random, in at most so many bytes."""
    draw = random.Random(1)
    words = ['get', 'set', 'Node', 'List', 'value', 'next', 'index', 'open', 'close', 'String', 'Table', 'find', 'add']
    name = lambda: draw.choice(words) + draw.choice(['', '', str(draw.randrange(40))])
    kind = lambda: draw.choice(['int', 'java.lang.Object', 'java.lang.String', 'org.app.' + name(), 'boolean', 'int[]'])
    local = lambda: draw.choice(['$r', 'r', '$i', 'i', 'l']) + str(draw.randrange(60))
    call = lambda: f'<org.app.{name()}: {kind()} {name()}({kind()},{kind()})>({local()}, {local()})'
    lines = [
        lambda: f'        {local()} = new org.app.{name()};',
        lambda: f'        {local()} = {local()}.<org.app.{name()}: {kind()} {name()}>;',
        lambda: f'        {local()}.<org.app.{name()}: {kind()} {name()}> = {local()};',
        lambda: f'        {local()} = virtualinvoke {local()}.{call()};',
        lambda: f'        specialinvoke {local()}.{call()};',
        lambda: f'        {local()} = staticinvoke {call()};',
        lambda: f'        if {local()} >= {draw.randrange(1000)} goto label{draw.randrange(90)};',
        lambda: f'        {local()} = "a text of {draw.randrange(1000)} letters\\n";',
        lambda: f'     label{draw.randrange(90)}:',
        lambda: f'        {local()} = {local()}[{local()}]; // an element',
        lambda: f'        {local()} = (org.app.{name()}) {local()};',
        lambda: f'        {local()} = newarray ({kind()})[{draw.randrange(9)}];',
    ]
    def method():
        head = f'    public {kind()} {name()}({kind()}, {kind()})\n    {{\n        {kind()} {local()}, {local()};\n'
        return head + ''.join(draw.choice(lines)() + '\n' for _ in range(40)) + '        return;\n    }\n\n'
    def some_class():
        head = f'public class org.app.{name()} extends java.lang.Object implements org.app.{name()}\n{{\n'
        return head + f'    private {kind()} {name()};\n' * 3 + ''.join(method() for _ in range(8)) + '}\n\n'
    block = ''
    while len(block) < 200_000:
        block += some_class()
    return block.encode() * (size // len(block.encode()))
