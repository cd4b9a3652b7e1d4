"""How long queries, runs and the demo take, what they demand, and how that grows.

usage: queries.py [--small] [--limit SECONDS] [run] [calls] [fields] [demo] [typestate] [explain]
       all of them where none is named

It generates programs of growing size and runs the built program on them: that of ./boomer, which builds it first, or the one that BOOMER names. A time is that
of the whole call: reading, linking, answering. --small takes sizes that end within seconds. It prints figures, and judges nothing; a query that isn't
answered has its reply in place of the figures. A call that takes longer than the limit, 300 seconds where none is given, is ended, and larger sizes of its kind
are left out. Memory below that of this script isn't told apart.
"""
import argparse
import os
import resource
import subprocess
import sys
import threading
import time

TOP = os.path.join(os.path.dirname(os.path.abspath(__file__)), '..')
MAIN = '<Main: void main(java.lang.String[])>'
OBJECT = 'java.lang.Object'
ANY = '4294967295'


def body(declared, statements):
    return '{ ' + ' '.join(declared) + ' ' + ' '.join(statements) + ' }'


def main_class(methods, declared, statements, more=''):
    main = 'static void main(java.lang.String[]) ' + body(declared, statements)
    return 'class A { }\n' + more + '\nclass Main {\n' + '\n'.join(methods) + '\n' + main + '\n}\n'


def points_to(index, local):
    return ['points-to', 'Main', MAIN, str(index), local, ANY]


def chain(count):
    """A chain of static calls, each of which passes its argument on and its result back."""
    methods = [
        f'static {OBJECT} f{i}({OBJECT}) {{ {OBJECT} p, q; p := @parameter0: {OBJECT}; '
        f'q = staticinvoke <Main: {OBJECT} f{i + 1}({OBJECT})>(p); return q; }}' for i in range(count - 1)
    ] + [f'static {OBJECT} f{count - 1}({OBJECT}) {{ {OBJECT} p; p := @parameter0: {OBJECT}; return p; }}']
    statements = ['x = new A;', f'y = staticinvoke <Main: {OBJECT} f0({OBJECT})>(x);', 'return;']
    return main_class(methods, [f'{OBJECT} x, y;'], statements), points_to(2, 'y')


def clique(count):
    """Methods that all call each other."""
    methods = []
    for i in range(count):
        calls = [f'p = staticinvoke <Main: {OBJECT} f{j}({OBJECT})>(p);' for j in range(count)]
        declared = [f'{OBJECT} p;']
        statements = [f'p := @parameter0: {OBJECT};', 'if 0 == 1 goto done;', *calls, 'done:', 'return p;']
        methods.append(f'static {OBJECT} f{i}({OBJECT}) ' + body(declared, statements))
    statements = ['x = new A;', f'y = staticinvoke <Main: {OBJECT} f0({OBJECT})>(x);', 'return;']
    return main_class(methods, [f'{OBJECT} x, y;'], statements), points_to(2, 'y')


def dispatch(count):
    """A call on an interface that many classes implement, each with an object of its own."""
    more = f'interface I {{ {OBJECT} m(); }}\n' + '\n'.join(
        f'class C{i} implements I {{ {OBJECT} m() {{ {OBJECT} o; o = new A; return o; }} }}' for i in range(count))
    statements = ['r = new C0;', f'x = interfaceinvoke r.<I: {OBJECT} m()>();', 'return;']
    return main_class([], [f'I r; {OBJECT} x;'], statements, more), points_to(2, 'x')


def cells(count):
    """A list of cells that is built cell by cell and read to its end."""
    statements = ['n0 = new N;']
    for i in range(1, count):
        statements += [f'n{i} = new N;', f'n{i}.<N: N next> = n{i - 1};']
    statements.append(f'x0 = n{count - 1};')
    for i in range(1, count):
        statements.append(f'x{i} = x{i - 1}.<N: N next>;')
    index = len(statements)
    statements.append('return;')
    declared = ['N ' + ', '.join(f'{local}{i}' for i in range(count)) + ';' for local in ('n', 'x')]
    return main_class([], declared, statements, 'class N { N next; }'), points_to(index, f'x{count - 1}')


def joined_cells(count):
    """A list of cells that are all made first, then joined, and read to the end. Each local lives over all that stands between, so the demand is quadratic."""
    statements = [f'n{i} = new N;' for i in range(count)]
    statements += [f'n{i}.<N: N next> = n{i + 1};' for i in range(count - 1)]
    statements.append('x0 = n0;')
    statements += [f'x{i} = x{i - 1}.<N: N next>;' for i in range(1, count)]
    index = len(statements)
    statements.append('return;')
    declared = ['N ' + ', '.join(f'{local}{i}' for i in range(count)) + ';' for local in ('n', 'x')]
    return main_class([], declared, statements, 'class N { N next; }'), points_to(index, f'x{count - 1}')


def factories(count):
    """A loop in which one of many factories makes a box and fills it, each with an object of its own."""
    more = f'class Box {{ {OBJECT} v; }}\n' + '\n'.join(f'class A{i} {{ }}' for i in range(count))
    methods = [
        f'static Box make{i}() {{ Box b; {OBJECT} o; b = new Box; o = new A{i}; b.<Box: {OBJECT} v> = o; return b; }}' for i in range(count)
    ]
    cases = [f'case {i}: goto m{i};' for i in range(count)]
    statements = ['again:', 'tableswitch(n) { ' + ' '.join(cases) + ' default: goto read; };']
    for i in range(count):
        statements += [f'm{i}:', f'b = staticinvoke <Main: Box make{i}()>();', 'goto again;']
    statements += ['read:', f'x = b.<Box: {OBJECT} v>;', 'return;']
    return main_class(methods, [f'int n; Box b; {OBJECT} x;'], statements, more), points_to(2 * count + 2, 'x')


def boxes(count):
    """Boxes that are all filled by one method and read by one method, each with an item of its own."""
    methods = [
        f'static void put(Box, {OBJECT}) {{ Box b; {OBJECT} o; b := @parameter0: Box; o := @parameter1: {OBJECT}; b.<Box: {OBJECT} v> = o; return; }}',
        f'static {OBJECT} get(Box) {{ Box b; {OBJECT} o; b := @parameter0: Box; o = b.<Box: {OBJECT} v>; return o; }}',
    ]
    statements = []
    for i in range(count):
        statements += [
            f'b{i} = new Box;', f'o{i} = new A;', f'staticinvoke <Main: void put(Box,{OBJECT})>(b{i}, o{i});',
            f'x{i} = staticinvoke <Main: {OBJECT} get(Box)>(b{i});'
        ]
    statements.append('return;')
    declared = [f'Box b{i}; {OBJECT} o{i}, x{i};' for i in range(count)]
    return main_class(methods, declared, statements, f'class Box {{ {OBJECT} v; }}'), points_to(4 * count, f'x{count - 1}')


def returns(count):
    """A method of many returns that is called as often, so that its edges are the square of that."""
    branches = [part for i in range(count) for part in (f'if 0 == 1 goto next{i};', 'return p;', f'next{i}:')]
    method = f'static {OBJECT} id({OBJECT}) ' + body([f'{OBJECT} p;'], [f'p := @parameter0: {OBJECT};', *branches, 'return p;'])
    statements = ['x = new A;', *[f'x = staticinvoke <Main: {OBJECT} id({OBJECT})>(x);' for _ in range(count)], 'return;']
    return main_class([method], [f'{OBJECT} x;'], statements), points_to(count + 1, 'x')


def statics(count):
    """A static field that is stored and loaded as often as the other."""
    more = f'class S {{ static {OBJECT} f; }}'
    statements = ['x = new A;', *[f'<S: {OBJECT} f> = x;' for _ in range(count)]]
    statements += [part for i in range(count) for part in (f'if 0 == 1 goto next{i};', f'y = <S: {OBJECT} f>;', 'goto done;', f'next{i}:')]
    index = 1 + count + 3 * count
    statements += ['done:', 'return;']
    return main_class([], [f'{OBJECT} x, y;'], statements, more), points_to(index, 'y')


def uses(count):
    """A local that is used at many places, far behind where it is defined."""
    statements = ['x = new A;']
    for i in range(count):
        statements += ['nop;' for _ in range(20)] + [f'if 0 == 1 goto next{i};', 'y = x;', 'goto done;', f'next{i}:']
    statements += ['done:', 'return;']
    return main_class([], [f'{OBJECT} x, y;'], statements), points_to(1 + 23 * count, 'y')


def loop(steps):
    """A loop that makes an object at each turn of two steps."""
    return main_class([], ['A x;'], ['again:', 'x = new A;', 'goto again;']), ['run', 'Main', str(steps), '-']


def demo(count):
    return '', ['demo', str(count)]


FILES = 'class File { void open() { return; } void read() { return; } void close() { return; } }'
FILE_PROTOCOL = 'File fresh;fresh open opened;opened read opened;opened close closed'


def event(local, name, of='File'):
    return f'virtualinvoke {local}.<{of}: void {name}()>();'


def typestate(protocol):
    return ['typestate', 'Main', protocol, ANY]


def files(count):
    """Files that are opened, read and closed, one after the other."""
    statements = [part for i in range(count) for part in (f'f{i} = new File;', *(event(f'f{i}', name) for name in ('open', 'read', 'close')))]
    statements.append('return;')
    return main_class([], [f'File f{i};' for i in range(count)], statements, FILES), typestate(FILE_PROTOCOL)


def helped_files(count):
    """The same through one helper, to which each is passed."""
    method = 'static void use(File) ' + body(['File f;'], ['f := @parameter0: File;', *(event('f', name) for name in ('open', 'read', 'close')), 'return;'])
    statements = [part for i in range(count) for part in (f'f{i} = new File;', f'staticinvoke <Main: void use(File)>(f{i});')]
    statements.append('return;')
    return main_class([method], [f'File f{i};' for i in range(count)], statements, FILES), typestate(FILE_PROTOCOL)


def looped_reads(count):
    """A loop that opens a file, reads it at many places, and closes it."""
    statements = ['again:', 'f = new File;', event('f', 'open'), *[event('f', 'read') for _ in range(count)], event('f', 'close'), 'goto again;']
    return main_class([], ['File f;'], statements, FILES), typestate(FILE_PROTOCOL)


def sixteen_states(count):
    """Objects that go round a protocol of sixteen states, one after the other."""
    protocol = 'File s0;' + ';'.join(f's{i} read s{(i + 1) % 16}' for i in range(16))
    statements = [part for i in range(count) for part in (f'f{i} = new File;', *[event(f'f{i}', 'read') for _ in range(16)])]
    statements.append('return;')
    return main_class([], [f'File f{i};' for i in range(count)], statements, FILES), typestate(protocol)


def layers(count):
    """A library's layers: each holds the one below it in a field, and hands each event on."""
    stream = 'abstract class Layer { abstract void open(); abstract void read(); abstract void close(); }\n'
    last = 'class Bottom extends Layer { void open() { return; } void read() { return; } void close() { return; } }\n'
    more = stream + last
    for i in range(count):
        handed = ' '.join(
            f'void {name}() {{ L{i} this_; Layer below; this_ := @this: L{i}; below = this_.<L{i}: Layer below>; {event("below", name, "Layer")} return; }}'
            for name in ('open', 'read', 'close'))
        more += f'class L{i} extends Layer {{ Layer below; {handed} }}\n'
    statements = ['x0 = new Bottom;']
    for i in range(count):
        statements += [f'l{i} = new L{i};', f'l{i}.<L{i}: Layer below> = x{i};', f'x{i + 1} = l{i};']
    statements += [*(event(f'x{count}', name, 'Layer') for name in ('open', 'read', 'close')), 'return;']
    declared = [f'L{i} l{i};' for i in range(count)] + [f'Layer x{i};' for i in range(count + 1)]
    return main_class([], declared, statements, more), typestate('Bottom fresh;fresh open opened;opened read opened;opened close closed')


def explained(shape):
    """The same query with a certificate for each site."""

    def made(count):
        text, words = shape(count)
        return text, ['explain', *words[1:]]

    return made


# For each name: what is measured, how it is made, its sizes and its small sizes.
TABLES = {
    'run': [('steps of a loop that makes objects', loop, [250000, 500000, 1000000], [10000, 20000])],
    'calls': [
        ('a chain of calls', chain, [1250, 2500, 5000, 10000], [50, 100]),
        ('methods that all call each other', clique, [25, 50, 100, 200], [4, 8]),
        ('a call that many classes answer', dispatch, [125, 250, 500], [10, 20]),
        ('a method of many returns, called as often', returns, [50, 100, 200], [5, 10]),
        ('a static field, stored and loaded as often', statics, [50, 100, 200], [5, 10]),
        ('a local that is used at many places', uses, [64, 128, 256], [5, 10]),
    ],
    'fields': [
        ('a list of cells, built and read', cells, [50, 100, 200, 400], [5, 10]),
        ('a list of cells, made, joined and read', joined_cells, [50, 100, 200, 400], [5, 10]),
        ('boxes of a loop of factories', factories, [50, 100, 200, 400], [5, 10]),
        ('boxes through one put and one get', boxes, [50, 100, 200, 400, 1600, 6400], [5, 10]),
    ],
    'demo': [('boxes of the demo', demo, [50, 100, 200, 400], [5, 10])],
    'typestate': [
        ('files, one after the other', files, [50, 100, 200, 400], [5, 10]),
        ('files through one helper', helped_files, [50, 100, 200, 400], [5, 10]),
        ('a loop that reads a file at many places', looped_reads, [50, 100, 200, 400], [5, 10]),
        ('objects that go round sixteen states', sixteen_states, [10, 20, 40, 80], [2, 4]),
        ('layers of a library, each over the one below', layers, [5, 10, 20, 40], [2, 4]),
    ],
    'explain': [
        ('a list of cells, built and read', cells, [50, 100, 200, 400], [5, 10]),
        ('the same, explained', explained(cells), [50, 100, 200, 400], [5, 10]),
        ('boxes through one put and one get', boxes, [50, 100, 200, 400], [5, 10]),
        ('the same, explained', explained(boxes), [50, 100, 200, 400], [5, 10]),
        ('methods that all call each other', clique, [10, 20, 40], [4, 8]),
        ('the same, explained', explained(clique), [10, 20, 40], [4, 8]),
        ('a call that many classes answer', dispatch, [125, 250, 500], [10, 20]),
        ('the same, explained', explained(dispatch), [125, 250, 500], [10, 20]),
    ],
}


def program_to_run():
    """The program that BOOMER names, or that of ./boomer, which is built by a call without words."""
    if 'BOOMER' in os.environ:
        return os.environ['BOOMER']
    built = subprocess.run([os.path.join(TOP, 'boomer')], stdin=subprocess.DEVNULL, stdout=subprocess.DEVNULL, check=False)
    if built.returncode != 1:
        sys.exit('there is no program of these sources')
    return os.path.join(TOP, 'crates', 'boomer', 'out', 'boomer')


def feed(pipe, data):
    try:
        pipe.write(data)
        pipe.close()
    except BrokenPipeError:
        pass


def measure(program, text, words, limit):
    """Seconds, the greatest memory in MiB, the reply's lines by their first words, and the reply."""
    begin = time.perf_counter()
    child = subprocess.Popen([program, *words], stdin=subprocess.PIPE, stdout=subprocess.PIPE)
    timer = threading.Timer(limit, child.kill)
    timer.start()
    writer = threading.Thread(target=feed, args=(child.stdin, text.encode()))
    writer.start()
    reply = child.stdout.read().decode()
    writer.join()
    _, _, used = os.wait4(child.pid, 0)
    timer.cancel()
    seconds = time.perf_counter() - begin
    child.returncode = 0
    told = dict(line.split(' ', 1) for line in reply.splitlines() if ' ' in line)
    return seconds, used.ru_maxrss / 1024, told, reply


def room(memory):
    """The memory of a call, or that it is no more than this script's own, from which it was started."""
    own = resource.getrusage(resource.RUSAGE_SELF).ru_maxrss / 1024
    return f'{memory:.0f} MiB' if memory > own + 1 else f'<{own:.0f} MiB'


def growth(now, before):
    return f'{now / before:.2f}' if before else '-'


def show(name, title, shape, sizes, program, limit):
    print(f'\n{title}')
    rate = 'steps/s' if name == 'run' else 'demanded'
    print(f'{"size":>8} {"seconds":>9} {"growth":>7} {rate:>10} {"growth":>7} {"sites":>6} {"memory":>9}', flush=True)
    before, fewer = None, None
    for size in sizes:
        text, words = shape(size)
        seconds, memory, told, reply = measure(program, text, words, limit)
        if not reply and seconds >= limit:
            print(f'{size:>8} {seconds:>9.3f}   ended by the limit; larger sizes are left out', flush=True)
            return
        count = told.get('steps') if name == 'run' else told.get('demanded')
        if count is None:
            print(f'{size:>8} {seconds:>9.3f}   ' + (reply.strip() or 'no reply')[:80], flush=True)
            before, fewer = None, None
            continue
        count = round(int(count) / seconds) if name == 'run' else int(count)
        line = f'{size:>8} {seconds:>9.3f} {growth(seconds, before):>7} {count:>10} {growth(count, fewer):>7} {told.get("sites", "-"):>6} {room(memory):>9}'
        print(line, flush=True)
        before, fewer = seconds, count


def main():
    parser = argparse.ArgumentParser(usage=__doc__)
    parser.add_argument('--small', action='store_true')
    parser.add_argument('--limit', type=float, default=300)
    parser.add_argument('names', nargs='*')
    asked = parser.parse_args()
    if any(name not in TABLES for name in asked.names):
        sys.exit(__doc__)
    program = program_to_run()
    for name in asked.names or TABLES:
        for title, shape, sizes, few in TABLES[name]:
            show(name, title, shape, few if asked.small else sizes, program, asked.limit)


if __name__ == '__main__':
    main()
