"""What refined calls take beside the same query without, and what they find, round by round.

usage: refined.py [--small] [--limit SECONDS]

It generates programs whose calls many classes answer, and runs the built program on them: that of ./boomer, which builds it first, or the one that BOOMER
names. A time is that of the whole call, the least of three, as a ratio to that of points-to. --small takes small sizes. It prints figures, and judges nothing;
a query that isn't answered has its reply in place of the figures.
"""
import argparse

from queries import OBJECT, body, main_class, measure, points_to, program_to_run


def wide(classes, made):
    """Calls on an interface that many classes implement, of which few are made: what the last call gives."""
    more = f'interface I {{ {OBJECT} m(); }}\n' + '\n'.join(
        f'class A{i} {{ }} class C{i} implements I {{ {OBJECT} m() {{ {OBJECT} o; o = new A{i}; return o; }} }}' for i in range(classes))
    statements = [part for i in range(made) for part in (f'r{i} = new C{i};', f'x{i} = interfaceinvoke r{i}.<I: {OBJECT} m()>();')]
    index = len(statements)
    statements.append('return;')
    declared = [f'I r{i}; {OBJECT} x{i};' for i in range(made)]
    return main_class([], declared, statements, more), points_to(index, f'x{made - 1}')


def layers(count, made):
    """A library's layers, each over the one below it in a field, of which few are stacked: what the lowest gives through all of them."""
    more = f'abstract class Layer {{ abstract {OBJECT} get(); }}\n'
    more += ''.join(f'class B{i} extends Layer {{ {OBJECT} get() {{ {OBJECT} o; o = new A; return o; }} }}\n' for i in range(count))
    for i in range(count):
        more += (f'class L{i} extends Layer {{ Layer below; {OBJECT} get() {{ L{i} self; Layer below; {OBJECT} o; self := @this: L{i}; '
                 f'below = self.<L{i}: Layer below>; o = virtualinvoke below.<Layer: {OBJECT} get()>(); return o; }} }}\n')
    statements = ['x0 = new B0;']
    for i in range(made):
        statements += [f'l{i} = new L{i};', f'l{i}.<L{i}: Layer below> = x{i};', f'x{i + 1} = l{i};']
    index = len(statements) + 1
    statements += [f'o = virtualinvoke x{made}.<Layer: {OBJECT} get()>();', 'return;']
    declared = [f'L{i} l{i};' for i in range(made)] + [f'Layer x{i};' for i in range(made + 1)] + [f'{OBJECT} o;']
    return main_class([], declared, statements, more), points_to(index, 'o')


def containers(count, made):
    """A library's containers, each with an iterator of its own, of which few are made and filled: what the last one's iterator gives."""
    more = f'interface Seq {{ void add({OBJECT}); Iter iter(); }}\ninterface Iter {{ {OBJECT} next(); }}\n'
    for i in range(count):
        add = body([f'S{i} self; {OBJECT} o;'], [f'self := @this: S{i};', f'o := @parameter0: {OBJECT};', f'self.<S{i}: {OBJECT} v> = o;', 'return;'])
        iterate = body([f'S{i} self; T{i} t;'], [f'self := @this: S{i};', f't = new T{i};', f't.<T{i}: S{i} over> = self;', 'return t;'])
        following = body([f'T{i} self; S{i} over; {OBJECT} o;'], [f'self := @this: T{i};', f'over = self.<T{i}: S{i} over>;', f'o = over.<S{i}: {OBJECT} v>;', 'return o;'])
        more += f'class A{i} {{ }} class S{i} implements Seq {{ {OBJECT} v; void add({OBJECT}) {add} Iter iter() {iterate} }}\n'
        more += f'class T{i} implements Iter {{ S{i} over; {OBJECT} next() {following} }}\n'
    statements = []
    for i in range(made):
        statements += [
            f's{i} = new S{i};', f'a{i} = new A{i};', f'interfaceinvoke s{i}.<Seq: void add({OBJECT})>(a{i});', f't{i} = interfaceinvoke s{i}.<Seq: Iter iter()>();',
            f'x{i} = interfaceinvoke t{i}.<Iter: {OBJECT} next()>();'
        ]
    index = len(statements)
    statements.append('return;')
    declared = [f'Seq s{i}; {OBJECT} a{i}, x{i}; Iter t{i};' for i in range(made)]
    return main_class([], declared, statements, more), points_to(index, f'x{made - 1}')


# What is measured, how it is made, its sizes and its small sizes.
TABLES = [
    ('calls that many classes answer, of which few are made', wide, [(500, 20)], [(20, 4)]),
    ('layers of a library, of which few are stacked', layers, [(20, 5), (40, 5)], [(4, 2)]),
    ('containers and iterators of a library, of which few are made', containers, [(20, 5), (40, 5)], [(4, 2)]),
]

ROUNDS = 4


def least(program, text, words, limit):
    """The least time of three calls, and the last one's reply by its lines, and whole."""
    calls = [measure(program, text, words, limit) for _ in range(3)]
    return min(seconds for seconds, _, _, _ in calls), calls[-1][2], calls[-1][3]


def row(what, ratio, told, reply):
    if 'demanded' not in told:
        print(f'{what:>10} {ratio:>7.2f}   ' + (reply.strip() or 'no reply')[:80], flush=True)
        return
    print(f'{what:>10} {ratio:>7.2f} {told.get("narrowed", "-"):>9} {told["sites"]:>6} {told["demanded"]:>9}', flush=True)


def show(title, shape, sizes, program, limit):
    for size in sizes:
        text, words = shape(*size)
        print(f'\n{title}: {size[0]}, {size[1]}')
        print(f'{"rounds":>10} {"ratio":>7} {"narrowed":>9} {"sites":>6} {"demanded":>9}', flush=True)
        plain, told, reply = least(program, text, words, limit)
        row('points-to', 1, told, reply)
        for rounds in range(ROUNDS):
            seconds, told, reply = least(program, text, ['refined', *words[1:5], str(rounds), words[5]], limit)
            row(rounds, seconds / plain, told, reply)


def main():
    parser = argparse.ArgumentParser(usage=__doc__)
    parser.add_argument('--small', action='store_true')
    parser.add_argument('--limit', type=float, default=300)
    asked = parser.parse_args()
    program = program_to_run()
    for title, shape, sizes, few in TABLES:
        show(title, shape, few if asked.small else sizes, program, asked.limit)


if __name__ == '__main__':
    main()
