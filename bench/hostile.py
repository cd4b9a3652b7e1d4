"""How long the program takes on inputs that are made to be slow, how much memory that takes, and how both grow.

usage: bench/hostile.sh [--small] [--limit SECONDS] [SHAPE..]     the named shapes, or all

Each shape is a text of at most so many bytes, 1, 4 and 16 MiB, of which the program is asked for a run of one step, or of 10,000, or for the objects of a local. Of each size
the seconds of a processor and the memory are told, and the exponent of the growth between the last two sizes that ended: 1 is linear, 2 quadratic. A call that
takes longer than the limit, 60 seconds by the clock where none is given, is ended, and larger sizes of its shape are left out. It judges nothing.

The shapes in `one_hash` have texts that the hasher of the kit's maps, whose seed is fixed, folds to one number. Those of few slots have numbers, or pairs of them,
for which these maps begin to look in a part of their slots.
"""
import argparse
import itertools
import math
import os
import random
import resource
import subprocess
import sys

TOP = os.path.join(os.path.dirname(os.path.abspath(__file__)), '..')
FULL = 16 * 1024 * 1024
MAIN = '<Main: void main(java.lang.String[])>'
OBJECT = 'java.lang.Object'
LETTERS = b'abcdefghijklmnopqrstuvwxyzABCDEFGHIJKLMNOPQRSTUVWXYZ0123456789$_'
RUN = ['run', 'Main', '1', '-']
STEPS = ['run', 'Main', '10000', '-']
ASK = ['points-to', 'Main', MAIN, '0', 'x', '9']


def folded_to_zero():
    """24 bytes of letters behind which any 8 bytes give a text of 32 bytes that the fixed hasher folds to 0: its second half begins with what the first half
    was folded to."""
    multiplier, mask = 0x9E3779B97F4A7C15, (1 << 64) - 1
    start = (0x243F6A8885A308D3 + 32) & mask
    draw = random.Random(5)
    while True:
        front = bytes(draw.choice(LETTERS[:52]) for _ in range(16))
        product = (int.from_bytes(front[:8], 'little') ^ start) * (int.from_bytes(front[8:], 'little') ^ multiplier)
        state = ((product & mask) ^ (product >> 64)).to_bytes(8, 'little')
        if all(byte in LETTERS for byte in state):
            return (front + state).decode()


def letters(number, places):
    """So many letters that differ from number to number."""
    return ''.join(chr(LETTERS[number // 52 ** place % 52]) for place in range(places))


def tail(number):
    """8 letters, digits or marks that differ from number to number."""
    return ''.join(chr(LETTERS[number >> 6 * place & 63]) for place in range(8))


def filled(piece, size, head='', end=''):
    """Pieces by number between a head and an end, as many as have room in so many bytes."""
    parts, left, number = [head], size - len(head) - len(end), 0
    while True:
        part = piece(number)
        left -= len(part)
        if left < 0:
            return ''.join(parts) + end
        parts.append(part)
        number += 1


def in_main(piece, size, declared='', end='', more=''):
    return filled(piece, size, f'{more}class Main {{ static void main(java.lang.String[]) {{ {declared}\n', f'{end} return; }} }}\n')


def one_hash(make):
    front = folded_to_zero()
    return lambda size: make(size, lambda number: front + tail(number))


def ordinary(make):
    """As many names of the same length that have nothing in common but their front."""
    front = 'n' * len(folded_to_zero())
    return lambda size: make(size, lambda number: front + tail(number))


def texts(size, name):
    return in_main(lambda i: f'x = "{name(i)}";\n', size, f'{OBJECT} x;')


def names(size, name):
    return in_main(lambda i: f'x = {name(i)}.<{name(i)}: int f>;\n', size, 'int x;')


def class_names(size, name):
    return filled(lambda i: f'class {name(i)} {{ }}\n', size, end='class Main { static void main(java.lang.String[]) { return; } }\n')


def method_keys(size, name):
    return filled(lambda i: f'static void {name(i)}() {{ return; }}\n', size, 'class Main {\n', 'static void main(java.lang.String[]) { return; } }\n')


def local_names(size, name):
    return in_main(lambda i: f'int {name(i)};\n', size)


def label_names(size, name):
    return in_main(lambda i: f'{name(i)}: nop;\n', size)


def group_of(numbers, groups):
    """The group of slots, of so many, at which the kit's maps begin to look for some numbers of 32 bits."""
    multiplier, mask = 0x9E3779B97F4A7C15, (1 << 64) - 1
    folded = 0x243F6A8885A308D3
    for number in numbers:
        product = (folded ^ (number | number << 32)) * (multiplier ^ 8)
        folded = (product & mask) ^ (product >> 64)
    return (folded ^ folded >> 32) & (groups - 1)


def groups_for(count):
    """How many groups of slots a map of the kit has for so many entries."""
    groups = 1
    while 9 * groups < count:
        groups *= 2
    return groups


def locals_of_few_slots(size):
    """A method with many locals, and another one with those of them whose numbers begin in one quarter of the slots."""
    many = size * 3 // 4 // 5 - 60
    groups = groups_for(many // 4)
    others = ['int', 'byte', 'char', 'case', 'null', 'long', 'void', 'enum', 'from', 'with', 'goto', 'cmpg', 'cmpl', 'Main']
    taken = [text for text in (letters(i, 4) for i in range(many)) if text not in others]
    few = [text for number, text in enumerate(taken, 2) if group_of([number], groups) < groups // 4]
    return (f'class Main {{ static void f() {{ int {",".join(taken)}; return; }}\nstatic void g() {{ int {",".join(few)}; return; }}\n'
            'static void main(java.lang.String[]) { staticinvoke <Main: void g()>(); return; } }\n')


def pairs_of_few_slots(count):
    """So many pairs of the number of a class, from 1 on, and that of a key, from 0 on, for which the kit's maps begin to look in an eighth of their slots; and
    below which number all of them lie."""
    side = math.isqrt(8 * count) + 1
    groups = groups_for(count)
    found = ((class_, key) for class_ in range(1, side + 1) for key in range(side) if group_of([class_, key], groups) < groups // 8)
    return side, list(itertools.islice(found, count))


def family(side, members_of=lambda class_: ''):
    """A class with so many methods, which have the first keys, and as many classes below it, whose numbers begin at 1."""
    methods = ''.join(f'void {letters(key, 2)}x() {{ return; }}\n' for key in range(side))
    below = ''.join(f'class C{letters(class_, 2)} extends Top {{ {members_of(class_)}}}\n' for class_ in range(1, side + 1))
    return f'class Top {{\n{methods}}}\n{below}'


def calls_of_few_slots(count):
    side, pairs = pairs_of_few_slots(count)
    lines = ''.join(f'virtualinvoke x.<C{letters(class_, 2)}: void {letters(key, 2)}x()>();\n' for class_, key in pairs)
    return family(side) + main_of('Top x;', f'x = new Top;\n{lines}')


def methods_of_few_slots(count):
    side, pairs = pairs_of_few_slots(count)
    own = {}
    for class_, key in pairs:
        own.setdefault(class_, []).append(f'void {letters(key, 2)}x() {{ return; }} ')
    return family(side, lambda class_: ''.join(own.get(class_, []))) + main_of('int x;', '')


def repeated(count):
    """The shape of so many pieces at 16 MiB, and of as many fewer at fewer bytes."""
    return lambda make: lambda size: make(max(1, count * size // FULL))


def initializers(count):
    uses = ''.join(f'x = <C{i}: int f>;\n' for i in range(count))
    classes = ''.join(f'class C{i} {{ static int f; static void <clinit>() {{ return; }} }}\n' for i in range(count))
    return f'{classes}class Main {{ static void main(java.lang.String[]) {{ int x;\n{uses}return; }} }}\n'


def methods(count):
    return 'class Main {\n' + ''.join(f'static void m{i}() {{ return; }}\n' for i in range(count)) + 'static void main(java.lang.String[]) { return; } }\n'


def main_of(declared, body, more=''):
    return f'{more}class Main {{ static void main(java.lang.String[]) {{ {declared}\n{body}return; }} }}\n'


def labels(count):
    return main_of('int x;', ''.join(f'l{i}: if x == 0 goto l{count - 1 - i};\n' for i in range(count)))


def traps(count):
    made = 'catch A from l to m with h;\n' * count
    return f'class A extends java.lang.Throwable {{ }}\nclass Main {{ static void main(java.lang.String[]) {{ {OBJECT} x;\nl: x = new Main; m: return; h: x := @caughtexception; return;\n{made}}} }}\n'


def cases(count):
    return main_of('int x;', 'x = 1; tableswitch(x) {\n' + ''.join(f'case {i}: goto l;\n' for i in range(count)) + 'default: goto l; };\nl: nop;\n')


def arguments(count):
    kinds, given = ','.join(['int'] * count), ', '.join(['0'] * count)
    called = f'static void f({kinds}) {{ return; }}\n'
    return f'class Main {{ {called}static void main(java.lang.String[]) {{ staticinvoke <Main: void f({kinds})>({given});\nreturn; }} }}\n'


def dimensions(count):
    deep = '[]' * 255
    return main_of(f'{OBJECT} x;', f'x = (int{deep}) x;\n' * count)


def diamonds(count):
    """Interfaces of which each stands below the two before it, and a class below the last two."""
    made = ['interface I0 { void m(); }\n', 'interface I1 { void m(); }\n']
    made += [f'interface I{i} implements I{i - 1}, I{i - 2} {{ void m(); }}\n' for i in range(2, count)]
    last = f'class A implements I{count - 1}, I{count - 2} {{ void m() {{ return; }} }}\n'
    call = 'x = new A; interfaceinvoke x.<I0: void m()>();\n'
    return main_of('A x;', call, ''.join(made) + last)


def parents(count):
    made = 'class C0 { void m() { return; } }\n' + ''.join(f'class C{i} extends C{i - 1} {{ }}\n' for i in range(1, count))
    last = f'C{count - 1}'
    return main_of(f'{last} x;', f'x = new {last}; virtualinvoke x.<{last}: void m()>();\n', made)


def chain_of_one_method(count, of_each='', more=''):
    """A chain of classes of which the first has a method, and a call on an object of the first class."""
    made = 'class C0 { void m() { return; } }\n' + ''.join(f'class C{i} extends C{i - 1}{of_each} {{ }}\n' for i in range(1, count))
    return main_of('C0 x;', f'x = new C{count - 1}; virtualinvoke x.<C0: void m()>();\n', more + made)


def chain_with_interfaces(count):
    """The same chain, where each class names an interface."""
    return chain_of_one_method(count, ' implements I', 'interface I { }\n')


def cycle(count):
    """A chain of classes, and two others that are each other's parents."""
    made = 'class C0 { }\n' + ''.join(f'class C{i} extends C{i - 1} {{ }}\n' for i in range(1, count))
    return main_of('', '', made + 'class X extends Y { }\nclass Y extends X { }\n')


def calls(count):
    """Classes with a call each on an object of the class."""
    made = ''.join(f'class C{i} {{ void m() {{ return; }} }}\n' for i in range(count))
    return main_of(f'{OBJECT} x;', ''.join(f'x = new C{i}; virtualinvoke x.<C{i}: void m()>();\n' for i in range(count)), made)


def chain(count, head='', of_each='', members=''):
    """A chain of classes, the first with this head, the others with what follows a parent's name and with these members, and the last one's name."""
    return f'class C0{head}\n' + ''.join(f'class C{i} extends C{i - 1}{of_each} {{ {members} }}\n' for i in range(1, count)), f'C{count - 1}'


def static_fields(count):
    return ''.join(f'static int f{i};\n' for i in range(count))


def accesses(count, made, last):
    return main_of('int x;', ''.join(f'x = <{last}: int f{i}>;\n' for i in range(count)), made)


def fields_above(count):
    """Accesses that name the last class of a chain and fields of its first."""
    return accesses(count, *chain(count, f' {{ {static_fields(count)} }}'))


def fields_above_interfaces(count):
    """The same, where each other class names an interface."""
    made, last = chain(count, f' {{ {static_fields(count)} }}', ' implements I')
    return accesses(count, 'interface I { }\n' + made, last)


def fields_of_an_interface(count):
    """The same, where the fields are of an interface that the first class names."""
    made, last = chain(count, ' implements I { }')
    return accesses(count, f'interface I {{ {static_fields(count)} }}\n' + made, last)


def fields_behind_interfaces(count):
    """Accesses that name a class and fields of the first of a chain of interfaces, of which the class names the last."""
    made = f'interface I0 {{ {static_fields(count)} }}\n' + ''.join(f'interface I{i} implements I{i - 1} {{ }}\n' for i in range(1, count))
    return accesses(count, made + f'class C implements I{count - 1} {{ }}\n', 'C')


def fields_of_two_interfaces(count):
    """The same, where the first of the chain implements two interfaces with these fields."""
    made = f'interface J {{ {static_fields(count)} }}\ninterface K {{ {static_fields(count)} }}\ninterface I0 implements J, K {{ }}\n'
    made += ''.join(f'interface I{i} implements I{i - 1} {{ }}\n' for i in range(1, count))
    return accesses(count, made + f'class C implements I{count - 1} {{ }}\n', 'C')


def fields_behind_forks(count):
    """The same, where each of the chain names another interface first, which has a field of its own."""
    made = f'interface J {{ {static_fields(count)} }}\ninterface K {{ {static_fields(count)} }}\ninterface T {{ static int t; }}\ninterface I0 implements J, K {{ }}\n'
    made += ''.join(f'interface I{i} implements T, I{i - 1} {{ }}\n' for i in range(1, count))
    return accesses(count, made + f'class C implements I{count - 1} {{ }}\n', 'C')


def calls_on_a_chain(count):
    """Calls that name each class of a chain, of which the first has the method."""
    made, last = chain(count, ' { void m() { return; } }')
    return main_of(f'{last} x;', f'x = new {last};\n' + ''.join(f'virtualinvoke x.<C{i}: void m()>();\n' for i in range(count)), made)


def keys_on_a_chain(count):
    """Calls of many methods of the first class of a chain, on an object of it."""
    made, last = chain(count, ' { ' + ''.join(f'void m{i}() {{ return; }}\n' for i in range(count)) + ' }')
    return main_of('C0 x;', f'x = new {last};\n' + ''.join(f'virtualinvoke x.<C0: void m{i}()>();\n' for i in range(count)), made)


def keys_of_an_interface(count):
    """Calls of many methods on an interface that every second of the classes below one implements, which has the methods."""
    made = 'class A { ' + ''.join(f'void m{i}() {{ return; }}\n' for i in range(count)) + ' }\n'
    made += 'interface I { ' + ''.join(f'void m{i}();\n' for i in range(count)) + ' }\n'
    made += ''.join(f'class C{i} extends A{" implements I" * (i % 2)} {{ }}\n' for i in range(count))
    return main_of('I x;', 'x = new C1;\n' + ''.join(f'interfaceinvoke x.<I: void m{i}()>();\n' for i in range(count)), made)


def defaults_of_an_interface(count):
    """Calls of many default methods of an interface that every second of the classes below one implements."""
    made = 'class A { }\n' + ''.join(f'class C{i} extends A{" implements I" * (i % 2)} {{ }}\n' for i in range(count))
    made += 'interface I { ' + ''.join(f'void m{i}() {{ return; }}\n' for i in range(count)) + ' }\n'
    return main_of('I x;', 'x = new C1;\n' + ''.join(f'interfaceinvoke x.<I: void m{i}()>();\n' for i in range(count)), made)


def apart(count, interface):
    """Classes that implement an interface, each below a parent of its own that doesn't."""
    return ''.join(f'class P{i} {{ }}\nclass C{i} extends P{i} implements {interface} {{ }}\n' for i in range(count // 2))


def defaults_far_apart(count):
    """The same, where each class that implements the interface has a parent of its own."""
    made = apart(count, 'I') + 'interface I { ' + ''.join(f'void m{i}() {{ return; }}\n' for i in range(count)) + ' }\n'
    return main_of('I x;', 'x = new C1;\n' + ''.join(f'interfaceinvoke x.<I: void m{i}()>();\n' for i in range(count)), made)


def every_second(count):
    """An interface with many methods that every second of the classes before it implements."""
    methods = ''.join(f'void m{i}();\n' for i in range(count))
    return main_of('', '', ''.join(f'abstract class C{i}{" implements I" * (i % 2)} {{ }}\n' for i in range(count)) + f'interface I {{ {methods} }}\n')


def every_second_of_many(count):
    """Five interfaces with the same methods, all of which every second of the classes before them implements."""
    methods = ''.join(f'void m{i}();\n' for i in range(count // 5))
    made = ''.join(f'interface I{i} {{ {methods} }}\n' for i in range(5))
    made += f'interface J implements {", ".join(f"I{i}" for i in range(5))} {{ }}\n'
    return main_of('', '', ''.join(f'abstract class C{i}{" implements J" * (i % 2)} {{ }}\n' for i in range(count)) + made)


def every_second_of_a_chain(count):
    """A chain of interfaces, of which every second of the classes before them implements the last."""
    made = 'interface I0 { }\n' + ''.join(f'interface I{i} implements I{i - 1} {{ }}\n' for i in range(1, count))
    return main_of('', '', ''.join(f'class C{i}{f" implements I{count - 1}" * (i % 2)} {{ }}\n' for i in range(count)) + made)


def far_apart_under_a_chain(count):
    """The same, where each class that implements the last of the chain has a parent of its own."""
    made = 'interface I0 { }\n' + ''.join(f'interface I{i} implements I{i - 1} {{ }}\n' for i in range(1, count))
    return main_of('', '', apart(count, f'I{count - 1}') + made)


def side_by_side(count):
    """A call on an object of a class with many below it, each with an interface of its own that has the method."""
    made = ''.join(f'interface I{i} {{ void m() {{ return; }} }}\nclass A{i} extends A implements I{i} {{ }}\n' for i in range(count))
    return main_of('A x;', 'x = new A0; virtualinvoke x.<A: void m()>();\n', made + 'abstract class A { abstract void m(); }\n')


def hidden(count, of_each='', more=''):
    """A call on an object of a class with many below it, which reach many interfaces with the method, each hidden by one without a body."""
    made = ''.join(f'interface D{i} {{ void m() {{ return; }} }}\ninterface H{i} implements D{i} {{ void m(); }}\n' for i in range(count))
    every = ', '.join(f'H{i}' for i in range(count))
    made += f'abstract class A implements {every} {{ abstract void m(); }}\n'
    made += ''.join(more.format(i) + f'class C{i} extends A{of_each.format(i)} {{ }}\n' for i in range(count))
    return main_of('A x;', 'x = new C0; virtualinvoke x.<A: void m()>();\n', made)


def hidden_from_each(count):
    """The same, where each class below reaches an interface of its own, too."""
    return hidden(count, ' implements X{}', 'interface X{} {{ void m(); }}\n')


def hidden_by_all(count):
    """The same, where all those without a body are below one interface, and this is below all those with one: each hides each."""
    every = ', '.join(f'D{i}' for i in range(count))
    made = ''.join(f'interface D{i} {{ void m() {{ return; }} }}\n' for i in range(count)) + f'interface X implements {every} {{ }}\n'
    made += ''.join(f'interface H{i} implements X {{ void m(); }}\n' for i in range(count))
    every = ', '.join(f'H{i}' for i in range(count))
    made += f'abstract class A implements {every} {{ abstract void m(); }}\nclass C extends A {{ }}\n'
    return main_of('A x;', 'x = new C; virtualinvoke x.<A: void m()>();\n', made)


def hidden_with_gaps(count):
    """The same, where between any two that hide stands one without the method."""
    every = ', '.join(f'D{i}' for i in range(count))
    made = ''.join(f'interface D{i} {{ void m() {{ return; }} }}\n' for i in range(count)) + f'interface X implements {every} {{ }}\n'
    made += ''.join(f'interface H{i} implements X {{ void m(); }}\ninterface G{i} implements X {{ }}\n' for i in range(count))
    every = ', '.join(f'H{i}' for i in range(count))
    made += f'abstract class A implements {every} {{ abstract void m(); }}\nclass C extends A {{ }}\n'
    return main_of('A x;', 'x = new C; virtualinvoke x.<A: void m()>();\n', made)


def steps_by_defaults(count):
    """A loop of calls of a default method on an object that reaches many others, each hidden by one without a body."""
    made = ''.join(f'interface D{i} {{ void m() {{ return; }} }}\ninterface H{i} implements D{i} {{ void m(); }}\n' for i in range(count))
    every = ', '.join(f'H{i}' for i in range(count))
    made += f'interface E {{ void m() {{ return; }} }}\nclass C implements {every}, E {{ }}\n'
    return main_of('C x;', 'x = new C;\nl: virtualinvoke x.<C: void m()>();\ngoto l;\n', made)


def open_ended(head, piece):
    return lambda size: head + piece * ((size - len(head)) // len(piece))


MARKS = ['{', '}', '(', ')', '[', ']', ';', ',', ':', '.', '=', '<', '>', '+', '-', '*', '/ ', '%', '&', '^', '|', ':=', '==', '!=', '<=', '>=', '<<', '>>', '>>>']

SHAPES = {
    'texts of one hash': (one_hash(texts), ASK),
    'ordinary texts': (ordinary(texts), ASK),
    'names of one hash': (one_hash(names), ASK),
    'class names of one hash': (one_hash(class_names), RUN),
    'ordinary class names': (ordinary(class_names), RUN),
    'method keys of one hash': (one_hash(method_keys), RUN),
    'locals of one hash': (one_hash(local_names), RUN),
    'ordinary locals': (ordinary(local_names), RUN),
    'labels of one hash': (one_hash(label_names), RUN),
    'ordinary labels': (ordinary(label_names), RUN),
    'locals of few slots': (locals_of_few_slots, RUN),
    'calls of few slots': (repeated(400_000)(calls_of_few_slots), RUN),
    'methods of few slots': (repeated(550_000)(methods_of_few_slots), RUN),
    'initializers': (repeated(180_000)(initializers), RUN),
    'methods of a class': (repeated(100_000)(methods), RUN),
    'labels of a method': (repeated(500_000)(labels), RUN),
    'traps over one range': (repeated(500_000)(traps), RUN),
    'cases of a switch': (repeated(500_000)(cases), RUN),
    'arguments of a call': (repeated(60_000)(arguments), RUN),
    'dimensions': (repeated(30_000)(dimensions), ASK),
    'interfaces in diamonds': (repeated(60_000)(diamonds), RUN),
    'parents in a chain': (repeated(60_000)(parents), RUN),
    'a call on the first': (repeated(60_000)(chain_of_one_method), RUN),
    'each with an interface': (repeated(60_000)(chain_with_interfaces), RUN),
    'a cycle behind a chain': (repeated(60_000)(cycle), RUN),
    'a call on each class': (repeated(60_000)(calls), RUN),
    'fields above': (repeated(200_000)(fields_above), RUN),
    'fields over interfaces': (repeated(175_000)(fields_above_interfaces), RUN),
    'fields of an interface': (repeated(200_000)(fields_of_an_interface), RUN),
    'fields behind interfaces': (repeated(160_000)(fields_behind_interfaces), RUN),
    'fields of two interfaces': (repeated(150_000)(fields_of_two_interfaces), RUN),
    'fields behind forks': (repeated(140_000)(fields_behind_forks), RUN),
    'calls on a chain': (repeated(200_000)(calls_on_a_chain), RUN),
    'keys on a chain': (repeated(140_000)(keys_on_a_chain), RUN),
    'keys of an interface': (repeated(110_000)(keys_of_an_interface), RUN),
    'defaults of an interface': (repeated(150_000)(defaults_of_an_interface), RUN),
    'defaults far apart': (repeated(140_000)(defaults_far_apart), RUN),
    'every second class': (repeated(300_000)(every_second), RUN),
    'every second of many': (repeated(300_000)(every_second_of_many), RUN),
    'under a chain': (repeated(200_000)(every_second_of_a_chain), RUN),
    'far apart under a chain': (repeated(200_000)(far_apart_under_a_chain), RUN),
    'interfaces side by side': (repeated(160_000)(side_by_side), RUN),
    'hidden interfaces': (repeated(100_000)(hidden), RUN),
    'hidden from each': (repeated(80_000)(hidden_from_each), RUN),
    'hidden by all': (repeated(160_000)(hidden_by_all), RUN),
    'hidden with gaps': (repeated(120_000)(hidden_with_gaps), RUN),
    'steps by defaults': (repeated(165_000)(steps_by_defaults), STEPS),
    'open comment': (open_ended('/*', '* '), RUN),
    'open line': (open_ended('//', 'x'), RUN),
    'open text': (open_ended('"', '\\"'), RUN),
    'open quote': (open_ended("a.'", 'b'), RUN),
}
SHAPES.update({f'marks {mark.strip()}': (open_ended('', mark), RUN) for mark in MARKS})


def limited():
    resource.setrlimit(resource.RLIMIT_AS, (12 << 30, 12 << 30))


def spent():
    """Seconds of a processor that the calls so far have taken."""
    used = resource.getrusage(resource.RUSAGE_CHILDREN)
    return used.ru_utime + used.ru_stime


def measured(program, words, data, limit):
    """What is replied first, seconds of a processor, and bytes of memory; no seconds where the limit is passed."""
    before = spent()
    with subprocess.Popen([program, *words], stdin=subprocess.PIPE, stdout=subprocess.PIPE, stderr=subprocess.DEVNULL, preexec_fn=limited) as child:
        try:
            reply, _ = child.communicate(data, timeout=limit)
        except subprocess.TimeoutExpired:
            child.kill()
            child.communicate()
            return 'ended', None, 0
    took = spent() - before
    line = reply.decode(errors='replace').split('\n')[0] or f'status {child.returncode}'
    return line[:40], took, resource.getrusage(resource.RUSAGE_CHILDREN).ru_maxrss * 1024


def built():
    program = os.environ.get('BOOMER')
    if program:
        return program
    done = subprocess.run([os.path.join(TOP, 'boomer')], stdin=subprocess.DEVNULL, stdout=subprocess.DEVNULL)
    if done.returncode != 1:
        sys.exit('the program does not build')
    return os.path.join(TOP, 'crates', 'boomer', 'out', 'boomer')


def shape_of(name, program, sizes, limit):
    """One line of a shape. It runs in a process of its own, so that its memory is that of this shape."""
    make, words = SHAPES[name]
    cells, points, said = [], [], ''
    for size in sizes:
        data = make(size).encode()
        said, took, memory = measured(program, words, data, limit)
        if took is None:
            cells.append(f'{"ended":>8} {"":>8}')
            break
        cells.append(f'{took:7.2f}s {memory / 2**20:5.0f}MiB')
        points.append((len(data), max(took, 0.001), memory))
    cells += [' ' * 17] * (len(sizes) - len(cells))
    grown = '-'
    if len(points) > 1:
        (first, early, _), (last, late, _) = points[-2], points[-1]
        grown = f'{math.log(late / early) / math.log(last / first):.2f}'
    print(f'{name:24} {" ".join(cells)} {grown:>6}   {said}', flush=True)


def main():
    take = argparse.ArgumentParser()
    take.add_argument('--small', action='store_true')
    take.add_argument('--limit', type=float, default=60)
    take.add_argument('shapes', nargs='*')
    given = take.parse_args()
    unknown = [name for name in given.shapes if name not in SHAPES]
    if unknown:
        sys.exit('no such shape: ' + ', '.join(unknown) + '\nshapes: ' + ', '.join(SHAPES))
    program = built()
    sizes = [FULL // part // (16 if given.small else 1) for part in [16, 4, 1]]
    print(f'{"shape":24} ' + ' '.join(f'{size / 2**20:>14.2f}MiB' for size in sizes) + f' {"growth":>6}   replied')
    for name in given.shapes or SHAPES:
        child = os.fork()
        if child == 0:
            shape_of(name, program, sizes, given.limit)
            os._exit(0)
        os.waitpid(child, 0)


main()
