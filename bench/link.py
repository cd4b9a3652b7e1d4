"""How long a program takes to be read and linked with the prelude: over a wide hierarchy, a deep one, one with interfaces everywhere, and over many statements.

usage: bench/link.sh

It builds a small program over the reader's and the linker's crates in a temporary folder, which proves them there (some minutes, unless a
check on this machine did it before), and removes the folder at the end.
"""
import tempfile

from proved import INIT, build, run_measured

PROGRAM = r'''//! Links a program from standard input with the prelude, from the class `Main` on, and says what came of it.
#![tactic(auto)]

ghost use Rattle.std.specs.Prelude.{IfSome};
ghost use Rattle.link_rules.specs.Conditions.{IsRead};

use anyhow::Result;
use jim_ast::Program;
use jim_link::{declares_named, link};
use jim_parse::parse;
use jim_prelude::PRELUDE;
use jim_text::lex;
use link_rules::LinkError;
use read_laws::derived_programs_are_read;
use std::alloc::{AllocError, Global};
use std::io::Read;

// The program of a text.
fn read(alloc: Global, bytes: &[u8]) -> Option<Program>
    ensures { IfSome result IsRead }
{
    derived_programs_are_read();
    if bytes.len() > 16_777_216 {
        return None;
    }
    let tokens = lex(alloc, bytes).ok()?;
    parse(alloc, bytes, &tokens).ok()
}

// What linking tells of the two programs.
fn told(alloc: Global, input: &Program, prelude: &Program) -> Result<String, AllocError>
    requires input { IsRead input.now }
    requires prelude { IsRead prelude.now }
{
    if !declares_named(prelude) {
        return String::from_str(alloc, "no prelude");
    }
    match link(alloc, input, prelude, "Main") {
        Ok(linked) => format!(in alloc; "linked {}", linked.methods()),
        Err(LinkError::Refused { kind, place, index }) => format!(in alloc; "refused {} {} {}", kind.number(), place.as_str(), index),
        Err(LinkError::NoMemory) => String::from_str(alloc, "no memory"),
    }
}

fn with_prelude(alloc: Global, input: &Program) -> Result<String, AllocError>
    requires { IsRead input.now }
{
    let Some(prelude) = read(alloc, PRELUDE.as_bytes()) else {
        return String::from_str(alloc, "no prelude");
    };
    told(alloc, input, &prelude)
}

fn answer(alloc: Global, bytes: &[u8]) -> Result<String, AllocError> {
    let Some(input) = read(alloc, bytes) else {
        return String::from_str(alloc, "no program");
    };
    with_prelude(alloc, &input)
}

fn main(rt: HostRuntime) -> Result<()> {
    let mut bytes = Vec::new(rt.alloc());
    rt.stdin().read_to_end(&mut bytes)?;
    let line = answer(rt.alloc(), &bytes)?;
    println!(rt; "{line}")?;
    Ok(())
}
'''

PROOF = '''use Rattle.link_speed.proofs.told.Goals as goal

pub link-requires-clause-nine : goal.link-requires-clause-nine
link-requires-clause-nine c = c.declares_named.ensures.0 c.if-not-declares_named.false
'''


def made(i):
    """The statements that make an object of a class."""
    return f'    x = new C{i};\n    specialinvoke x.<C{i}: void <init>()>();\n'


def main_class(body):
    head = 'class Main extends java.lang.Object {\n  public static void main(java.lang.String[]) {\n    java.lang.Object x;\n'
    return head + body + '    return;\n  }\n}\n'


def wide(n):
    """One parent, and n classes below it that override its method. Each is made, and the method called on the parent and on each."""
    classes = ''.join(f'class C{i} extends P {{\n{INIT}  void m() {{ return; }}\n}}\n' for i in range(n))
    calls = ''.join(made(i) + f'    virtualinvoke x.<C{i}: void m()>();\n' for i in range(n))
    return main_class(calls + '    virtualinvoke x.<P: void m()>();\n') + f'class P {{\n{INIT}  void m() {{ return; }}\n}}\n' + classes


def deep(n):
    """A chain of n classes. Every tenth overrides a method; each is made, and the method is called on each."""
    def one(i):
        parent = f'C{i - 1}' if i else 'java.lang.Object'
        own = '  void m() { return; }\n' if i % 10 == 0 else ''
        return f'class C{i} extends {parent} {{\n{INIT}{own}}}\n'
    calls = ''.join(made(i) + f'    virtualinvoke x.<C{i}: void m()>();\n' for i in range(n))
    return main_class(calls) + ''.join(one(i) for i in range(n))


def interfaces(n):
    """n classes with 20 interfaces each, of 200. Each is made, and a method called on each interface."""
    def one(i):
        names = ', '.join(f'I{(i * 7 + k * 11) % 200}' for k in range(20))
        return f'class C{i} implements {names} {{\n{INIT}  void m() {{ return; }}\n}}\n'
    calls = ''.join(made(i) for i in range(n)) + ''.join(f'    interfaceinvoke x.<I{i}: void m()>();\n' for i in range(200))
    return main_class(calls) + ''.join(f'interface I{i} {{\n  abstract void m();\n}}\n' for i in range(200)) + ''.join(one(i) for i in range(n))


def statements(n):
    """n statements in methods of a hundred, each of which calls the next one."""
    count = max(n // 100, 2)
    def method(i):
        body = ''.join(f'    l{k % 9} = l{(k * 5 + 1) % 9};\n    if 1 > 0 goto here;\n' for k in range(48)) + '    here:\n'
        call = f'    staticinvoke <Many: void m{i + 1}()>();\n' if i + 1 < count else ''
        return f'  static void m{i}() {{\n    java.lang.Object l0, l1, l2, l3, l4, l5, l6, l7, l8;\n{body}{call}    return;\n  }}\n'
    return main_class('    staticinvoke <Many: void m0()>();\n') + 'class Many {\n' + ''.join(method(i) for i in range(count)) + '}\n'


SHAPES = [('wide', wide, 5_000), ('deep', deep, 5_000), ('interfaces', interfaces, 5_000), ('statements', statements, 100_000)]


def main():
    with tempfile.TemporaryDirectory() as folder:
        path = build(folder, 'link_speed', 'jim_ast jim_text jim_parse jim_prelude link_rules jim_link read_laws anyhow', PROGRAM, [('told/Answers', PROOF)])
        print(f'{"shape":>12} {"size":>8} {"bytes":>10} {"time":>10} {"memory":>9} {"growth":>8}   answer, methods')
        for name, shape, size in SHAPES:
            before = None
            for part in [4, 2, 1]:
                text = shape(size // part)
                answer, seconds, memory = run_measured(path, text.encode())
                growth = f'{seconds / before:.2f}' if before else '-'
                before = seconds
                print(f'{name:>12} {size // part:8} {len(text):10} {seconds * 1000:7.0f} ms {memory / 1e6:6.1f} MB {growth:>8}   {answer}', flush=True)


main()
