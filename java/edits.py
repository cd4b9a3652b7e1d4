#!/usr/bin/env python3
"""Changes of the companion that its tests have to see.

usage: java/edits.py              lists them
       java/edits.py N [TESTS]    applies change N to a copy of java/, and runs the test classes of this pattern, else those that it has

Each change is a text of one source file that stands there once, what takes its place, and the test classes that see it where they aren't RowsTest and
OddTest. A change that doesn't fit any more is an error. BOOMER names the program that is asked. It is run by hand; README.md has the table.
"""
import os
import pathlib
import shutil
import subprocess
import sys
import tempfile

TOP = pathlib.Path(__file__).resolve().parent
JIMPLE = "src/main/java/boomer/jimple/"
BESIDE = "src/main/java/boomer/beside/"
CLOSE = "src/main/java/boomer/close/"
ROWS = ".*(RowsTest|OddTest)"
LIBRARY = ".*(CloseTest|LibraryTest)"

EDITS = [
    ("a private call left virtual", JIMPLE + "Calls.java", "} else if (isVirtual && isPrivate(call)) {", "} else if (isVirtual && call == null) {"),
    ("the super call's owner left", JIMPLE + "Calls.java", "call.owner = file.node().superName;", ""),
    ("the traps' order turned", JIMPLE + "Walk.java", "        return traps;\n", "        java.util.Collections.reverse(traps);\n        return traps;\n"),
    ("any as Exception", JIMPLE + "Walk.java", "block.type == null ? THROWABLE.getInternalName() : block.type",
     'block.type == null ? "java/lang/Exception" : block.type'),
    ("no saving before a store", JIMPLE + "Walk.java", "        save(local);\n        emit(Kind.COPY, local", "        emit(Kind.COPY, local"),
    ("arguments turned", JIMPLE + "Walk.java", "        String owner = node.owner.startsWith(\"[\")",
     "        Collections.reverse(isStatic ? words : words.subList(1, words.size()));\n        String owner = node.owner.startsWith(\"[\")"),
    ("dup_x1 as dup", JIMPLE + "Stack.java", "case Opcodes.DUP_X1 -> copy(1, 1);", "case Opcodes.DUP_X1 -> copy(1, 0);"),
    ("dup2 forms by entries", JIMPLE + "Stack.java", "return type == Type.LONG_TYPE || type == Type.DOUBLE_TYPE ? 2 : 1;", "return 1;"),
    ("the default case first", JIMPLE + "Instructions.java", "        all.add(last);\n", "        all.add(0, last);\n"),
    ("renaming where something came between", JIMPLE + "Walk.java", "boolean isLast = last != null && value.equals(last.to) && last.to.isFresh();",
     "boolean isLast = last != null && value.equals(last.to);"),
    ("copies at a border one after the other", JIMPLE + "Walk.java", "if (!entries.get(depth).equals(place) && isElsewhere) {",
     "if (isElsewhere && place == null) {"),
    ("captured values turned", JIMPLE + "Lambdas.java", "            coder.load(Variable.OBJECT, 0).field(Opcodes.GETFIELD, name, field(i), captured[i]",
     "            coder.load(Variable.OBJECT, 0).field(Opcodes.GETFIELD, name, field(captured.length - 1 - i), captured[i]"),
    ("a lambda's result dropped", JIMPLE + "Lambdas.java", "return coder.adapt(result, type.getReturnType()).giveBack(type.getReturnType()).method();",
     "return coder.adapt(result, type.getReturnType()).op(Opcodes.POP).op(Opcodes.ACONST_NULL).giveBack(type.getReturnType()).method();"),
    ("a site taken by name, not by place", BESIDE + "Spots.java", 'String place = method + " " + acting + " new ";',
     'String place = method + " " + index + " new ";'),
    ("exit not consumed", BESIDE + "Drive.java", "        frame.cursor.take();\n        at(now);\n    }\n\n    private boolean isHandled",
     "        if (frame.cursor.peek().kind == Event.Kind.CAUGHT) {\n            frame.cursor.take();\n        }\n        at(now);\n    }\n\n    private boolean isHandled"),
    ("an early end accepted", BESIDE + "Drive.java", 'Difference.unless(main.peek() == null, "the machine ended, and Java goes on with " + main.peek());', ""),
    ("a write of an array not counted", BESIDE + "Choices.java", "            writes.write(at.array, at.index);\n            return covered(\"store\", 0);",
     "            return covered(\"store\", 0);"),
    ("webs not joined at a merge", JIMPLE + "Webs.java", "block.next().forEach(next -> unite(now, entries.get(next)));",
     "block.next().stream().limit(1).forEach(next -> unite(now, entries.get(next)));"),
    ("a field's owner changed", JIMPLE + "Walk.java", "new Named.Field(node.owner, node.name, node.desc)",
     'new Named.Field(node.owner.replaceAll("[$].*", ""), node.name, node.desc)'),
    ("a constant field left null", JIMPLE + "Rewriting.java", "field.value instanceof String).toList();",
     "field.value instanceof Integer).toList();", ".*BodyTest"),
    ("an initializer printed native", CLOSE + "Text.java", "if (!reach.has(method) && file.from() != From.USER && !isInitializer) {",
     "if ((!reach.has(method) || isInitializer) && file.from() != From.USER) {", LIBRARY),
    ("a member left out", CLOSE + "Text.java",
     "return file.from() == From.USER || bodies.containsKey(method) || called.contains(method.name + method.desc);",
     "return file.from() == From.USER || bodies.containsKey(method);", LIBRARY),
    ("a default method not reached", CLOSE + "Reach.java", "        for (String above : ancestors(file)) {\n            ClassFile each = world",
     "        for (String above : List.<String>of()) {\n            ClassFile each = world", LIBRARY),
    ("a parent's initializer forgotten", CLOSE + "Reach.java",
     "        parents(file).forEach(name -> world.find(name).ifPresent(this::initialize));\n", ""),
    ("a completed member that keeps nothing", CLOSE + "Unknown.java", "                keep(code.load(type, slot));\n", "", LIBRARY),
    ("no callback", CLOSE + "Unknown.java", "called.size() <= CALLED_BACK ? called", "called.size() < 0 ? called", LIBRARY),
    ("deep without elements", CLOSE + "Unknown.java",
     "        maybe(code, () -> keep(any(code, array).op(Opcodes.ICONST_0).op(Opcodes.AALOAD)));\n", "", LIBRARY),
    ("two methods taken for one target", CLOSE + "Targets.java", "found.size() == 1 ? found.iterator().next() : null",
     "!found.isEmpty() ? found.iterator().next() : null", LIBRARY),
    ("class constants apart from getClass", CLOSE + "ClassConstants.java", "            all.add(type);\n", "", LIBRARY),
    ("a copy that calls back what another one was given", CLOSE + "Copies.java", "calling(reach.body(method), depth - 1)",
     "bodies.values().stream().filter(java.util.Objects::nonNull).findFirst().orElse(reach.body(method))", LIBRARY),
]


def apply(number, top):
    """Applies a change to a copy of the folder."""
    name, file, old, new = EDITS[number][:4]
    path = top / file
    text = path.read_text()
    if text.count(old) != 1:
        sys.exit(f"edits.py: `{name}` fits {text.count(old)} times")
    path.write_text(text.replace(old, new))


def main(words):
    """Lists the changes, or tries one."""
    if not words:
        for number, (name, file, old, *_) in enumerate(EDITS):
            fits = (TOP / file).read_text().count(old)
            print(f"{number:2} {name} ({file}){'' if fits == 1 else f': FITS {fits} TIMES'}")
        return
    number = int(words[0])
    with tempfile.TemporaryDirectory() as folder:
        copy = pathlib.Path(folder) / "java"
        shutil.copytree(TOP, copy)
        (pathlib.Path(folder) / "docs").symlink_to(TOP.parent / "docs")
        apply(number, copy)
        fit = EDITS[number][4] if EDITS[number][4:] else ROWS
        environment = dict(os.environ, TESTS=words[1] if words[1:] else fit)
        done = subprocess.run([copy / "build.sh", "test"], env=environment, capture_output=True, text=True)
        print(f"{EDITS[number][0]}: {'NOT SEEN' if done.returncode == 0 else 'seen'}")
        print(done.stdout[-3000:])


if __name__ == "__main__":
    main(sys.argv[1:])
