#!/usr/bin/env bash
# Tests the tools on the examples, and compares what the contracts rest on with docs/DEFINITIONS.md.
#
# usage: tests/tools.sh
#
# It wants Python 3, and no kit. It prints what isn't as it should be, and at the end how much was looked at; the status is 1 where anything wasn't.
set -euo pipefail
cd "$(dirname "${BASH_SOURCE[0]}")/.."
main='<Main: void main(java.lang.String[])>'
work=$(mktemp -d)
trap 'rm -rf "$work"' EXIT
all=0
wrong=0

# prints WHAT STATUS TEXT COMMAND..: the command ends with the status, prints the text, and doesn't break down.
prints() {
  local what=$1 wanted=$2 text=$3 printed status=0
  shift 3
  printed=$("$@" 2> "$work/said") || status=$?
  all=$((all + 1))
  if [ "$status" -ne "$wanted" ] || [ "$printed" != "$text" ] || grep -q Traceback "$work/said"; then
    printf '== %s: status %s\n%s\n' "$what" "$status" "$printed"
    cat "$work/said"
    wrong=$((wrong + 1))
  fi
}

# says WHAT TEXT COMMAND..: the command ends with the status 1, prints nothing, and says the text on standard error.
says() {
  local what=$1 text=$2
  shift 2
  prints "$what" 1 '' "$@"
  prints "$what, and says so" 0 "$text" echo "$(cat "$work/said")"
}

prints 'labels and declarations have no index' 0 '     begin:
    0  x = null;
    1  nop;
     end:
    2  return;' tools/number.py examples/index.jimple "$main"

prints 'identity statements have one, a switch has one, and a trap has none' 0 '    0  r0 := @parameter0: java.lang.Object;
     begin:
    1  $z0 = r0 instanceof org.shop.Basket;
    2  if $z0 == 0 goto other;
    3  r1 = (org.shop.Basket) r0;
    4  $r3 = r1.<org.shop.Basket: java.lang.Object[] items>;
    5  $i0 = lengthof $r3;
    6  $i0 = $i0 % 4;
    7  lookupswitch($i0) { case -1: goto other; case 2: goto made; default: goto found; };
     found:
    8  $r2 = $r3[0];
    9  return $r2;
     made:
   10  r5 = newmultiarray (int)[3][];
   11  return r5;
     other:
   12  staticinvoke <java.lang.System: void exit(int)>(1);
   13  return null;
     end:
   14  $r4 := @caughtexception;
   15  throw $r4;
     catch java.lang.ClassCastException from begin to other with end;' tools/number.py examples/compiled.jimple '<org.shop.Basket: java.lang.Object first(java.lang.Object)>'

prints 'so does what is stored into a static field' 0 '    0  a = new Box;
    1  b = new Box;
    2  o = new A;
    3  a.<Box: Box n> = b;
    4  b.<Box: java.lang.Object v> = o;
    5  <Main: Box s> = a;
    6  c = <Main: Box s>;
    7  d = c.<Box: Box n>;
    8  x = d.<Box: java.lang.Object v>;
    9  return;' tools/number.py examples/statics.jimple "$main"

cat > "$work/lines.jimple" <<'END'
class Main {
    // a comment in front of a method
    static void main(java.lang.String[]) {
        java.lang.Object x; // x holds nothing
        /* a comment in front of a statement */
        x = null; // twice:
/*7*/
     next:
        x = /* two */ null;
/*8*/
        return;
/* 9
   and more */
        catch java.lang.Error from next to next with next;
    }
}
END
prints 'a comment behind a statement is kept, as Soot writes the lines of Java' 0 '    0  x = null; // twice: /*7*/
     next:
    1  x = /* two */ null; /*8*/
    2  return; /* 9 and more */
     catch java.lang.Error from next to next with next;' tools/number.py "$work/lines.jimple" "$main"

{
  printf 'class Main { static void main(java.lang.String[]) {\n'
  seq 20000 | sed 's/.*/nop;/'
  printf 'return; } }\n'
} > "$work/long.jimple"
first_of() {
  "$@" | head -n 1
}
prints 'who reads may have enough of it' 0 '    0  nop;' first_of tools/number.py "$work/long.jimple" "$main"
says 'a file that is not there' 'none.jimple: No such file or directory' tools/number.py none.jimple
says 'a folder' 'examples: Is a directory' tools/number.py examples "$main"
says 'nor has it a token' 'none.jimple: No such file or directory' tools/where.py none.jimple 1

prints 'the methods with a body, by their texts' 0 '<org.shop.Basket: void <init>(int)>
<org.shop.Basket: java.lang.Object first(java.lang.Object)>' tools/number.py examples/compiled.jimple

prints 'a method that is not there' 1 '' tools/number.py examples/boxes.jimple '<Main: void f()>'

# What an example asks about is a statement, where the program is read and the place isn't refused for its index.
for args in examples/*.args; do
  example=${args%.args}
  mapfile -t words < "$args"
  case "${words[0]} $(head -n 1 "$example.stdout")" in
    run* | demo* | replay* | typestate* | batch* | *'refused Usage' | *'refused NotText'* | *'refused NotJimple'* | *'refused NoSuchPlace index') continue ;;
  esac
  found=$(tools/number.py "$example" "${words[2]}" | awk -v asked="${words[3]}" '$1 == asked { print $1 }')
  prints "$example" 0 "${words[3]}" echo "$found"
done

prints 'the token that NotJimple names' 0 'examples/grammar.jimple:7:9
        return;
        ^' tools/where.py examples/grammar.jimple "$(sed 's/refused NotJimple //' examples/grammar.jimple.stdout)"

prints 'the byte that NotText names' 0 'examples/text.jimple:5:15
        x = 1 ? 2;
              ^' tools/where.py --byte examples/text.jimple "$(sed 's/refused NotText //' examples/text.jimple.stdout)"

prints 'the end, behind the last of 28 tokens' 0 'examples/grammar.jimple:10:1

^' tools/where.py examples/grammar.jimple 28

prints 'no token' 1 '' tools/where.py examples/grammar.jimple 29

prints 'no clause of the top call' 1 '' tools/trusted.py safe sounds

if ! differences=$(tools/trusted.py --check); then
  printf '== docs/DEFINITIONS.md and the trusted definitions:\n%s\n' "$differences"
  wrong=$((wrong + 1))
fi
echo "$((all + 1)) looked at, $wrong wrong"
[ "$wrong" -eq 0 ]
