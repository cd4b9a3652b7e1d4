#!/usr/bin/env bash
# How long a query takes on straight-line programs of 10,000, 20,000, 40,000 and 80,000 statements, and how that grows. It prints figures, and judges nothing.
# The program is that of ./boomer, which builds it first; BOOMER names another one.
set -euo pipefail
top=$(cd "$(dirname "${BASH_SOURCE[0]}")/.." && pwd)
boomer=${BOOMER:-}
if [ -z "$boomer" ]; then
  "$top/boomer" < /dev/null > /dev/null || [ $? -eq 1 ]
  boomer=$top/crates/boomer/out/boomer
fi
folder=$(mktemp -d)
trap 'rm -rf "$folder"' EXIT

program() {
  awk -v n="$1" 'BEGIN {
    print "class Item { }"; print "class Main {"; print "static void main(java.lang.String[]) {";
    print "java.lang.Object first_of_all, second_of_all, third_of_all;"; print "first_of_all = new Item;";
    for (i = 2; i < n; i += 2) { print "second_of_all = first_of_all;"; print "first_of_all = second_of_all;" }
    print "return;"; print "}"; print "}"
  }'
}

seconds() {
  local index=$(($1 - 1))
  TIMEFORMAT=%R
  { time "$boomer" points-to Main '<Main: void main(java.lang.String[])>' "$index" first_of_all 4294967295 < "$folder/program" > "$folder/reply"; } 2>&1
}

program 2 > "$folder/program"
seconds 2 > /dev/null
before=
printf '%12s %12s %10s %8s\n' statements bytes seconds ratio
for n in 10000 20000 40000 80000; do
  program "$n" > "$folder/program"
  now=$(seconds "$n")
  ratio=-
  if [ -n "$before" ]; then ratio=$(awk -v a="$now" -v b="$before" 'BEGIN { if (b > 0) printf "%.2f", a / b; else print "-" }'); fi
  printf '%12s %12s %10s %8s\n' "$n" "$(stat -c %s "$folder/program")" "$now" "$ratio"
  before=$now
done
tail -n 2 "$folder/reply"
