#!/usr/bin/env bash
# Tests what docs/ARCHITECTURE.md says that the crates don't know of each other, by the names that stand in their files.
#
# usage: tests/layers.sh
#
# It also checks the figure of layers there, by tests/figure.py. It wants no kit. It prints each line of a file that breaks a rule, and at the end how many
# rules there are and how many are broken; the status is 1 where one is.
set -euo pipefail
cd "$(dirname "${BASH_SOURCE[0]}")/../crates"
crates=(*/)
crates=("${crates[@]%/}")
rules=0
broken=0

# files CRATE..: the sources, definitions and proofs of these crates, but for their tests.
files() {
  local crate
  for crate in "$@"; do
    find "$crate/src" "$crate/specs" "$crate/proofs" -type f \( -name '*.rt' -o -name '*.antt' \) 2> /dev/null | grep -Ev '(^|/|_)tests(/|\.rt$)|tests_' || true
  done
}

# none RULE PATTERN FILE..: no line of the files has the pattern, but for comments.
none() {
  local rule=$1 pattern=$2 found
  shift 2
  rules=$((rules + 1))
  found=$(grep -nE "$pattern" "$@" /dev/null | grep -vE '^[^:]*:[0-9]*: *(//|--)' || true)
  if [ -n "$found" ]; then
    printf '== %s\n%s\n' "$rule" "$(head -n 20 <<< "$found")"
    broken=$((broken + 1))
  fi
}

# names CRATE..: a pattern for a mention of any of these crates.
names() {
  local IFS='|'
  printf '(Rattle\\.|use |[^A-Za-z0-9_.:])(%s)(\\.|::)' "$*"
}

for_tests=(linked_text *_rows)

# What every crate may stand on.
for_all=(lists number_sets)

# but CRATE..: all crates other than these, those that are for tests, and those that are for all.
but() {
  local crate
  for crate in "${crates[@]}"; do
    case " $* ${for_tests[*]} ${for_all[*]} " in *" $crate "*) ;; *) printf '%s\n' "$crate" ;; esac
  done
}

# shellcheck disable=SC2046 # names of crates have no blanks
{
  none 'what is for all knows nothing of ours' "$(names $(but))" $(files "${for_all[@]}")
  none 'link_indexes knows code alone' "$(names $(but link_indexes jim_ast link_rules))" $(files link_indexes)
  none 'boom_words knows no programs' "$(names $(but boom_words lists))" $(files boom_words)
  none 'only boom_io and main touch streams' 'std::(io|fs|net)|, io\}' $(files $(but boom_io boomer))
  none 'class_rules knows rows of numbers alone' "$(names $(but class_rules))" $(files class_rules)
  none 'class_order knows numbers alone' "$(names $(but class_rules class_order))" $(files class_order)
  none 'class_tree knows rows of numbers alone' "$(names $(but class_rules class_order class_tree))" $(files class_tree)
  none 'saturation knows no programs' "$(names $(but weight_laws auto_table post_star rule_cells rule_marks))" $(files weight_laws auto_table post_star rule_cells rule_marks)
  none 'what runs side by side knows no programs' "$(names $(but piece_join batch_join))" $(files piece_join batch_join)
  none 'the builder knows no bytes' "$(names $(but jim_ast jim_text jim_signs jim_grammar jim_stmts jim_build))" $(files jim_grammar jim_stmts jim_build | grep /src/)
  none 'the builder knows no tokens but their classes' 'jim_text(::|\.(proofs|specs\.([A-Z]|(declared|contracts)\.[A-Z])))' $(files jim_grammar jim_stmts jim_build | grep /src/)
  none 'the machine knows no queries' "$(names spds_rules spds_laws spds_nodes demand_set program_demand call_side spds_tables spds_solve query_core)" $(files step_rules step_heap jim_step run_covers)
  none 'queries know no runs' "$(names step_rules step_heap jim_step run_report run_covers run_sound)" $(files spds_rules spds_laws spds_nodes demand_set program_demand call_side spds_tables spds_solve)
  none 'above link_program no code but that which links sees the syntax tree' 'jim_ast::(.*[{, ])?(Program|Class|Body|Stmt|Expr|Imm|Invoke|Ty|Trap|Names|NameId)\b' $(files spds_nodes demand_set program_demand call_side spds_tables spds_solve query_core step_heap jim_step run_report report_text | grep /src/)
  none 'above spds_solve nothing sees entries of tables' "$(names auto_table post_star call_side spds_tables)" $(files query_core report_text run_report boom_top boomer)
  none 'no crate of the program stands on a crate of tests' "$(names "${for_tests[@]}")" $(files "${for_all[@]}" $(but))
}

rules=$((rules + 1))
if ! ../tests/figure.py; then broken=$((broken + 1)); fi
echo "$rules rules, $broken broken"
[ "$broken" -eq 0 ]
