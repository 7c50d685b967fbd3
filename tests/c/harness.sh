# What the scripts of tests/c share; each sources it first and calls `report` last. After `examples/library` and
# `make -C examples`. What a program has to show is written in the scripts by hand; the first case that fails ends them.
set -eu
# signals that whoever calls this ignores, as under nohup, would not end the programs either
[ -n "${SIGNALS_AS_USUAL-}" ] || SIGNALS_AS_USUAL=1 exec env --default-signal "$0" "$@"
cd "$(dirname "${BASH_SOURCE[0]}")/../.."
script=tests/c/$(basename "$0")
plan=target/examples/plan
table=target/examples/table
for program in "$plan" "$table"; do
  [ -x "$program" ] || { echo "$script: $program is missing; run make -C examples first" >&2; exit 1; }
done
work=$(mktemp -d)
trap 'rm -rf "$work"' EXIT
cases=0

# document 01's E and H
e=examples/two-resets.rules
h=examples/source-000.rules

# the positions that the marked sequences of their reach 2 tables read, and those that they write. E: (1,1), (2,1) and
# (2,2) put 0 into position 1, both, and 2. H: (3,4) goes from 1,0,0 to 3,1,1, and no state admits another marked one
e_touches=(none 1,2)
h_touches=(1,2,3 1,2,3)

# an entry that keeps its sequence
kept=65535

words[1]='rule file: a byte does not fit, the file ends early, or bytes are left over'
words[2]='rule file: a number outside its limit'
words[3]='rule file: a variable out of place'
words[4]='rule file: two rules with equal cost, if and then lines'
words[5]='the reach is not 1 to 3'
words[6]='the table has not the length for these rules and this reach'
words[9]='the start has a wrong length or a value not below its size'
words[10]='the goal has a wrong length or a value not below its size'
words[11]='more than 32 moves'
words[13]="a move that is no rule's number"
words[14]='the table is not accepted'
words[15]='no plan within the bounds'
words[16]='no plan met, and more sequences to visit than the step limit'
words[18]='a plan met, which need not be the cheapest, and more sequences to visit than the step limit'

# WHAT EXPECTED GOT COMMAND..: ends the tests if the texts differ
same() {
  [ "$2" = "$3" ] && return
  local command
  command=$(printf ' %q' "${@:4}")
  printf '%s: %s differs\nrun:%s\nexpected:\n%s\ngot:\n%s\n' "$script" "$1" "${command:0:500}" "$2" "$3" >&2
  exit 1
}

# STATUS STDOUT STDERR COMMAND..: runs a command that has to end with this status and these texts; each text ends in a
# point, which keeps its line feeds
run() {
  local status=0
  "${@:4}" >"$work/out" 2>"$work/err" || status=$?
  same 'standard output' "$2" "$(cat "$work/out" && echo .)" "${@:4}"
  same 'standard error' "$3" "$(cat "$work/err" && echo .)" "${@:4}"
  same 'the status' "$1" "$status" "${@:4}"
  cases=$((cases + 1))
}

# RULES COST STEPS: what plan shows of a plan, its rules separated by spaces
shown() {
  local rules=() rule
  read -ra rules <<<"$1"
  printf 'outcome 0: plan found\ncost %s\nlength %s\nsteps %s\n' "$2" "${#rules[@]}" "$3"
  for rule in "${rules[@]}"; do echo "rule $rule"; done
}

# RULES COST FLOOR LIMIT: what plan shows of a plan met before the step limit, which is the number of steps
shown_at_limit() {
  local rules=() rule
  read -ra rules <<<"$1"
  printf 'outcome 18: %s: %s\ncost %s\nat least %s\nlength %s\nsteps %s\n' "${words[18]}" "$4" "$2" "$3" \
    "${#rules[@]}" "$4"
  for rule in "${rules[@]}"; do echo "rule $rule"; done
}

# OUTCOME STEPS CAUSE: what plan shows of an outcome without a plan; the cause follows its words
shown_outcome() {
  printf 'outcome %s: %s%s\nsteps %s\n' "$1" "${words[$1]}" "$3" "$2"
}

# RULES COST STEPS ARGUMENT..: a search that finds this plan
finds() {
  run 0 "$(shown "$1" "$2" "$3" && echo .)" . "$plan" "${@:4}"
}

# RULES COST FLOOR LIMIT ARGUMENT..: a search that ends in outcome 18 at this step limit, with this plan
meets() {
  run 1 "$(shown_at_limit "$1" "$2" "$3" "$4" && echo .)" . "$plan" "${@:5}" --steps "$4"
}

# OUTCOME STEPS CAUSE ARGUMENT..: a search that ends in this outcome, with a blank plan
ends() {
  run 1 "$(shown_outcome "$1" "$2" "$3" && echo .)" . "$plan" "${@:4}"
}

# TEXT READ WRITTEN: what table shows of outcome 0, with the positions that the marked sequences read and write
shown_table() {
  lines "outcome 0: $1" "positions read by marked sequences: $2" "positions written by marked sequences: $3"
}

# TEXT READ WRITTEN ARGUMENT..: the table tool's outcome 0
does() {
  run 0 "$(shown_table "$1" "$2" "$3" && echo .)" . "$table" "${@:4}"
}

# OUTCOME CAUSE ARGUMENT..: the table tool's refusals
refuses() {
  run 1 "outcome $1: ${words[$1]}$2"$'\n.' . "$table" "${@:3}"
}

# MESSAGE COMMAND..: a message, and nothing on standard output
errs() {
  run 2 . "${2##*/}: $1"$'\n.' "${@:2}"
}

# MESSAGE COMMAND..: a message, a line that points to the help, and nothing on standard output
errs_with_hint() {
  local name=${2##*/}
  run 2 . "$name: $1"$'\n'"$name: '$name --help' shows how to call it"$'\n.' "${@:2}"
}

# EXPECTED FILE: ends the tests if the bytes of two files differ
same_bytes() {
  same "$2" "$(od -c "$1")" "$(od -c "$2")" od -c "$2"
}

# FILE: ends the tests if there is such a file
absent() {
  [ ! -e "$1" ] || same "$1" 'no file' 'a file' ls "$1"
}

# LINE..: a file of these lines
lines() {
  printf '%s\n' "$@"
}

# ENTRY..: a table of these entries, low byte first
entries() {
  local entry
  for entry in "$@"; do printf '%b' "$(printf '\\x%02x\\x%02x' $((entry % 256)) $((entry / 256)))"; done
}

# FILE: the entries of a table
entries_of() {
  od -An -v -tu1 -w2 "$1" | while read -r low high; do printf '%s ' $((low + 256 * high)); done
}

# the longest rule file: 16 positions of size 16, 31 rules of cost 255, every entry as long as it can be
longest_file() {
  local if=x1,x2,x3,x4,x5,x6,x7,x8,x9,x10,x11,x12,x13,x14,x15,x16 rest rule
  rest=$(printf ',x16%.0s' {3..16})
  lines positions=16 "sizes=16$(printf ',16%.0s' {2..16})" rules=31
  for rule in {0..30}; do lines cost=255 "if=$if" "then=x1$((rule / 7)),x1$((rule % 7))$rest"; done
}

# COMMAND..: with the standard output closed
closed() {
  "$@" >&-
}

# builds tests/c/shim.c, which stands between a program and the system
build_shim() {
  "${CC:-cc}" -std=c11 -Wall -Wextra -Wpedantic -Werror -shared -fPIC -o "$work/shim.so" tests/c/shim.c
}

# SETTING.. COMMAND..: a command under the shim, whose settings are written TRY_NAME=value. Of a command that a signal
# ends the shell says so on its own standard error, which is left out
under_shim() {
  { env LD_PRELOAD="$work/shim.so" "$@" 2>&3; } 3>&2 2>"$work/shell"
}

report() {
  echo "$script: $cases cases"
}
