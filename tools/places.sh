#!/bin/bash
# Counts the places that docs/DESIGN-PASS.md speaks of, in the sources of a commit: tools/places.sh [COMMIT]. With LIST=1 it prints them.
set -u
commit=${1:-HEAD}
sources='crates/*/src/*.rt'

count() {
    local name=$1 pattern=$2 paths=${3:-$sources}
    local found
    found=$(git grep -nE "$pattern" "$commit" -- "$paths" | sed "s/^$commit://")
    printf '%5d  %s\n' "$(printf '%s' "$found" | grep -c .)" "$name"
    if [ "${LIST:-0}" = 1 ]; then printf '%s\n' "$found" | sed 's/^/         /'; fi
}

echo "1. Option, Result, enums"
count 'enums of its own' '^(pub )?enum '
count 'numbers for a refusal and its place' '\b(number|place|fault): u64'
count 'constants that number a kind or a refusal' '^ *(pub )?const [A-Z_]+: u64 = (1|2|3|4|15|16|17|18|21|31|41|42);'
count 'lines by the number of their form' 'found: &(mut )?\[u64; 5\]|kind: u64'
count 'matches on a read text' 'match .*(read|read_runs|read_moves|move_at|first|add|step_from|run)\('
echo "2. twins"
python3 tools/twins.py "$commit" | tail -1 | sed "s/^/       /"
echo "3. loops"
count 'while' '^ *while '
count 'for' '^ *for '
count 'iterator chains' '\.(iter|iter_mut|rev|enumerate|any|all|position|find|map|sum|fold)\('
echo "4. by hand what a derive or std has"
count 'functions' '^ *(pub )?fn (same_colour|same_claim|greater|lesser|greatest|saturating_sub|is_digit|units|is_printable|hex_digit|when|value_if|select|stands|starts_by|put|value_at|store|store_two|all_three|between)\b'
echo "5. parameters and facts that travel"
count 'a shape beside its arrays' 'shape: Shape'
count 'a job array' '\[u64; (layout::)?JOB\]'
count 'a schedule array' '\[u64; (layout::)?SCHEDULE\]'
count 'the ends of a chain' '(first|next): &|made_first|read_first'
count 'the parts of a staircase' '\b(ticks|free|blue_ticks|blue_free|red_ticks|red_free): &'
count 'clauses on bounds' '^ *requires.*\b(InBounds|JobInBounds|Processors|LastBounds(On)?|NeedsBounds|KeptBounds|TicksWithin|Sized|Stands|OrderBounds|Room)\b'
count 'clauses on chains' '^ *requires.*\bChained\b'
count 'clauses on well-formed instances' '^ *requires.*\bWellFormed\b'
echo "6. buffers, columns, parallel arrays"
count 'arrays of numbers in signatures and fields' '\[(u64|usize); [A-Za-z:_]+\]'
echo "7. switches"
count 'matches on a rule, a memory or a colour' 'match (rule|memory|colour|end)\b'
echo "8. proofs"
count 'answers' '^pub [a-z].* : goal' 'crates/*/proofs/*Answers.antt'
