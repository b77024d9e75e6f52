#!/bin/bash
# Runs the programs of target/bin as a user does, and compares what each case writes to standard output and to standard error.
set -euo pipefail
cd "$(dirname "$0")/.."
export PATH="$PWD/target/bin:$PATH"
examples=$PWD/examples
traces=$PWD/tests/traces
folder=$(mktemp -d)
trap 'rm -rf "$folder"' EXIT
mkdir "$folder/run"
cd "$folder/run"

cases=0
# expect NAME COMMAND OUTPUT ERRORS: the command succeeds, and writes just that.
expect() {
    printf '%s' "$3" > ../output.expected
    printf '%s' "$4" > ../errors.expected
    bash -c "$2" > ../output 2> ../errors || { echo "programs: $1: exit status $?"; exit 1; }
    diff -u ../output.expected ../output || { echo "programs: $1: standard output differs"; exit 1; }
    diff -u ../errors.expected ../errors || { echo "programs: $1: standard error differs"; exit 1; }
    cases=$((cases + 1))
}

# ---- the files
cp "$examples/course.sheet" sheet
cp "$examples/course.memheft" paper
timetable=$(cat paper)$'\n'
mkdir folder
sed 's/(task 2 3 5)/(task 2 1000000001 5)/' sheet > bad.sheet
sed 's/6)/4)/g' sheet > tight.sheet
sed '1s/6)/4)/g' sheet > limits.sheet
head -n 1 sheet > board.sheet
for n in 32768 32769 40000 65536 100000; do
    { cat sheet; yes '(file 1 2 2 1)'; } 2> /dev/null | head -c "$n" > "$n.sheet" || true
    { cat paper; yes '(claim 8 5 5)'; } 2> /dev/null | head -c "$n" > "$n.paper" || true
done
sed 's/(run 3 1 6)/(run 3 1 5)/' paper > early.paper
sed 's/(run 2 1 3)/(run 2 01 3)/' paper > zero.paper
head -n 5 paper > short.paper
printf '(%s)\n' 'board (blue 1 6) (red 1 6)' 'task 1 4 2' 'task 2 0 0' 'task 3 3 5' 'task 4 2 6' \
    'file 1 2 1 1' 'file 2 3 2 1' 'file 2 4 3 2' > relay.sheet
relayed=$(printf '(%s)\n' 'run 1 2 0' 'run 2 2 2' 'run 3 1 3' 'run 4 1 6' 'move 2 3 2' 'move 2 4 4' 'claim 8 5 6')$'\n'
printf '%s' "$relayed" > relay.paper
sed 's/(run 2 2 2)/(run 2 2 1)/' relay.paper > inside.paper
sed 's/(run 4 1 6)/(run 4 2 2)/; /(move 2 4 4)/d; s/(claim 8 5 6)/(claim 8 2 6)/' relay.paper > at_start.paper
sed 's/6)/5)/2' relay.sheet > relay_tight.sheet
printf '(%s)\n' 'board (blue 1 1) (red 1 1)' 'task 1 1 1' 'task 2 1 1' 'task 3 2 1' 'file 2 3 1 1' > apart.sheet
apart=$(printf '(%s)\n' 'run 1 2 0' 'run 2 1 0' 'run 3 1 1' 'claim 3 1 0' 'run 1 1 0' 'run 2 2 0' 'run 3 2 1' 'claim 2 0 1')$'\n'
printf '(%s)\n' 'board (blue 1 1) (red 1 0)' 'task 1 2 1' 'task 2 1 2' 'task 3 1 1' 'file 1 2 1 1' > four.sheet
four=$(printf '(%s)\n' 'run 1 2 0' 'run 2 1 2' 'run 3 2 1' 'move 1 2 1' 'claim 3 1 1' \
    'run 1 1 0' 'run 2 1 2' 'run 3 2 0' 'claim 3 1 0' \
    'run 1 2 0' 'run 2 1 2' 'run 3 1 0' 'move 1 2 1' 'claim 3 1 1' \
    'run 1 1 1' 'run 2 1 3' 'run 3 1 0' 'claim 4 1 0')$'\n'
printf '(%s)\n' 'board (blue 1 0) (red 1 0)' 'task 1 1 0' > tick.sheet
printf '(%s)\n' 'run 1 2 999999999999' 'claim 999999999999 0 0' > last_tick.paper
sed 's/(run 1 2 /(run 1 1 /' last_tick.paper > over.paper
sed 's/(run 1 2 .*/(run 1 2 1000000000000)/' last_tick.paper > thirteen.paper
sed '1s/ 0)/ 1000000000)/' tick.sheet > limit.sheet
printf '(%s)\n' 'board (blue 1 9) (red 1 9)' 'task 1 1000000000 1000000000' 'task 2 1000000000 1000000000' 'file 1 2 9 1000000000' > seconds.sheet
seconds=$(printf '(%s)\n' 'run 1 1 0' 'run 2 1 1000000000' 'claim 2000000000 9 0')$'\n'
printf '(%s)\n' 'board (blue 2 5) (red 1 0)' 'task 1 4 9 3' 'task 2 4 9 3' > work.sheet
waits=$(printf '(%s)\n' 'run 1 1 0' 'run 2 1 4' 'claim 8 3 0')$'\n'
together=$(printf '(%s)\n' 'run 1 1 0' 'run 2 2 0' 'claim 4 6 0')$'\n'
printf '%s' "$together" > together.paper
sed 's/ 3)/ 0)/' work.sheet > zero_work.sheet
sed 's/ 3)/ 6)/' work.sheet > much_work.sheet
# the course example with W for its first and its last task, its converted sheet, a timetable of that, and what is left of it
sed 's/(task 1 4 2)/(task 1 4 2 1)/; s/(task 3 2 6)/(task 3 2 6 1)/' sheet > course.w
wide=$(printf '(%s)\n' 'board (blue 1 6) (red 1 6)' 'task 1 0 0' 'task 2 0 0' 'task 3 4 2' 'task 4 3 5' 'task 5 2 6' \
    'file 1 3 1 1' 'file 2 5 1 1' 'file 3 4 2 1' 'file 3 5 3 2')$'\n'
printf '(%s)\n' 'run 1 2 0' 'run 2 2 2' 'run 3 2 0' 'run 4 1 3' 'run 5 1 6' 'move 2 5 5' 'move 3 4 2' 'move 3 5 4' 'claim 8 6 6' > wide.paper
left=$(printf '(%s)\n' 'run 1 2 0' 'run 2 1 3' 'run 3 1 6' 'move 1 2 2' 'move 1 3 4' 'claim 8 5 6')$'\n'
# large TASKS WORKS FILES: a board sheet of so many tasks, so many of them with W, and so many files
large() {
    awk -v tasks="$1" -v works="$2" -v files="$3" 'BEGIN {
        print "(board (blue 1 9) (red 1 9))"
        for (i = 1; i <= tasks; i++) print "(task " i " 1 1" (i <= works ? " 1)" : ")")
        for (i = 1; i < tasks; i++)
            for (j = i + 1; j <= tasks; j++)
                if (made++ < files) print "(file " i " " j " 1 1)"
    }'
}
large 32 32 0 > 64_tasks.sheet
large 33 33 0 > 66_tasks.sheet
large 24 1 255 > 256_files.sheet
large 24 1 256 > 257_files.sheet
large 64 1 256 > both.sheet
sed '2s/.*//' paper > empty_line.paper
{ head -n 1 paper; printf '(run\t2 1\\ 3)\033[31m\377\n'; tail -n +3 paper; } > control.paper
escaped='(run\x092 1\\ 3)\x1b[31m\xff'
head -c 2500 /dev/zero > zeros.paper
zeros=$(for i in {1..2500}; do printf '%s' '\x00'; done)
every='' every_escaped=''
for i in {0..255}; do
    hex=$(printf '%02x' "$i")
    case $hex in
        0a) continue ;;
        5c) shown='\\' ;;
        [2-6]? | 7[0-9a-e]) shown=$(printf "\\x$hex.") shown=${shown%.} ;;
        *) shown="\\x$hex" ;;
    esac
    every+="\\x$hex" every_escaped+=$shown
done
printf "$every\n" > every.paper
name=$'a\033[31m b\\'
cp paper "$name"
long=$(head -c 5000 /dev/zero | tr '\0' a)
path_max=${long:0:4096}

# ---- frameplan
usage='usage: frameplan [memheft|memminmin|heft|minmin] < SHEET'$'\n'
expect 'a good sheet' 'frameplan < sheet' "$timetable" ''
expect 'MemHEFT by name' 'frameplan memheft < sheet' "$timetable" ''
expect 'MemMinMin by name' 'frameplan memminmin < sheet' "$timetable" ''
expect 'a sheet that comes in pieces' '{ head -c 50 sheet; sleep 0.2; tail -c +51 sheet; } | frameplan' "$timetable" ''
expect 'a refused sheet' 'frameplan < bad.sheet' $'(refused 3 3)\n' ''
expect 'a planner that is stuck' 'frameplan < tight.sheet' $'(refused 21 0)\n' ''
expect 'a sheet with a relay' 'frameplan < relay.sheet' "$relayed" ''
expect 'a sheet with a relay, MemMinMin' 'frameplan memminmin < relay.sheet' "$relayed" ''
expect 'empty input' 'frameplan < /dev/null' $'(refused 2 1)\n' ''
expect 'the longest sheet that is read' 'frameplan < 32768.sheet' $'(refused 4 7)\n' ''
expect 'a sheet of 32769 bytes' 'frameplan < 32769.sheet' $'(refused 1 0)\n' ''
expect 'a sheet of 40000 bytes' 'frameplan < 40000.sheet' $'(refused 1 0)\n' ''
expect 'a sheet that fills the buffer' 'frameplan < 65536.sheet' $'(refused 1 0)\n' ''
expect 'a sheet of 100000 bytes' 'frameplan < 100000.sheet' $'(refused 1 0)\n' ''
expect 'a sheet of 40000 bytes in pieces' '{ head -c 20000 40000.sheet; sleep 0.2; tail -c +20001 40000.sheet; } | frameplan' $'(refused 1 0)\n' ''
expect 'input without end' 'frameplan < /dev/zero' $'(refused 1 0)\n' ''
expect 'a directory as input' 'frameplan < .' '' $'frameplan: standard input: Is a directory\n'
expect 'closed standard input' 'frameplan <&-' '' $'frameplan: standard input: Bad file descriptor\n'
expect 'no room for the timetable' 'frameplan < sheet > /dev/full' '' $'frameplan: standard output: No space left on device\n'
expect 'no room for a refusal' 'frameplan < /dev/null > /dev/full' '' $'frameplan: standard output: No space left on device\n'
expect 'closed standard output' 'frameplan < sheet >&-' '' $'frameplan: standard output: Bad file descriptor\n'
expect 'HEFT by name' 'frameplan heft < sheet' "$timetable" ''
expect 'MINMIN by name' 'frameplan minmin < sheet' "$timetable" ''
expect 'HEFT where MemHEFT is stuck' 'frameplan memheft < limits.sheet; frameplan heft < limits.sheet' $'(refused 21 0)\n'"$timetable" ''
expect 'MINMIN where MemMinMin is stuck' 'frameplan memminmin < limits.sheet; frameplan minmin < limits.sheet' $'(refused 21 0)\n'"$timetable" ''
expect 'HEFT, a refused sheet' 'frameplan heft < bad.sheet' $'(refused 3 3)\n' ''
expect 'MINMIN, a sheet of 32769 bytes' 'frameplan minmin < 32769.sheet' $'(refused 1 0)\n' ''
expect 'HEFT and MINMIN apart' 'frameplan heft < apart.sheet; frameplan minmin < apart.sheet' "$apart" ''
expect 'all four apart' 'for p in heft memheft minmin memminmin; do frameplan $p < four.sheet; done' "$four" ''
expect 'times of ten digits' 'for p in heft memheft minmin memminmin; do frameplan $p < seconds.sheet; done' "$seconds$seconds$seconds$seconds" ''
expect 'a limit of ten digits' 'frameplan < limit.sheet' $'(refused 3 1)\n' ''
expect 'a task that waits for working memory' 'frameplan < work.sheet; frameplan memminmin < work.sheet' "$waits$waits" ''
expect 'working memory, the plain planners' 'frameplan heft < work.sheet; frameplan minmin < work.sheet' "$together$together" ''
expect 'working memory over both limits' 'frameplan < much_work.sheet' $'(refused 21 0)\n' ''
expect 'working memory written as 0' 'frameplan < zero_work.sheet' $'(refused 3 2)\n' ''
expect 'an unknown planner' 'frameplan memhef < sheet' '' "$usage"
expect 'a planner in capitals' 'frameplan HEFT < sheet' '' "$usage"
expect 'an empty argument' 'frameplan "" < sheet' '' "$usage"
expect 'an argument longer than a planner name' "frameplan $long < sheet" '' "$usage"
expect 'two arguments' 'frameplan memheft sheet' '' "$usage"

# ---- framemark, one paper
usage='usage: framemark SHEET PAPER ..'$'\n'
accepted=$'(accepted 8 5 5)\n'
expect 'an accepted paper' 'framemark sheet paper' "$accepted" ''
expect 'a paper that comes in pieces' 'framemark sheet <(head -c 30 paper; sleep 0.2; tail -c +31 paper)' "$accepted" ''
expect 'closed standard input, which is not read' 'framemark sheet paper <&-' "$accepted" ''
expect 'a line at fault' 'framemark sheet zero.paper' $'(refused 12 2)\n(run 2 01 3)\n' ''
expect 'a line at fault of the sheet' 'framemark bad.sheet paper' $'(refused 3 3)\n(task 2 1000000001 5)\n' ''
expect 'a fault of no line' 'framemark sheet early.paper' $'(refused 15 2)\n' ''
expect 'a paper with a relay' 'framemark relay.sheet relay.paper' $'(accepted 8 5 6)\n' ''
expect 'a relay inside a run' 'framemark relay.sheet inside.paper' $'(refused 15 1)\n' ''
expect 'a relay at the start of a run' 'framemark relay.sheet at_start.paper' $'(accepted 8 2 6)\n' ''
expect 'a start of twelve digits' 'framemark tick.sheet last_tick.paper' $'(accepted 999999999999 0 0)\n' ''
expect 'a start of thirteen digits' 'framemark tick.sheet thirteen.paper' $'(refused 12 1)\n(run 1 2 1000000000000)\n' ''
expect 'a span over the range' 'framemark tick.sheet over.paper' $'(refused 18 0)\n' ''
expect 'a plain plan over a limit' 'framemark limits.sheet <(frameplan heft < limits.sheet)' $'(refused 17 0)\n' ''
expect 'a relay whose files together are over a limit' 'framemark relay_tight.sheet relay.paper' $'(refused 17 2)\n' ''
expect 'working memory over a limit' 'framemark work.sheet together.paper' $'(refused 17 0)\n' ''
expect 'working memory written as 0, the line' 'framemark zero_work.sheet together.paper' $'(refused 3 2)\n(task 1 4 9 0)\n' ''
expect 'an absent line' 'framemark sheet short.paper' $'(refused 12 6)\n' ''
expect 'an absent line of the sheet' 'framemark board.sheet paper' $'(refused 2 2)\n' ''
expect 'an empty line' 'framemark sheet empty_line.paper' $'(refused 12 2)\n' ''
expect 'an empty paper' 'framemark sheet /dev/null' $'(refused 12 1)\n' ''
expect 'control bytes in the line at fault' 'framemark sheet control.paper' $'(refused 12 2)\n'"$escaped"$'\n' ''
expect 'every byte in the line at fault' 'framemark sheet every.paper' $'(refused 12 1)\n'"$every_escaped"$'\n' ''
expect 'a long line at fault' 'framemark sheet zeros.paper' $'(refused 12 1)\n'"$zeros"$'\n' ''
expect 'the longest paper that is read' 'framemark sheet 32768.paper' $'(refused 14 7)\n(claim 8 5 5)\n' ''
expect 'a paper of 32769 bytes' 'framemark sheet 32769.paper' $'(refused 11 0)\n' ''
expect 'a paper of 40000 bytes' 'framemark sheet 40000.paper' $'(refused 11 0)\n' ''
expect 'a paper of 100000 bytes' 'framemark sheet 100000.paper' $'(refused 11 0)\n' ''
expect 'a sheet of 40000 bytes to mark on' 'framemark 40000.sheet paper' $'(refused 1 0)\n' ''
expect 'a sheet of 100000 bytes to mark on' 'framemark 100000.sheet paper' $'(refused 1 0)\n' ''
expect 'a missing sheet' 'framemark missing paper' '' $'framemark: missing: No such file or directory\n'
expect 'a missing paper' 'framemark sheet missing' '' $'framemark: missing: No such file or directory\n'
expect 'a directory as sheet' 'framemark . paper' '' $'framemark: .: Is a directory\n'
expect 'a directory as paper' 'framemark sheet folder' '' $'framemark: folder: Is a directory\n'
expect 'a name below a file' 'framemark sheet paper/x' '' $'framemark: paper/x: Not a directory\n'
expect 'an empty name' 'framemark sheet ""' '' $'framemark: : No such file or directory\n'
expect 'a missing name with control bytes' "framemark sheet \$'x\\033[2J'" '' $'framemark: x\\x1b[2J: No such file or directory\n'
expect 'a name as long as the buffer' "framemark sheet $path_max" '' "framemark: $path_max: File name too long"$'\n'
expect 'a name longer than the buffer' "framemark sheet $long" '' $'framemark: argument 2: File name too long\n'
expect 'a sheet name longer than the buffer' "framemark $long paper" '' $'framemark: argument 1: File name too long\n'
expect 'no room for the verdict' 'framemark sheet paper > /dev/full' '' $'framemark: standard output: No space left on device\n'
expect 'no room for the line at fault' 'framemark sheet zero.paper > /dev/full' '' $'framemark: standard output: No space left on device\n'
expect 'closed standard output for a verdict' 'framemark sheet paper >&-' '' $'framemark: standard output: Bad file descriptor\n'
expect 'no argument' 'framemark' '' "$usage"
expect 'one argument' 'framemark sheet' '' "$usage"

# ---- framemark, several papers
expect 'several papers' 'framemark sheet paper zero.paper early.paper' \
    $'paper (accepted 8 5 5)\nzero.paper (refused 12 2)\nearly.paper (refused 15 2)\n' ''
expect 'several papers, one missing, one a directory' 'framemark sheet paper missing folder zero.paper' \
    $'paper (accepted 8 5 5)\nzero.paper (refused 12 2)\n' \
    $'framemark: missing: No such file or directory\nframemark: folder: Is a directory\n'
expect 'several papers, one with a name longer than the buffer' "framemark sheet $long paper" \
    $'paper (accepted 8 5 5)\n' $'framemark: argument 2: File name too long\n'
expect 'several papers on a refused sheet' 'framemark bad.sheet paper zero.paper' $'paper (refused 3 3)\nzero.paper (refused 3 3)\n' ''
expect 'several papers, no sheet' 'framemark missing paper zero.paper' '' $'framemark: missing: No such file or directory\n'
expect 'a name with control bytes' "framemark sheet paper \$'a\\033[31m b\\\\'" \
    $'paper (accepted 8 5 5)\na\\x1b[31m b\\\\ (accepted 8 5 5)\n' ''
expect 'several papers, no room for the verdicts' 'framemark sheet paper zero.paper > /dev/full' '' \
    $'framemark: standard output: No space left on device\n'
expect 'several papers, closed standard output' 'framemark sheet paper zero.paper >&-' '' \
    $'framemark: standard output: Bad file descriptor\n'

# ---- framewatch: the traces of tests/traces, each with the numbers of its file .args if it has one
for sheet in "$traces"/*.sheet; do
    name=${sheet%.sheet}
    numbers=$(cat "$name.args" 2> /dev/null || true)
    expect "the trace $(basename "$name")" "framewatch '$name.sheet' '$name.paper' $numbers" "$(cat "$name.trace")"$'\n' ''
done
usage='usage: framewatch SHEET PAPER [STEPS [MADE]]'$'\n'
trace=$(cat "$traces/course.trace")$'\n'
heading=$(head -n 1 "$traces/course.trace")$'\n\n'
ended=$'ended: the span is 8\n'
no_number=$': not a decimal number from 0 to 18446744073709551615\n'
expect 'a trace' 'framewatch sheet paper' "$trace" ''
expect 'as many steps as there are' 'framewatch sheet paper 6' "$trace" ''
expect 'more steps than there are' 'framewatch sheet paper 18446744073709551615 0' "$trace" ''
expect 'no step' 'framewatch sheet paper 0' "$heading"$'steps made: 0; more are left\n' ''
expect 'no step after five' 'framewatch sheet paper 0 5' "$heading"$'steps made: 5; more are left\n' ''
expect 'no step after the last' 'framewatch sheet paper 0 6' "$heading$ended" ''
expect 'steps after the last' 'framewatch sheet paper 2 6' "$heading$ended" ''
expect 'more steps made than there are' 'framewatch sheet paper 18446744073709551615 18446744073709551615' "$heading$ended" ''
expect 'numbers with zeros before them' 'framewatch sheet paper 00 006' "$heading$ended" ''
expect 'a trace with a refused paper' 'framewatch sheet zero.paper' $'(refused 12 2)\n(run 2 01 3)\n' ''
expect 'a trace with a refused sheet' 'framewatch bad.sheet paper 0 3' $'(refused 3 3)\n(task 2 1000000001 5)\n' ''
expect 'a trace past the range of a claim' 'framewatch tick.sheet over.paper | tail -n 1' $'ended: the span is 1000000000000\n' ''
expect 'a trace with an absent line' 'framewatch sheet short.paper' $'(refused 12 6)\n' ''
expect 'a trace with control bytes' 'framewatch sheet control.paper' $'(refused 12 2)\n'"$escaped"$'\n' ''
expect 'a trace with a paper of 100000 bytes' 'framewatch sheet 100000.paper' $'(refused 11 0)\n' ''
expect 'a trace with a sheet of 40000 bytes' 'framewatch 40000.sheet paper' $'(refused 1 0)\n' ''
expect 'a trace with a missing sheet' 'framewatch missing paper' '' $'framewatch: missing: No such file or directory\n'
expect 'a trace with a missing paper' 'framewatch sheet missing 3' '' $'framewatch: missing: No such file or directory\n'
expect 'a trace with a directory as paper' 'framewatch sheet folder' '' $'framewatch: folder: Is a directory\n'
expect 'a trace with a name longer than the buffer' "framewatch sheet $long" '' $'framewatch: argument 2: File name too long\n'
expect 'STEPS that is no number' 'framewatch sheet paper x' '' "framewatch: STEPS$no_number"
expect 'STEPS that is empty' 'framewatch sheet paper ""' '' "framewatch: STEPS$no_number"
expect 'STEPS with a sign' 'framewatch sheet paper +1' '' "framewatch: STEPS$no_number"
expect 'STEPS with a space' 'framewatch sheet paper "1 "' '' "framewatch: STEPS$no_number"
expect 'STEPS of 2 to the 64' 'framewatch sheet paper 18446744073709551616' '' "framewatch: STEPS$no_number"
expect 'STEPS of 21 digits' 'framewatch sheet paper 184467440737095516150' '' "framewatch: STEPS$no_number"
expect 'STEPS longer than the buffer' "framewatch sheet paper $long" '' "framewatch: STEPS$no_number"
expect 'MADE that is no number' 'framewatch sheet paper 1 -1' '' "framewatch: MADE$no_number"
expect 'STEPS and MADE that are no numbers, no sheet' 'framewatch missing paper a b' '' "framewatch: STEPS$no_number"
expect 'no room for a trace' 'framewatch sheet paper > /dev/full' '' $'framewatch: standard output: No space left on device\n'
expect 'no room for the refusal of a trace' 'framewatch sheet zero.paper > /dev/full' '' $'framewatch: standard output: No space left on device\n'
expect 'closed standard output for a trace' 'framewatch sheet paper >&-' '' $'framewatch: standard output: Bad file descriptor\n'
expect 'a trace, no argument' 'framewatch' '' "$usage"
expect 'a trace, one argument' 'framewatch sheet' '' "$usage"
expect 'a trace, five arguments' 'framewatch sheet paper 1 2 3' '' "$usage"

# ---- frameconvert
usage='usage: frameconvert < SHEET'$'\n'
expect 'a converted sheet' 'frameconvert < course.w' "$wide" ''
expect 'a converted sheet that comes in pieces' '{ head -c 50 course.w; sleep 0.2; tail -c +51 course.w; } | frameconvert' "$wide" ''
expect 'a converted sheet, converted' 'frameconvert < course.w | frameconvert' "$wide" ''
expect 'a sheet without W, byte for byte' 'frameconvert < sheet | cmp - sheet' '' ''
expect 'another, with a relay' 'frameconvert < relay.sheet | cmp - relay.sheet' '' ''
expect 'a refused sheet, converted' 'frameconvert < bad.sheet' $'(refused 3 3)\n' ''
expect 'working memory written as 0, converted' 'frameconvert < zero_work.sheet' $'(refused 3 2)\n' ''
expect '66 tasks would result' 'frameconvert < 66_tasks.sheet' $'(refused 41 0)\n' ''
expect '64 tasks result' 'frameconvert < 64_tasks.sheet | grep -c "^(task "' $'64\n' ''
expect '257 files would result' 'frameconvert < 257_files.sheet' $'(refused 42 0)\n' ''
expect '256 files result' 'frameconvert < 256_files.sheet | grep -c "^(file "' $'256\n' ''
expect '65 tasks and 257 files would result' 'frameconvert < both.sheet' $'(refused 41 0)\n' ''
expect 'empty input to convert' 'frameconvert < /dev/null' $'(refused 2 1)\n' ''
expect 'the longest sheet that is read, to convert' 'frameconvert < 32768.sheet' $'(refused 4 7)\n' ''
expect 'a sheet of 32769 bytes to convert' 'frameconvert < 32769.sheet' $'(refused 1 0)\n' ''
expect 'a sheet of 100000 bytes to convert' 'frameconvert < 100000.sheet' $'(refused 1 0)\n' ''
expect 'a sheet of 40000 bytes in pieces to convert' \
    '{ head -c 20000 40000.sheet; sleep 0.2; tail -c +20001 40000.sheet; } | frameconvert' $'(refused 1 0)\n' ''
expect 'input without end to convert' 'frameconvert < /dev/zero' $'(refused 1 0)\n' ''
expect 'a directory to convert' 'frameconvert < .' '' $'frameconvert: standard input: Is a directory\n'
expect 'closed standard input to convert' 'frameconvert <&-' '' $'frameconvert: standard input: Bad file descriptor\n'
expect 'no room for the converted sheet' 'frameconvert < course.w > /dev/full' '' $'frameconvert: standard output: No space left on device\n'
expect 'no room for the refusal to convert' 'frameconvert < /dev/null > /dev/full' '' $'frameconvert: standard output: No space left on device\n'
expect 'closed standard output for a converted sheet' 'frameconvert < course.w >&-' '' $'frameconvert: standard output: Bad file descriptor\n'
expect 'converting, an argument' 'frameconvert course.w < course.w' '' "$usage"
expect 'converting, an empty argument' 'frameconvert "" < course.w' '' "$usage"

# ---- framestrip: each refusal of a timetable by a change of wide.paper
usage='usage: framestrip SHEET PAPER'$'\n'
# changed SED: what framestrip makes of wide.paper, changed so
changed() { printf "framestrip course.w <(sed '%s' wide.paper)" "$1"; }
expect 'a stripped timetable' 'framestrip course.w wide.paper' "$left" ''
expect 'a stripped timetable is accepted' 'framemark course.w <(framestrip course.w wide.paper)' $'(accepted 8 5 6)\n' ''
expect 'converted, planned and stripped' 'framestrip work.sheet <(frameconvert < work.sheet | frameplan)' "$waits" ''
expect 'a timetable of a sheet without W' 'framestrip sheet paper | cmp - paper' '' ''
expect 'a timetable that comes in pieces' 'framestrip course.w <(head -c 30 wide.paper; sleep 0.2; tail -c +31 wide.paper)' "$left" ''
expect 'closed standard input, which framestrip does not read' 'framestrip course.w wide.paper <&-' "$left" ''
expect 'a sheet of 40000 bytes to strip for' 'framestrip 40000.sheet wide.paper' $'(refused 1 0)\n' ''
expect 'an empty sheet to strip for' 'framestrip /dev/null wide.paper' $'(refused 2 1)\n' ''
expect 'a refused sheet to strip for' 'framestrip bad.sheet wide.paper' $'(refused 3 3)\n' ''
expect 'a line out of order to strip for' 'framestrip 32768.sheet wide.paper' $'(refused 4 7)\n' ''
expect '41 before the timetable is read' 'framestrip 66_tasks.sheet 100000.paper' $'(refused 41 0)\n' ''
expect '42 before the timetable is read' 'framestrip 257_files.sheet 100000.paper' $'(refused 42 0)\n' ''
expect '41 before 42' 'framestrip both.sheet wide.paper' $'(refused 41 0)\n' ''
expect 'a timetable of 32769 bytes to strip' 'framestrip course.w 32769.paper' $'(refused 11 0)\n' ''
expect 'a timetable of 100000 bytes to strip' 'framestrip course.w 100000.paper' $'(refused 11 0)\n' ''
expect 'an empty timetable to strip' 'framestrip course.w /dev/null' $'(refused 12 1)\n' ''
expect 'a leading zero' "$(changed 's/(run 2 2/(run 2 02/')" $'(refused 12 2)\n' ''
expect 'a processor out of range' "$(changed 's/(run 2 2/(run 2 3/')" $'(refused 13 2)\n' ''
expect 'a timetable of the original' 'framestrip course.w paper' $'(refused 14 4)\n' ''
expect 'the move of an added file left out' "$(changed '/(move 2 5/d')" $'(refused 14 6)\n' ''
expect 'an added task inside a run' "$(changed 's/(run 2 2 2/(run 2 2 1/')" $'(refused 15 2)\n' ''
expect 'an added file too late' "$(changed 's/(move 2 5 5/(move 2 5 6/')" $'(refused 16 5)\n' ''
expect 'an added file over the limit' "$(changed 's/(run 2 2 2/(run 2 2 0/')" $'(refused 17 0)\n' ''
expect 'the claim of what is left' "$(changed 's/(claim 8 6/(claim 8 5/')" $'(refused 18 0)\n' ''
expect 'a missing sheet to strip for' 'framestrip missing wide.paper' '' $'framestrip: missing: No such file or directory\n'
expect 'a missing timetable to strip' 'framestrip course.w missing' '' $'framestrip: missing: No such file or directory\n'
expect 'a directory as sheet to strip for' 'framestrip . wide.paper' '' $'framestrip: .: Is a directory\n'
expect 'a directory as timetable to strip' 'framestrip course.w folder' '' $'framestrip: folder: Is a directory\n'
expect 'stripping, a name longer than the buffer' "framestrip course.w $long" '' $'framestrip: argument 2: File name too long\n'
expect 'no room for a stripped timetable' 'framestrip course.w wide.paper > /dev/full' '' $'framestrip: standard output: No space left on device\n'
expect 'no room for the refusal to strip' 'framestrip course.w paper > /dev/full' '' $'framestrip: standard output: No space left on device\n'
expect 'closed standard output for a stripped timetable' 'framestrip course.w wide.paper >&-' '' $'framestrip: standard output: Bad file descriptor\n'
expect 'stripping, no argument' 'framestrip' '' "$usage"
expect 'stripping, one argument' 'framestrip course.w' '' "$usage"
expect 'stripping, three arguments' 'framestrip course.w wide.paper wide.paper' '' "$usage"

echo "programs: $cases cases as expected"
