#!/usr/bin/env bash
# What a program does with files, pipes and an output of the system, which the cases don't have:
# outside.sh PROGRAM. Each difference is told, and the status is 1 where there is one.
set -eu
program=$(realpath "$1")
cd "$(dirname "$0")/.."
name=${program##*/}
source=crates/loft_app/data/two_prints.loft
report=crates/loft_app/stdout
room=$(mktemp -d)
trap 'rm -rf "$room"' EXIT
failed=0

# Whether a command ends with this status: wants WHAT STATUS COMMAND ..
wants() {
    local what=$1 status=$2 ended=0
    shift 2
    "$@" || ended=$?
    if [ "$ended" != "$status" ]; then
        echo "$name: $what: the status is $ended, not $status"
        failed=1
    fi
}

# Whether the last answer is this text: wrote WHAT FILE
wrote() {
    if ! cmp -s "$room/answer" "$2"; then
        echo "$name: $1: the answer isn't that of ${2#"$room/"}"
        failed=1
    fi
}

# Runs the program with these words; its answer goes into the room, to an output that is full, or into a
# pipe that nobody reads (its reader is closed before the program begins).
answer() { timeout 60 "$program" "$@" > "$room/answer"; }
full() { timeout 60 "$program" "$@" > /dev/full; }
unread() {
    (
        exec 5<> "$room/pipe" 6> "$room/pipe" 5>&-
        timeout 60 "$program" "$@" >&6
    )
}

# The same with the source in a pipe, without a name and with one.
answer_of_input() { cat "$source" | answer run /dev/stdin; }
answer_of_pipe() {
    local ended=0
    timeout 60 cp "$(input_of "$1")" "$room/pipe" &
    answer "$1" "$room/pipe" || ended=$?
    wait
    return "$ended"
}

# The same of a report: the source and the report are each in a pipe.
answer_of_pipes() {
    local ended=0
    timeout 60 cp "$source" "$room/pipe" &
    timeout 60 cp "$report" "$room/other" &
    answer replay "$room/pipe" "$room/other" "$@" || ended=$?
    wait
    return "$ended"
}
answer_of_report_in_input() { cat "$report" | answer replay "$source" /dev/stdin; }

printf 'files: fault\n' > "$room/fault"
printf 'loft: usage\n' > "$room/usage"
printf 'source: too long\n' > "$room/too_long"
printf 'ok\n' > "$room/ok"
printf '#' > "$room/refused"
sed -n '/^scheduler A$/,/^state 0$/p' "$report" > "$room/block"
mkfifo "$room/pipe" "$room/other"

# The listing of the source, for `exec`.
wants "compile" 0 answer compile "$source"
mv "$room/answer" "$room/listing"
input_of() { if [ "$1" = exec ]; then echo "$room/listing"; else echo "$source"; fi; }

for command in run show check compile exec bound expand; do
    wants "$command, the output is full" 6 full "$command" "$(input_of "$command")"
    wants "$command, nobody reads the output" 6 unread "$command" "$(input_of "$command")"
    wants "$command, a missing file" 5 answer "$command" "$room/missing"
    wrote "$command, a missing file" "$room/fault"
    wants "$command, a folder" 5 answer "$command" "$room"
    wrote "$command, a folder" "$room/fault"
done
wants "a refusal, the output is full" 6 full check "$room/refused"
wants "a refusal of exec, the output is full" 6 full exec "$room/refused"
wants "a missing file, the output is full" 6 full run "$room/missing"
wants "no command, the output is full" 6 full
wants "gen, the output is full" 6 full gen 1
wants "a summary, the output is full" 6 full gen 1 --run

# A report and its source: each of the two can fail.
wants "replay" 0 answer replay "$source" "$report"
wrote "replay" "$room/ok"
wants "replay of a block" 0 answer replay "$source" "$report" --only A
wrote "replay of a block" "$room/block"
for missing in "$room/missing" "$room"; do
    wants "replay, no source: $missing" 5 answer replay "$missing" "$report"
    wrote "replay, no source: $missing" "$room/fault"
    wants "replay, no report: $missing" 5 answer replay "$source" "$missing"
    wrote "replay, no report: $missing" "$room/fault"
    wants "replay, a refused source and no report: $missing" 3 answer replay "$room/refused" "$missing"
done
wants "replay, the output is full" 6 full replay "$source" "$report"
wants "replay of a block, the output is full" 6 full replay "$source" "$report" --only A
wants "an unknown scheduler, the output is full" 6 full replay "$source" "$report" --only B
wants "a refused report, the output is full" 6 full replay "$source" "$source"
wants "a missing report, the output is full" 6 full replay "$source" "$room/missing"

# A pipe that nobody reads is an output that fails: no signal ends the program.
wants "gen, nobody reads the output" 6 unread gen 1
wants "a summary, nobody reads the output" 6 unread gen 1 --run
wants "replay, nobody reads the output" 6 unread replay "$source" "$report"
wants "replay of a block, nobody reads the output" 6 unread replay "$source" "$report" --only A
wants "a refusal, nobody reads the output" 6 unread check "$room/refused"
wants "a refused report, nobody reads the output" 6 unread replay "$source" "$source"
wants "a missing file, nobody reads the output" 6 unread run "$room/missing"
wants "no command, nobody reads the output" 6 unread

wants "a pipe as standard input" 0 answer_of_input
wrote "a pipe as standard input" "$report"
# A pipe can be read once, and so each command reads its file.
wants "a named pipe" 0 answer_of_pipe run
wrote "a named pipe" "$report"
wants "a named pipe, check" 0 answer_of_pipe check
wrote "a named pipe, check" "$room/ok"
wants "a named pipe, show" 0 answer_of_pipe show
wants "a named pipe, compile" 0 answer_of_pipe compile
wrote "a named pipe, compile" "$room/listing"
wants "a named pipe, exec" 0 answer_of_pipe exec
wrote "a named pipe, exec" "$report"
wants "a named pipe, bound" 0 answer_of_pipe bound
wants "a named pipe, expand" 0 answer_of_pipe expand
wants "named pipes, replay" 0 answer_of_pipes
wrote "named pipes, replay" "$room/ok"
wants "named pipes, replay of a block" 0 answer_of_pipes --only A
wrote "named pipes, replay of a block" "$room/block"
wants "a report as standard input" 0 answer_of_report_in_input
wrote "a report as standard input" "$room/ok"

# A source of 4 MiB, one that has a byte more, and one of as many bytes that are no tokens.
{ cat "$source"; head -c 4194305 /dev/zero | tr '\0' ' '; } > "$room/blanks"
head -c 4194304 "$room/blanks" > "$room/long"
head -c 4194305 "$room/blanks" > "$room/longer"
head -c 4194305 /dev/zero > "$room/zeros"
wants "4 MiB" 0 answer check "$room/long"
wrote "4 MiB" "$room/ok"
# 256 modules in nearly 4 MiB, each of which runs the next one; in the second source the last runs the first.
modules() {
    awk -v last="$1" 'BEGIN {
        print "scheduler A;"
        for (i = 0; i < 256; i++) {
            printf "module m%d() in A ", i
            for (j = 0; j < 2040; j++) printf "print 1;"
            print (i < 255 ? "run m" i + 1 "();" : last) " end"
        }
    }'
}
modules '' > "$room/chain"
modules 'run m0();' > "$room/circle"
for shape in chain circle; do
    wants "bound, 256 modules in a $shape" 0 answer bound "$room/$shape"
done
# A listing with a line of more than 5 MiB, a `select` of 1,500,000 events: it is read as a line, and it is the operation that is refused.
{
    printf 'loft-listing 1\nscheduler S;\nevent ev in S;\nmodule m() in S\n0 S 0 @1 select ev'
    yes ', ev' | head -1499999 | tr -d '\n'
    printf ';\n1 S 0 end\nend\n'
} > "$room/wide"
printf 'listing: operation 0 of m\n' > "$room/refused_operation"
wants "a line of 5 MiB" 3 answer exec "$room/wide"
wrote "a line of 5 MiB" "$room/refused_operation"
# A report of 1 GiB, and one that has a byte more: neither is one.
printf 'log: line 1, byte 0\n' > "$room/no_report"
printf 'log: too long\n' > "$room/long_report"
truncate -s 1073741824 "$room/gibibyte"
wants "a report of 1 GiB" 4 answer replay "$source" "$room/gibibyte"
wrote "a report of 1 GiB" "$room/no_report"
truncate -s 1073741825 "$room/gibibyte"
wants "a report of more than 1 GiB" 4 answer replay "$source" "$room/gibibyte"
wrote "a report of more than 1 GiB" "$room/long_report"
for contents in longer zeros; do
    wants "replay, more than 4 MiB: $contents" 3 answer replay "$room/$contents" "$report"
    wrote "replay, more than 4 MiB: $contents" "$room/too_long"
done
for command in run show check expand; do
    for contents in longer zeros; do
        wants "$command, more than 4 MiB: $contents" 3 answer "$command" "$room/$contents"
        wrote "$command, more than 4 MiB: $contents" "$room/too_long"
    done
done

wants "no words" 2 answer
wrote "no words" "$room/usage"
for word in a -- -a --budget=5 --instants; do
    wants "50,000 words $word" 2 answer run $(yes -- "$word" | head -50000)
    wrote "50,000 words $word" "$room/usage"
done
wants "an unknown option" 2 answer run "$source" --loud
wrote "an unknown option" "$room/usage"
wants "a file after --" 0 answer run -- "$source"
wrote "a file after --" "$report"
# A word that isn't UTF-8 is a word that no command has, wherever it stands.
bad=$(printf '\377')
wants "a command that isn't UTF-8" 2 answer "$bad"
wrote "a command that isn't UTF-8" "$room/usage"
wants "a file whose name isn't UTF-8" 2 answer run "$bad"
wrote "a file whose name isn't UTF-8" "$room/usage"
wants "an option that isn't UTF-8" 2 answer run "$source" "--$bad"
wrote "an option that isn't UTF-8" "$room/usage"
wants "a scheduler whose name isn't UTF-8" 2 answer replay "$source" "$report" --only "$bad"
wrote "a scheduler whose name isn't UTF-8" "$room/usage"
wants "a word that isn't UTF-8, the output is full" 6 full run "$bad"

[ "$failed" = 1 ] || echo "$name: files, pipes and a full output are answered as docs/COMMANDS.md says"
exit "$failed"
