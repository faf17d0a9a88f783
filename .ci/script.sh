#!/usr/bin/env bash
# Whether ./loft hands on what it is given, to the proved program and to a quick build: script.sh PROGRAM.
# The quick build is played by an `rt` that runs the same program, in a checkout that has none.
# Each difference is told, and the status is 1 if there is one.
set -eu
program=$(realpath "$1")
cd "$(dirname "$0")/.."
room=$(mktemp -d)
trap 'rm -rf "$room"' EXIT
failed=0

# A checkout with a proved program, and one without, which finds the `rt` of this check.
for it in proved quick; do
    mkdir -p "$room/$it/crates/loft_app/out" "$room/$it/crates/loft_app/data"
    cp loft "$room/$it"
    cp crates/loft_app/data/two_prints.loft "$room/$it/crates/loft_app/data"
done
ln -s "$program" "$room/proved/crates/loft_app/out/loft_app"
mkdir "$room/bin"
printf '#!/usr/bin/env bash\n[ "$1 $2" = "try --" ] || exit 99\nexec "%s" "${@:3}"\n' "$program" > "$room/bin/rt"
chmod +x "$room/bin/rt"
printf 'loft: this is the proved program\n' > "$room/proved/says"
printf 'loft: this is a quick build without proof; .ci/run proves the program\n' > "$room/quick/says"

# Files with names that options and their values have.
source=$PWD/examples/traffic_light.loft
mkdir "$room/files"
cp "$source" "$room/files/-a"
cp "$source" "$room/files/5"
cp "$source" "$room/files/--instants"
cp "$source" "$room/files/--only"
cp "$source.stdout" "$room/files/Road"

# Runs both scripts in a folder: same WHAT STATUS REPORT FOLDER WORD ..
same() {
    local what=$1 status=$2 wanted=$3 folder=$4 kind ended
    shift 4
    for kind in proved quick; do
        ended=0
        (cd "$folder" && PATH=$room/bin:$PATH timeout 60 "$room/$kind/loft" "$@") \
            > "$room/answer" 2> "$room/says" < "$source" || ended=$?
        if [ "$ended" != "$status" ]; then
            echo "loft, $kind: $what: the status is $ended, not $status"
            failed=1
        fi
        if ! cmp -s "$room/answer" "$wanted"; then
            echo "loft, $kind: $what: the answer is another one"
            failed=1
        fi
        if ! cmp -s "$room/says" "$room/$kind/says"; then
            echo "loft, $kind: $what: standard error doesn't say which program it is"
            failed=1
        fi
    done
}

report=$source.stdout
printf 'loft: usage\n' > "$room/usage"
printf 'files: fault\n' > "$room/fault"
"$program" run "$source" --instants 5 > "$room/five"
printf 'ok\n' > "$room/ok"
sed -n '/^scheduler Road$/,/^left /p' "$report" | sed '$d' > "$room/block"

same "an example" 0 "$report" . run examples/traffic_light.loft
same "an example, from its folder" 0 "$report" examples run traffic_light.loft
same "an absolute name" 0 "$report" / run "$source"
same "standard input as the file" 0 "$report" / run /dev/stdin
same "an option before the file" 0 "$room/five" examples run --instants 5 traffic_light.loft
same "an option after the file" 0 "$room/five" examples run traffic_light.loft --instants=5
same "a file with the name of a number" 0 "$room/five" "$room/files" run 5 --instants 5
same "a file with a dash after --" 0 "$report" "$room/files" run -- -a
same "a file with an option's name after --" 0 "$report" "$room/files" run -- --instants
same "a report" 0 "$room/ok" examples replay traffic_light.loft traffic_light.loft.stdout
same "a report and its source by absolute names" 0 "$room/ok" / replay "$source" "$report"
same "a block, a scheduler's name before the files" 0 "$room/block" examples replay --only Road traffic_light.loft traffic_light.loft.stdout
same "a block, a scheduler's name after the files" 0 "$room/block" examples replay traffic_light.loft traffic_light.loft.stdout --only=Road
same "a block, a file with the scheduler's name" 0 "$room/block" "$room/files" replay 5 Road --only Road
same "a report after --, of a source with an option's name" 0 "$room/ok" "$room/files" replay -- --only Road
same "a missing report" 5 "$room/fault" examples replay traffic_light.loft missing.report
same "a missing file" 5 "$room/fault" examples run missing.loft
same "a file of the program's folder" 5 "$room/fault" / run data/two_prints.loft
same "an unknown option" 2 "$room/usage" examples run traffic_light.loft --loud
same "no words" 2 "$room/usage" .
same "an empty word" 2 "$room/usage" . run ""
same "a dash" 2 "$room/usage" . run -
same "two files after --" 2 "$room/usage" examples run -- traffic_light.loft --instants

[ "$failed" = 1 ] || echo "loft: the script hands on words, files, standard input and statuses"
exit "$failed"
