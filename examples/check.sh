#!/usr/bin/env bash
# Runs each example and compares what it prints with the file .out beside it; and compares each script and report with the
# copy that the gate runs over a disk in memory, with one, seven and 65,536 bytes a call. Then it tries the tools on them, and the
# launcher's own words.
#   examples/check.sh [PROGRAM]     PROGRAM is the launcher at the top, unless another is given
set -u -o pipefail
examples=$(cd "$(dirname "$(readlink -f "${BASH_SOURCE[0]}")")" && pwd)
program=$(readlink -f "${1:-$examples/../erm}")
data="$examples/../crates/erm_examples/data"
folder=$(mktemp -d) || exit 1
trap 'rm -rf "$folder"' EXIT
passed=0
failed=0

# Counts an example, which passed where the command does.
count() {
    local name=$1
    shift
    if "$@" >"$folder/said" 2>&1; then
        passed=$((passed + 1))
    else
        failed=$((failed + 1))
        echo "$name: not as expected"
    fi
}

for script in "$examples"/*.erm; do
    name=$(basename "$script" .erm)
    mkdir "$folder/$name"
    (cd "$folder/$name" && "$program" run <"$script" >../"$name.out")
    count "$name" cmp "$folder/$name.out" "$examples/$name.out"
    count "$name, the gate's script" cmp "$script" "$data/example_$name.script"
    count "$name, the gate's report" cmp <(echo 0; cat "$examples/$name.out") "$data/example_$name.report"
done
for script in crash checkpoint stream threads audits; do
    KEPT="$folder" "$examples/$script.sh" "$program" >"$folder/$script.out"
    count "$script" cmp "$folder/$script.out" "$examples/$script.out"
done

# The tools: each log ends where its blocks end and has those that the report tells, each report is good by definition, no script has a bad line,
# and each picture is the one in docs/runs.
top="$examples/.."
says_nothing() { [[ -z $("$@") ]]; }
if command -v python3 >/dev/null; then
    for script in "$examples"/*.erm; do
        name=$(basename "$script" .erm)
        count "$name, its log's end" says_nothing "$top/tools/log_end.py" "$folder/$name/erm-data"
        count "$name, its report" "$top/tools/check_report.py" "$script" "$folder/$name.out"
        count "$name, its log" "$top/tools/check_log.py" "$script" "$folder/$name.out" "$folder/$name/erm-data"
        count "$name, no bad line" says_nothing "$top/tools/bad_line.py" "$script"
        [[ $name == empty ]] || count "$name, its picture" cmp <("$top/tools/picture" "$script" "$examples/$name.out") "$top/docs/runs/$name.svg"
    done
    count "audits, its picture" cmp <("$top/tools/picture" "$folder/turns.erm" "$folder/turns.out") "$top/docs/runs/audits.svg"
    printf 'a begin\na get 16 1\n' >"$folder/bad.erm"
    count "a bad line" grep -q "line 2.*a table is 0 to 15" <("$top/tools/bad_line.py" "$folder/bad.erm")
    count "the documents" python3 -B "$top/tools/docs.py" --check
    count "the pictures" python3 -B "$top/docs/pictures.py" --check
fi

# The launcher's words, where it is the program: a byte of the block that opens the run is changed, and it stops, until --go-on.
if [[ $program == "$(readlink -f "$top/erm")" ]]; then
    says() {
        local status=$1 text=$2
        shift 2
        "$program" "$@" </dev/null >"$folder/out" 2>&1
        [[ $? == "$status" ]] && grep -q -- "$text" "$folder/out"
    }
    cd "$folder/durable" || exit 1
    count "help" says 0 "erm run < SCRIPT" help
    count "--version" says 0 "log format 2" --version
    count "an unknown word" says 2 '"frob" is no command' frob
    count "run with a word" says 2 "the script comes on standard input" run x.erm
    count "threads with a word" says 2 "erm threads < x.erm" threads x.erm
    count "copy" says 0 "copied 1 files" copy "$folder/copied"
    count "-C" says 0 "recovered 42 run 1" -C "$folder/copied" recover
    count "explain" says 0 "18: line 14 (a put 0 10) overwrites" explain "$examples/write_skew.erm" "$examples/write_skew.out"
    count "log" says 0 "end 42 run 1" log
    count "log with keys" says 0 "object 16 value 000001f4 key 0/1" log --keys
    count "log and a word" says 2 "log takes no word" log erm-data
    count "ship" cmp <("$program" ship | wc -c) <(echo 328)
    count "follow" grep -q "pending 2" <("$program" ship | "$program" follow)
    count "ship and a word" says 2 "ship takes no word" ship erm-data
    count "a bad script" grep -q "line 2.*a table is 0 to 15" <("$program" run <"$folder/bad.erm" 2>&1)
    printf '\001' | dd of=erm-data/log0000000000000000 bs=1 seek=70 conv=notrunc status=none
    count "a changed byte" says 70 "2 blocks still read behind the log's end at 8" run
    count "log of a changed byte" says 1 "behind block 13 run 1" log
    count "--go-on" says 0 "set aside in erm-data.1" --go-on run
    count "the next run" says 0 "open 13 run 2" run
    for i in {1..20}; do printf 'a begin\na put 0 %s %0100d\na commit\nflush\n' "$i" 0; done >"$folder/long.erm"
    (ulimit -f 2 && "$program" run <"$folder/long.erm" 2>/dev/null | tail -n 1) >"$folder/limited"
    count "a limit on the size of files" test "$? $(sed 's/^[0-9]* //' "$folder/limited")" = "6 disk fault"
    count "try" says 0 "recovered" try recover
fi
echo "$passed passed, $failed failed"
((failed == 0))
