# The program's call: signals are handed on, and a sentence follows where it helps. A part of ../../erm.

# Starts the program. Where this call is killed, the program is.
start() {
    trap - INT QUIT TERM HUP
    exec setpriv --pdeathsig KILL "$program" "$@"
}

# A number of bytes for people.
in_mebibytes() {
    awk -v n="$1" 'BEGIN { printf n < 1073741824 ? "%.1f MiB" : "%.2f GiB", n / (n < 1073741824 ? 1048576 : 1073741824) }'
}

# Shows on a terminal how a run goes on, until its process ends: after two seconds, and then each second in one line, or each
# ten seconds where the report comes to a terminal too.
show_run() {
    local began=$SECONDS pages bytes
    trap - INT TERM HUP
    sleep 2
    while read -r _ pages _ 2>/dev/null <"/proc/$1/statm"; do
        bytes=$(du -sb erm-data 2>/dev/null | cut -f 1)
        printf '\r\033[Kerm: running, %s seconds, memory %s, erm-data %s' \
            $((SECONDS - began)) "$(in_mebibytes $((pages * 4096)))" "$(in_mebibytes "${bytes:-0}")" >&2
        [[ -t 1 ]] && echo >&2 && sleep 9
        sleep 1
    done
}

# Whether the words ask for a command that reads a script.
reads_script() {
    [[ ${1-} == run || ${1-} == threads ]]
}

# Says why the script was refused, line and word by name.
explain_line() {
    find_python && "$python" -I -S "$top/tools/bad_line.py" "$@" 2>/dev/null | while read -r line; do say "$line"; done
}

# Says what may have made the disk fail.
explain_disk() {
    if [[ -e erm-data && ! -d erm-data ]]; then
        say "erm-data is no folder"
    elif [[ -d erm-data && ! (-r erm-data && -w erm-data && -x erm-data) ]]; then
        say "the folder erm-data can't be read or written to"
    elif [[ ! -e erm-data && ! -w . ]]; then
        say "the folder erm-data can't be made in $PWD"
    elif [[ -d erm-data ]] && command -v flock >/dev/null && ! flock -n erm-data true; then
        say "another erm has the folder erm-data"
    elif [[ $(df --output=avail -k . 2>/dev/null | tail -n 1) -lt 64 ]] 2>/dev/null; then
        say "the disk is full"
    else
        say "the system refused a call on a file in erm-data; erm recover tells what is there"
    fi
}

# Says what is wrong with words that the program refused.
explain_words() {
    [[ $1 != make ]] || say "make takes --count N, from 1 to 100000, and --sessions K, from 1 to 16, each once, and --text at most once"
}

# Sees to it that a script can be read once more behind the run: what is typed is copied on its way, to a file that is removed at
# the end, and of a file the place is noted at which it begins. A pipe is handed on as it is, so that its errors reach the program.
prepare_script() {
    if [[ -t 0 && -t 2 ]]; then
        say "type a script, a line for each step, and then Ctrl-D (erm help has an example)"
    fi
    if [[ -f /dev/stdin ]]; then
        read -r -u 6 _ from 6</proc/self/fdinfo/0
        script=/proc/self/fd/0
    elif [[ -t 0 ]]; then
        copy=$(mktemp "${TMPDIR:-/tmp}/erm-script-XXXXXX" 2>/dev/null) && trap 'rm -f "$copy"' EXIT
    fi
}

# Starts the program beside this call, which hands signals on to it. Ctrl-C comes to both.
start_child() {
    if [[ -n $copy ]]; then
        start "$@" < <(exec tee "$copy") &
    else
        start "$@" <&0 &
    fi
    child=$!
    trap 'kill -TERM "$child" 2>/dev/null' TERM
    trap 'kill -HUP "$child" 2>/dev/null' HUP
    trap : INT QUIT
}

# Waits for the program, also where a signal comes in between.
wait_for_child() {
    wait "$child"
    status=$?
    while kill -0 "$child" 2>/dev/null; do
        wait "$child"
        status=$?
    done
}

# Stops what shows the run, and clears its line.
stop_watcher() {
    [[ -n $watcher ]] || return 0
    kill "$watcher" 2>/dev/null
    wait "$watcher" 2>/dev/null
    [[ -t 1 ]] || printf '\r\033[K' >&2
}

# Ends as the program did, by the same signal where it was one.
end_as_child() {
    if ((status > 128 && status < 128 + 65)); then
        rm -f "$copy"
        trap - INT TERM HUP EXIT
        kill -s $((status - 128)) $$
    fi
    exit "$status"
}

# Says what is wrong with a script that a command refused, where it can be read once more.
explain_script() {
    if [[ -n $2 ]]; then
        explain_line "$2" "$3" "$1"
    else
        say "the script came through a pipe: as a file, as in erm $1 < FILE, it is told what is wrong with the line"
    fi
}

# Runs the program, and says a sentence on standard error behind it.
call_program() {
    local copy="" script="" from=0 child watcher="" status
    if ! command -v setpriv >/dev/null || ! { : <&0; } 2>/dev/null; then
        exec "$program" "$@"
    fi
    ! reads_script "$@" || prepare_script
    start_child "$@"
    if [[ -t 2 ]] && is_writer "$@" && { ! reads_script "$@" || [[ ! -t 0 ]]; }; then
        show_run "$child" <&- &
        watcher=$!
    fi
    wait_for_child
    stop_watcher
    case $status in
        2) explain_words "$@" ;;
        3) explain_script "$1" "${copy:-$script}" "$from" ;;
        6) explain_disk ;;
    esac
    end_as_child
}
