# What is looked at before a command that writes in the folder erm-data. A part of ../../erm.

# A Python that starts fast.
find_python() {
    local it
    for it in /usr/bin/python3 /usr/local/bin/python3 python3; do
        if command -v "$it" >/dev/null; then
            python=$it
            return
        fi
    done
    return 1
}

# Whether the words ask for a command that writes.
is_writer() {
    case ${1-} in
        run | threads | checkpoint) ;;
        make) [[ " $* " != *" --text "* ]] ;;
        *) return 1 ;;
    esac
}

# Stops before a run over a log behind whose end blocks still read: a byte has changed, and what is there would be lost, or old
# commits would come to life again.
look_at_folder() {
    local found status line
    is_writer "$@" && [[ -d erm-data ]] || return 0
    if ! find_python; then
        say "there is no python3: what lies behind the log's end wasn't looked at"
        return 0
    fi
    found=$("$python" -I -S "$top/tools/log_end.py" erm-data --program "$program" ${go_on:+--set-aside})
    status=$?
    if [[ $status == 3 ]]; then
        say "$found."
        give_up "the files weren't set aside: nothing was run"
    elif [[ $status == 1 && -n $found ]]; then
        say "$found."
        give_up "nothing was run; --go-on before the command copies the folder to erm-data.1 (.2 ..), cuts the log at its end and goes on there"
    fi
    [[ -z $found || $found == *"another erm has it" ]] || while read -r line; do say "$line"; done <<<"$found"
    return 0
}
