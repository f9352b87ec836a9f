# The words that the launcher answers by itself, with no program. A part of ../../erm.

USAGE="usage: erm run | threads | make --count N --sessions K [--text] | recover | audit | checkpoint | ship | follow | replica"

# The program's answer to words that ask for no command, and what is wrong with them.
refuse() {
    trap '' PIPE
    echo "$USAGE" 2>/dev/null
    say "$* (erm help says more)"
    exit 2
}

print_version() {
    local commit kit
    commit=$(git -C "$top" rev-parse --short HEAD 2>/dev/null) || commit="of no known commit"
    kit=$(rt version 2>/dev/null | head -n 1)
    echo "erm $(sed -n 's/^## \([0-9][0-9.]*\).*/\1/p' "$top/CHANGELOG.md" 2>/dev/null | head -n 1) ($commit), log format 2"
    echo "kit: ${kit:-there is no rt on the path}"
    list_crates
    if is_built "$program"; then
        echo "program: proved and built"
    elif is_built "$trial"; then
        echo "program: not proved yet; a trial build is there"
    else
        echo "program: not built yet"
    fi
}

# Copies the folder erm-data to a folder of this name in another one, under its lock.
copy_folder() {
    [[ $# -eq 1 && -n $1 ]] || give_up "copy takes one word: the folder in which the copy is made, as in: erm copy backup"
    [[ -d erm-data ]] || give_up "there is no folder erm-data in $PWD: nothing was copied"
    [[ ! -e $1/erm-data ]] || give_up "$1/erm-data is there already: nothing was copied"
    [[ $(realpath -m -- "$1")/ != "$(realpath erm-data)"/* ]] || give_up "$1 lies in erm-data: nothing was copied"
    exec 7<erm-data || give_up "nothing was copied"
    if command -v flock >/dev/null; then
        flock -s -n 7 || give_up "another erm has the folder erm-data: nothing was copied"
    fi
    mkdir -p -- "$1/erm-data" || give_up "nothing was copied"
    find -L erm-data -maxdepth 1 -type f -exec cp -L -p -t "$1/erm-data" -- {} + && sync || give_up "the copy in $1/erm-data isn't whole"
    echo "copied $(find "$1/erm-data" -type f | wc -l) files, $(find "$1/erm-data" -type f -printf '%s\n' | awk '{ n += $1 } END { print n + 0 }') bytes, to $1/erm-data"
    exit 0
}

# Answers the words that need no program: help, version, copy, and words that surely ask for no command.
answer_alone() {
    case ${1-} in
        help | --help | -h) cat "$top/tools/launcher/help.txt" && exit 0 || exit 5 ;;
        --version | version | -V) print_version && exit 0 || exit 5 ;;
        copy) copy_folder "${@:2}" ;;
        try) [[ $# -ge 2 ]] || refuse "try is followed by a command, as in: erm try run < examples/first.erm" ;;
        run | threads | recover | audit | checkpoint | ship | follow | replica) answer_more "$@" ;;
        make) [[ " $* " != *" --help "* && " $* " != *" -h "* ]] || answer_alone help ;;
        "") refuse "there is no command" ;;
        --) ;;
        *) refuse "\"$1\" is no command$(nearest "$1")" ;;
    esac
}

# Answers a second word behind a command that takes none.
answer_more() {
    [[ $# -ge 2 && $2 != -- ]] || return 0
    case $2 in
        -h | --help | help) cat "$top/tools/launcher/help.txt" && exit 0 || exit 5 ;;
    esac
    case $1 in
        run | threads) refuse "$1 takes no words: the script comes on standard input, as in: erm $1 < $2" ;;
        follow) refuse "follow takes no words: the stream comes on standard input, as in: erm follow < $2" ;;
        replica) refuse "replica takes no words: the stream comes on standard input, as in: erm replica < $2" ;;
    esac
    refuse "$1 takes no words, and here is \"$2\""
}

# The command that a word seems to mean, in brackets.
nearest() {
    local word=${1,,} it
    for it in run threads make recover audit checkpoint log ship follow replica explain help copy try; do
        if [[ $word == "$it" || $word == "-$it" || $word == "--$it" || ($word == "${it:0:3}"* && ${#word} -ge 3) ]]; then
            echo ": is it $it?"
            return
        fi
    done
}
