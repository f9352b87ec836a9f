#!/usr/bin/env bash
# Refuses each growth of memory in turn, in calls of `erm` on real folders, and looks at what each call tells and at what it leaves. It
# prints for each call how many growths it has, and how many of the refused ones ended with each status.
#   bench/memory.sh [PROGRAM [NAME..]]     PROGRAM is the proved one that the launcher left, and the NAMEs are those of examples
#                                          (crates/erm_examples/data), unless others are given
#   EACH=N bench/memory.sh ..              refuses each Nth growth: `make` has thousands
# A call with growth k refused, alone or with all that come behind it, is to end
#   with the status and the bytes that it has with ample memory, or
#   with 8 and `no memory`, or
#   with 2 and the usage line, where the words of the command line want the memory, or
#   with 6, and the report up to there and `disk fault`, where the folder's calls want the memory, or with 5 and what was put before.
# On what it leaves `recover` is to tell what it tells on the folder as it was, or behind some of the call's lines, or behind all.
# A library that cc makes, in a folder of its own that is removed, refuses the growths: a build of `erm try` doesn't take its heap from it.
set -u
top=$(cd "$(dirname "$(readlink -f "${BASH_SOURCE[0]}")")/.." && pwd)
program=$(readlink -f "${1:-$top/crates/erm_main/out/erm_main}")
shift
[ -x "$program" ] || { echo "$program can't be run: nothing is tried" >&2; exit 1; }
folder=$(mktemp -d)
trap 'rm -rf "$folder"' EXIT
cat >"$folder/refuse.c" <<'C'
#include <errno.h>
#include <stdlib.h>
#include <sys/syscall.h>
#include <unistd.h>

void *__libc_malloc(size_t), *__libc_calloc(size_t, size_t), *__libc_realloc(void *, size_t), *__libc_memalign(size_t, size_t);

static unsigned long calls, first, last;
static int counted;

/* The growths with these numbers are refused; how many there were is written at the end, to a file that is open. */
__attribute__((constructor)) static void begin(void) {
    first = strtoul(getenv("REFUSED_FROM"), 0, 10);
    last = strtoul(getenv("REFUSED_TO"), 0, 10);
    counted = atoi(getenv("COUNTED_TO"));
    calls = 0;
}

static int is_refused(void) {
    unsigned long call = __sync_add_and_fetch(&calls, 1);
    if (first == 0 || call < first || last < call) return 0;
    errno = ENOMEM;
    return 1;
}

static void tell(void) {
    char digits[24], *at = digits + sizeof digits;
    *--at = '\n';
    for (unsigned long left = calls; at > digits; left /= 10) {
        *--at = '0' + left % 10;
        if (left < 10) break;
    }
    if (write(counted, at, digits + sizeof digits - at)) {}
}

/* A program that may have threads ends by this call, and then nothing else is run at its end. */
void _exit(int status) {
    tell();
    for (;;) syscall(SYS_exit_group, status);
}

__attribute__((destructor)) static void end(void) { tell(); }

void *malloc(size_t size) { return is_refused() ? 0 : __libc_malloc(size); }
void *calloc(size_t count, size_t size) { return is_refused() ? 0 : __libc_calloc(count, size); }
void *realloc(void *old, size_t size) { return is_refused() ? 0 : __libc_realloc(old, size); }
void *aligned_alloc(size_t align, size_t size) { return is_refused() ? 0 : __libc_memalign(align, size); }
int posix_memalign(void **found, size_t align, size_t size) {
    if (is_refused()) return ENOMEM;
    *found = __libc_memalign(align, size);
    return *found ? 0 : ENOMEM;
}
C
cc -O2 -shared -fPIC -o "$folder/refuse.so" "$folder/refuse.c" || { echo "cc makes no library: nothing is tried" >&2; exit 1; }
python3 - "$program" "$folder" "$top/crates/erm_examples/data" "$@" <<'PYTHON'
import collections
import os
import shutil
import subprocess
import sys

PROGRAM, ROOM, DATA, *NAMES = sys.argv[1:]
NAMES = NAMES or "two_puts tidy_cuts_a_version excluded_is_passed_over checkpoint_by_line at_once_two_puts at_once_durable at_once_two_sessions made".split()
NONE, ALL = 0, 2**62
EACH = int(os.environ.get("EACH", 1))
USAGE = subprocess.run([PROGRAM], stdin=subprocess.DEVNULL, stdout=subprocess.PIPE).stdout


def call(words, script, first=NONE, last=NONE):
    """The status and the bytes of a call in the working folder, and how many growths it asked for."""
    counted, counts = os.pipe()
    where = {"LD_PRELOAD": f"{ROOM}/refuse.so", "REFUSED_FROM": str(first), "REFUSED_TO": str(last), "COUNTED_TO": str(counts)}
    ran = subprocess.run([PROGRAM, *words], input=script, stdout=subprocess.PIPE, env={**os.environ, **where}, pass_fds=[counts], timeout=600)
    os.close(counts)
    with os.fdopen(counted) as it:
        said = it.read()
    return ran.returncode, ran.stdout, int(said or 0)


def path(name):
    return os.path.join("erm-data", f"log{int(name[3:]):016x}" if name.startswith("log") else name)


def change(kind, name, number, digits=""):
    """Writes bytes to a file of the disk, or cuts it."""
    os.makedirs("erm-data", exist_ok=True)
    with open(os.open(path(name), os.O_RDWR | os.O_CREAT, 0o644), "r+b") as it:
        if kind == "write":
            it.seek(int(number))
            it.write(bytes.fromhex(digits))
        else:
            it.truncate(int(number))


def in_folder(kept, then):
    """What something answers in a copy of a folder."""
    shutil.rmtree(f"{ROOM}/try", ignore_errors=True)
    shutil.copytree(kept, f"{ROOM}/try")
    os.chdir(f"{ROOM}/try")
    answer = then()
    os.chdir(kept)
    return answer


def recovered(known={}):
    """What `recover` tells of the working folder; of one with the same bytes it is asked once."""
    files = [(name, open(os.path.join("erm-data", name), "rb").read()) for name in sorted(os.listdir("erm-data"))] if os.path.isdir("erm-data") else []
    key = tuple(files)
    if key not in known:
        known[key] = call(["recover"], b"")[:2]
    return known[key]


def lines_of(words, script):
    """The lines that a call runs."""
    if words[0] == "make":
        script = call([*words, "--text"], b"")[1]
    return script.splitlines(keepends=True) if words[0] in ("run", "threads", "make") else []


def allowed(kept, words, script):
    """What may be recovered behind a call: what is there before it, and behind each front of its lines, and behind all of it."""

    def behind(words, script):
        call(words, script)
        return recovered()

    lines = lines_of(words, script)
    found = {recovered(), in_folder(kept, lambda: behind(words, script))}
    found.update(in_folder(kept, lambda: behind(["run"], b"".join(lines[:count]))) for count in range(len(lines) + 1) if lines)
    return found


def is_named(whole, status, report):
    """Whether a call with a growth refused ended as it may."""
    if status == 6:
        front = report.removesuffix(b"disk fault\n")
        return front != report and whole.startswith(front.rsplit(b"\n", 1)[0] if front else b"")
    return (status, report) in ((8, b"no memory\n"), (2, USAGE)) or status == 5 and whole.startswith(report)


def refuse_each(kept, name, words, script):
    """Refuses each growth of a call, alone and with those behind it."""
    held = True
    status, whole, growths = in_folder(kept, lambda: call(words, script))
    may = allowed(kept, words, script)
    for what, end in ("alone", lambda k: k), ("and all behind", lambda _: ALL):
        ends = collections.Counter()
        for k in range(1, growths + 1, EACH):
            ended, report, _, left = in_folder(kept, lambda: (*call(words, script, k, end(k)), recovered()))
            ends[ended] += 1
            if not ((ended, report) == (status, whole) or is_named(whole, ended, report)) or left not in may:
                print(f"  growth {k} {what}: status {ended}, {report[-60:]!r}, then {left[1][:40]!r}")
                held = False
        told = ", ".join(f"{count} with {ended}" for ended, count in sorted(ends.items()))
        print(f"{name:28} {words[0]:10} {growths:6} growths, each {what}: {told}", flush=True)
    return held


def calls_of(name):
    """The calls of an example, and what changes the disk between them."""
    script = os.path.join(DATA, f"{name}.script")
    if os.path.exists(script):
        yield None, (["run"], open(script, "rb").read())
        return
    words, script = [], b""
    for line in open(os.path.join(DATA, f"{name}.steps")).read().splitlines():
        mark, _, rest = line.partition(" ")
        if mark == "$":
            words = rest.split(" ")
        elif mark == "<":
            script += rest.encode() + b"\n"
        elif mark == "!":
            yield change, rest.split(" ")
        elif mark == "=":
            yield None, (words, script)
            words, script = [], b""


held = True
for name in NAMES:
    kept = f"{ROOM}/kept"
    shutil.rmtree(kept, ignore_errors=True)
    os.mkdir(kept)
    os.chdir(kept)
    for how, what in calls_of(name):
        if how:
            how(*what)
        else:
            held = refuse_each(kept, name, *what) and held
            call(*what)
sys.exit(not held)
PYTHON
