# counting.sh - what `count`, `growth`, `full`, `movem`, `forms` and `calls` share: a counter of x86-64 instructions; bench built, a step's and an undo's.
# Means: nothing; read by the six (`. counting.sh`) after they set `here`, the folder of all of them.
# Source: [ours].
#
# COUNTER=qemu counts by the plugin executed.c for qemu-user; COUNTER=valgrind by callgrind, slower, and within one in a
# thousand of the other. Unless it is said: the first of the two that is there. Nothing is installed: what is missing is
# said. BENCH=FILE counts that program in the place of bench as it is built here.
die() { printf '%s: %s\n' "$(basename "$0")" "$*" >&2; exit 2; }

# Ends with words if one of the commands is missing.
need() { # PACKAGES COMMANDS..
    packages=$1
    shift
    for command in "$@"; do
        command -v "$command" >/dev/null ||
            die "$command is missing. On Debian, as root: apt-get install --no-install-recommends $packages"
    done
}

is_steps() { case $1 in '' | *[!0-9]* | 0*) die "STEPS is a number, 1 or more" ;; esac; }

# Builds bench, the program that is counted unless another is set.
build_bench() {
    program=${BENCH:-}
    [ -z "$program" ] || return 0
    "$root/run" bench </dev/null || die "bench could not be built"
    program=$root/crates/bench/out/bench
}

# Makes all ready to count: sets root, lib, work and counter.
start_counting() {
    root=$here/../..
    counter=${COUNTER:-}
    command -v rt >/dev/null || die "rt, the command of the Rattle kit, is not on the PATH"
    lib=$(dirname "$(dirname "$(readlink -f "$(command -v rt)")")")/toolchain/lib
    work=$(mktemp -d)
    trap 'rm -rf "$work"' EXIT
    if [ -z "$counter" ]; then
        counter=qemu
        if ! command -v qemu-x86_64 >/dev/null && command -v valgrind >/dev/null; then
            counter=valgrind
        fi
    fi
    case $counter in
    qemu)
        need "qemu-user gcc libc6-dev" qemu-x86_64 gcc
        major=$(qemu-x86_64 --version | sed -n '1s/.* version \([0-9]*\).*/\1/p')
        version=1
        [ "${major:-0}" -lt 9 ] || version=2
        gcc -shared -fPIC -O2 -DPLUGIN_VERSION=$version -o "$work/executed.so" "$here/executed.c"
        ;;
    valgrind)
        need valgrind valgrind
        ;;
    *) die "COUNTER is qemu or valgrind" ;;
    esac
    # For a memory of 16 MiB. A number: qemu takes "unlimited" for a small stack.
    ulimit -S -s 65536 2>/dev/null || die "the stack limit, $(ulimit -H -s) KiB, is below 65536"
}

# Prints the instructions of one run of the program.
counted() { # IMAGE ARGS..
    image=$1
    shift
    set -- "$lib/ld-linux-x86-64.so.2" --library-path "$lib" "$program" "$@"
    if [ "$counter" = qemu ]; then
        set -- qemu-x86_64 -plugin "$work/executed.so" "$@"
    else
        set -- valgrind --tool=callgrind --callgrind-out-file=/dev/null --main-stacksize=67108864 \
            --max-stackframe=33554432 "$@"
    fi
    "$@" <"$image" >"$work/wrote" 2>"$work/said" || die "$(basename "$program") did not end well: $(tail -n 1 "$work/said")"
    [ -s "$work/wrote" ] || die "$(basename "$program") wrote nothing: $(tail -n 1 "$work/said")"
    sed -n -e 's/^executed //p' -e 's/.*Collected : *//p' "$work/said"
}

# Prints the instructions of a step and of an undo of it, counted over so many steps. Each is the difference of two
# runs, the second with twice as many steps, so that starting up does not count. An undo is its part of a run in which
# every step is done, undone and done again.
costs() { # IMAGE STEPS WORDS..
    image=$1 steps=$2
    shift 2
    a=$(counted "$image" "$@" speed "$steps")
    b=$(counted "$image" "$@" speed $((steps * 2)))
    c=$(counted "$image" "$@" undo "$steps")
    d=$(counted "$image" "$@" undo $((steps * 2)))
    awk -v n="$steps" -v a="$a" -v b="$b" -v c="$c" -v d="$d" 'BEGIN {
        step = (b - a) / n
        printf "%10.1f %10.1f\n", step, (d - c) / n - 2 * step
    }'
}
