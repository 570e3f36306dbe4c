# tools.sh - where the parts of the Rattle kit are, and proving with words; read by the scripts beside it and by `run` (`. tools.sh`)
# after they set `name` and `root`.
# Means: nothing.
# Source: [ours].
say() { printf '%s: %s\n' "$name" "$*" >&2; }

command -v rt >/dev/null || { say "rt, the command of the Rattle kit, is not on the PATH"; exit 2; }
kit=$(dirname "$(dirname "$(readlink -f "$(command -v rt)")")")
tools=$kit/toolchain
[ "$(uname -m)" = x86_64 ] || { say "the Rattle kit, and what it builds here, is for x86-64"; exit 2; }

# The crates that a crate stands on, and itself: each uses only crates above it in crates.txt.
stands_on() { # CRATE
    awk -v wanted="$1" '
        /^#/ || NF == 0 { next }
        { name = $1; sub(/:.*/, "", name); order[++n] = name; uses[name] = $0; sub(/^[^:]*:?/, "", uses[name]) }
        END {
            needed[wanted] = 1
            for (i = n; i > 0; i--) {
                if (!needed[order[i]]) continue
                many = split(uses[order[i]], used, " ")
                for (j = 1; j <= many; j++) needed[used[j]] = 1
            }
            for (i = 1; i <= n; i++) if (needed[order[i]]) print order[i]
        }' "$root/crates.txt"
}

# One sum of all that a crate is made from: its files and those of the crates below, crates.txt, and the kit.
made_from() { # CRATE
    (
        cd "$root" || exit 2
        {
            cat crates.txt "$kit/KIT-ID" "$kit/WHAT"
            for crate in $(stands_on "$1"); do
                find "crates/$crate/src" "crates/$crate/specs" "crates/$crate/proofs" -type f 2>/dev/null | LC_ALL=C sort
            done | tr '\n' '\0' | xargs -0 sha256sum
        } | sha256sum
    )
}

# How many of the crates have no library yet, which the last one, a program or a static library, never has.
left() { # CRATES..
    many=0
    for crate in "$@"; do
        [ -e "$root/crates/$crate/out/rlib/stamp" ] || many=$((many + 1))
    done
    echo "$many"
}

# Reads what `rt` says, and its exit status after it: keeps it in the log, and tells each crate as its turn comes. Where a program runs it
# is proved, and what comes then, the status too, is the program's.
tell() { # LOG CRATES..
    log=$1 status=2 runs=''
    shift
    : >"$log"
    while IFS= read -r line; do
        case $runs$line in
        "exit status "*) status=${line##* } ;;
        "rt: chose --jobs "*" for "*) say "proving ${line##* }, $(left "$@") left" ;;
        "rt: running out/"*) runs=/ status=0 ;;
        esac
        printf '%s\n' "$line" >>"$log"
    done
    return "$status"
}

# Proves a crate and all that it stands on, unless that was done and nothing has changed, by a command of rt that builds it too: `lib`,
# or `run`, which then runs the program, here on nothing. Standard error has which crate's turn it is and how many are left, and what rt
# said last if it fails; the log has all of it.
prove() { # COMMAND CRATE
    command=$1 crate=$2 folder=$root/crates/$2
    mkdir -p "$folder/out"
    log=$folder/out/$command.log
    if ! {
        case $command in
        run) (cd "$folder" && rt run 2>&1 >/dev/null </dev/null) ;;
        *) (cd "$folder" && rt "$command" 2>&1 </dev/null) ;;
        esac
        echo "exit status $?"
    } | tell "$log" $(stands_on "$crate"); then
        tail -n 15 "$log" >&2
        say "rt $command failed in crates/$crate; $log has all that it said"
        return 1
    fi
}
