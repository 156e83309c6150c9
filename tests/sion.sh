# What the tests of the command `sion` share, for `. tests/sion.sh` in the repository's folder: the command, a folder of their own that they
# work in, and how they compare. ./sion builds the command that all else calls.
root=$PWD
sion=$root/target/cargo/release/sion
work=$(mktemp -d)
trap 'rm -rf "$work"' EXIT
trap 'exit 1' HUP INT TERM

expect() { # WHAT, WANTED, GOT
    if [ "$2" != "$3" ]; then
        printf "sion, %s: expected\n%s\ngot\n%s\n" "$1" "$2" "$3" >&2
        exit 1
    fi
}

fails() { # WHAT, STATUS, FIRST LINE ON STANDARD ERROR, ARGUMENTS...; what is printed stands in the file output, what is told in error
    what=$1 wanted=$2 line=$3
    shift 3
    status=0
    "$sion" "$@" >"$work/output" 2>"$work/error" || status=$?
    expect "$what, its status" "$wanted" "$status"
    expect "$what, its line" "$line" "$(head -n 1 "$work/error")"
}

refuses() { # the same, where nothing is printed
    fails "$@"
    expect "$1, its output" "" "$(cat "$work/output")"
}

# calls of the system that a test changes, for LD_PRELOAD
gcc -std=c11 -Wall -Wextra -Wpedantic -Werror -shared -fPIC -o "$work/calls.so" tests/calls.c

"$root/sion" --version >"$work/version"
