# shellcheck shell=bash
# What the scripts beside it share that time a scratch program; they read it with `source`. It sets
#
#     rounds      how many turns are timed: the script's argument, or five (a program that takes its turns itself ignores it)
#     top         this repository
#     scratch     a temporary folder, which is removed when the script ends: a repository with the crate `timed`, whose sources the script writes
#     timed       that crate's folder
#     program     its program, once it is built
#     alone       the beginning of a command that other work on the machine can't interrupt, where that is allowed
set -eu
rounds=${1:-5}
top=$(cd "$(dirname "${BASH_SOURCE[0]}")/.." && pwd)
scratch=$(mktemp -d)
trap 'rm -rf "$scratch"' EXIT
timed=$scratch/crates/timed
program=$timed/out/timed
alone=(env)
chrt -f 1 true 2>/dev/null && alone=(chrt -f 1)
mkdir -p "$timed/src"
cp "$top/HANDLES" "$scratch/"

# Lets the program use these crates: copies those of this repository, with all that they depend on, and with what was proved of them in this checkout.
use_crates() {
    python3 "$top/tools/crates.py" "$@" >"$scratch/crates.txt"
    local crate
    for crate in $(sed 's/[ :].*//' "$scratch/crates.txt"); do
        cp -a "$top/crates/$crate" "$scratch/crates/"
        rm -rf "$scratch/crates/$crate/must-fail"
    done
    echo "timed: $*" >>"$scratch/crates.txt"
}

# Proves and builds the program, with the libraries that it needs. Where that fails, prints the end of what rt said.
build_program() {
    (cd "$timed" && rt run </dev/null) >"$scratch/log" 2>&1 || {
        tail -20 "$scratch/log" >&2
        exit 1
    }
}

# Compiles the plain program beside it, whose source the script has written.
build_plain() {
    rustc -O -o "$scratch/plain" "$scratch/plain.rs"
}

# Prints what the two programs print, in turns.
take_turns() {
    for _ in $(seq "$rounds"); do
        "${alone[@]}" "$scratch/plain"
        "${alone[@]}" "$program"
    done
}
