# Functions for the scripts beside this file: they prove and build a program of this repository, and run it as `rt` runs programs.
# To be sourced. Programs are for x86-64.

root=$(cd "$(dirname "$0")/.." && pwd -P)

# build NAME: proves and links the program; `rt run` also runs it once, in its crate's folder and on no input. Stdout stays empty: a line
# for each crate as it is proved goes to stderr, and where `rt` fails all that it said
build() {
    echo "Proving $1 and the crates below it: some minutes on two idle cores the first time, and a second once it is proved." >&2
    if ! said=$(set -o pipefail && cd "$root/crates/$1" && rt run 2>&1 >/dev/null </dev/null | tell); then
        printf '%s\n' "$said" >&2
        exit 1
    fi
}

# tell: passes on what `rt` says, and of it to stderr a line for each crate that was proved now
tell() {
    while IFS= read -r line; do
        printf '%s\n' "$line"
        case $line in
            'rt: chose --jobs '*) crate=${line##* } ;;
            'logic=proved '*) printf '%s is proved\n' "$crate" >&2 ;;
        esac
    done
}

# run NAME FOLDER: runs the built program in a folder
run() {
    (cd "$2" && exec "$root/crates/$1/out/$1")
}
