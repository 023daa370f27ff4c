# Sourced by the benchmarks, which set $here to their own folder. $root is the checkout, $work a folder that goes at the end.
root=$(cd "$here/../.." && pwd)
work=$(mktemp -d)
trap 'rm -rf "$work"' EXIT

# The program as $diddy: DIDDY where it is set, else the checkout's own, which the launcher proves and builds first where it isn't current.
find_program() {
    diddy=${DIDDY:-$root/crates/dd_program/out/dd_program}
    [ -n "${DIDDY:-}" ] || "$root/diddy" run < /dev/null > "$work/nothing" || exit 1
}

# The least seconds of processor time, user and system, of TURNS runs over FILE: least TURNS FILE WORD.. What they write is $work/said. Needs bash.
least() {
    turns=$1 given=$2
    shift 2
    for _ in $(seq "$turns"); do
        { TIMEFORMAT='%U %S'; time "$@" < "$given" > "$work/said"; } 2>&1
    done | awk '{ print $1 + $2 }' | sort -n | head -1
}

# build_program NAME FILE CRATE.. proves and builds the program in FILE, over copies of the crates, as $work/crates/NAME/out/NAME.
build_program() {
    name=$1
    file=$2
    shift 2
    mkdir -p "$work/crates/$name/src"
    cp "$root/HANDLES" "$work/HANDLES"
    : > "$work/crates.txt"
    for crate in "$@"; do
        cp -R "$root/crates/$crate" "$work/crates/$crate"
        grep "^$crate:" "$root/crates.txt" >> "$work/crates.txt"
    done
    cp "$file" "$work/crates/$name/src/main.rt"
    echo "$name: $*" >> "$work/crates.txt"
    (cd "$work/crates/$name" && rt run < /dev/null > "$work/build.log" 2>&1) || { cat "$work/build.log"; exit 1; }
}
