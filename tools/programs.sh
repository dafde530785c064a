# What ../voxdag and ../prove share. They source it with `root` set to the repository.

made=$root/.build
logs=$made/logs
# the program that ./prove makes, and the one from the sources as they are, before their proofs
proved=$made/voxdag
tried=$made/tried

say() {
    printf 'voxdag: %s\n' "$*" >&2
}

fail() {
    say "$@"
    exit 125
}

# is_new PROGRAM: whether it is there and no source is newer.
is_new() {
    [ -x "$1" ] && [ -z "$(find "$root/crates" "$root/crates.txt" -name out -prune -o \
        \( -name '*.rt' -o -name '*.antt' -o -name crates.txt \) -newer "$1" -print -quit)" ]
}

need_rt() {
    command -v rt >/dev/null ||
        fail "the program must be built first, and the Rattle toolchain's command rt is not in PATH"
}

# Of two that make the same program at once the second waits: begin_making PROGRAM
begin_making() {
    need_rt
    mkdir -p "$logs" || fail "cannot make the folder $logs"
    exec 9>"$1.lock" || fail "cannot write to $made"
    flock 9
    # The program gets the time at which this began, so that an edit made meanwhile counts as newer.
    touch "$1.begun"
}

# keep FILE PROGRAM: keeps the file as the program.
keep() {
    install -m 755 "$1" "$2.new" && touch -r "$2.begun" "$2.new" && mv "$2.new" "$2"
}
