# Sourced by the scripts beside it, which then run in the repository's root.

cd "$(dirname "${BASH_SOURCE[0]}")/.."

# Ends the script if a program that it names cannot be run.
need() {
    local program missing=''
    for program in "$@"; do
        type -P "$program" >/dev/null || missing+=${missing:+ and }$program
    done
    if [ -n "$missing" ]; then
        echo "tools/${0##*/}: needs $missing, not found in PATH (README.md lists what is needed)" >&2
        exit 1
    fi
}

# Runs a command, and shows what it printed only if it fails.
quietly() {
    local said
    said=$("$@" 2>&1) || {
        printf '%s\n' "$said" >&2
        exit 1
    }
}

# Builds a binary of reference/ by its name. The further arguments go to cargo.
build_reference() {
    quietly cargo build --offline --manifest-path reference/Cargo.toml --target-dir target/reference --bin "$@"
}

# Builds target/planner/release/network, the planner's command. It needs the archive.
build_planner() {
    quietly cargo build --release --offline --manifest-path planner/Cargo.toml --target-dir target/planner
}
