# How the tests of the library for C count, for the programs beside this file, which have a folder, `$folder`, and begin with passed=0 failed=0.

# Counts what a program counted in its last line, 'N passed, M failed', and prints what else it said.
counts() {
    local what=$1 last
    shift
    "$@" >"$folder/said" 2>&1 || true
    last=$(tail -n 1 "$folder/said")
    if [[ $last =~ ^([0-9]+)\ passed,\ ([0-9]+)\ failed$ ]]; then
        passed=$((passed + BASH_REMATCH[1])) failed=$((failed + BASH_REMATCH[2]))
        sed '$d' "$folder/said" | head -n 60
        echo "$what: $last"
    else
        failed=$((failed + 1))
        echo "FAILED: $what"
        tail -n 20 "$folder/said"
    fi
}

# Counts one test: what it shows, and the command that ends with 0 where it is so.
holds() {
    local what=$1
    shift
    if "$@" >"$folder/said" 2>&1; then
        passed=$((passed + 1))
        echo "$what: passed"
    else
        failed=$((failed + 1))
        echo "FAILED: $what"
        tail -n 20 "$folder/said"
    fi
}

# Whether there is a program; where not, what is not tried without it.
has() {
    command -v "$1" >/dev/null || { echo "not tried, since there is no $1: $2" && false; }
}
