# shellcheck shell=sh
# What the scripts that test share, for them to source: which commands there are, what is left out, and the last line. They count
# in `passed` and `failed`. tests/server/servers.sh comes after it, which installs packages.

skipped=0

has() {
    command -v "$1" >/dev/null 2>&1
}

# Whether a command is there: provided COMMAND PACKAGE.. installs Debian's packages if it lacks and the environment's CI is set.
# Else $why says what lacks.
provided() {
    why="$1 is missing"
    has "$1" || { [ -n "${CI:-}" ] && install_packages "$@"; }
}

# Whether apt-get could install packages here, of which it knows each.
is_installable() {
    [ $# -gt 0 ] && is_root && has apt-get || return
    for package in "$@"; do
        apt-cache show "$package" >/dev/null 2>&1 || return
    done
}

# Says that tests are left out, and why: skip TESTS WHY PACKAGE.. with the packages of Debian that they lack, if that is why. If
# CI is set and could install these, the tests count as failed.
skip() {
    tests=$1
    reason=$2
    shift 2
    if [ -n "${CI:-}" ] && is_installable "$@"; then
        echo "$tests: left out, though apt-get knows $*: $reason: FAILED"
        failed=$((failed + 1))
    else
        echo "$tests: skipped: $reason"
        skipped=$((skipped + 1))
    fi
}

finish() {
    echo "$passed passed, $failed failed, $skipped skipped"
    [ "$failed" -eq 0 ]
    exit
}
