# shellcheck shell=bash
# How a check in the shell shows what it shows: by a line for each thing, or by both texts if they differ. A check sources it at its head, and may
# define `failing`, which reports more before it ends.
check=$(basename "$0")

# Prints the head of the check, and ends it, if its first word is --help.
help_if_asked() {
    if [ "${1-}" = --help ]; then
        sed -n '2,/^[^#]/s/^# \?//p' "$0"
        exit 0
    fi
}

# Ends the check if a tool is not installed.
skip_without() {
    local tool
    for tool; do
        if ! command -v "$tool" >/dev/null; then
            echo "$check: skipped, since $tool is not installed"
            exit 0
        fi
    done
}

fail() {
    printf '%s: %s\n' "$check" "$1" >&2
    ! declare -F failing >/dev/null || failing || true
    exit 1
}

# Fails if the two texts differ.
same() {
    [ "$2" = "$3" ] || fail "$1
wanted: $2
found:  $3"
    echo "$1: ok"
}

# Fails if a file doesn't hold this text, byte by byte.
holds() {
    printf '%s' "$2" | cmp -s - "$3" || fail "$1
wanted:
$2
found:
$(cat "$3")"
}

# The commands of the fenced blocks ```sh of pages, or of standard input, a line each: those whose block says so behind `sh`, such as root; of '.*' all.
typed() {
    local says=$1
    shift
    sed -n "/^ *\`\`\`sh *\\($says\\)\$/,/^ *\`\`\`\$/{/^ *\`\`\`/!{s/^ *//; p}}" "$@" | sed -e ':more' -e '/\\$/{N; s/ *\\\n */ /; b more' -e '}'
}
