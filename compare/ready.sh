# Sourced by the scripts here. Each sets `usage` and tests for what it needs before it builds anything. An error is written with the usage line, and the
# status is 2.
set -euo pipefail

stop() {
    printf 'compare/%s: %s\nusage: compare/%s\n' "${0##*/}" "$*" "$usage" >&2
    exit 2
}

# words LEAST MOST WORD..: tests the number of words. Prints the usage line for --help.
words() {
    local least=$1 most=$2
    shift 2
    if [ "${1:-}" = --help ]; then
        echo "usage: compare/$usage"
        exit 0
    fi
    [ $# -ge "$least" ] && [ $# -le "$most" ] || stop "takes $least to $most words, not $#"
}

# whole WORD..: tests that each is a whole number that fits in 64 bits.
whole() {
    local word
    for word; do
        [[ $word =~ ^[0-9]{1,19}$ ]] || stop "'$word' is no whole number of at most 19 digits"
    done
}

# on_path TOOL..: tests that these are on the PATH.
on_path() {
    local tool
    for tool; do
        command -v "$tool" >/dev/null || stop "$tool is not on the PATH"
    done
}

# The folder with the crate's files, from the repository's root.
crate_source() {
    source=${MLX9064X_SRC:-../shared/docs/src}
    [ -f "$source/src/calculations.rs" ] || stop "there is no mlx9064x 0.2.1 in $source: set MLX9064X_SRC to the folder that has its src/"
}
