# Sourced by the commands of this folder. Each says in `help` what it does and what it needs, and takes no argument but -h
# and --help. From here on the current folder is the repository's.
cd "$(dirname "${BASH_SOURCE[0]}")/.."
me=host/$(basename "$0")

fail() {
    echo "$me: $1" >&2
    exit "${2:-1}"
}

for argument in "$@"; do
    case $argument in
    -h | --help)
        echo "$help"
        exit 0
        ;;
    *) fail "no such argument: '$argument'; $me --help says how it is used" 2 ;;
    esac
done

has() { command -v "$1" >/dev/null; }

needs() {
    for tool in "$@"; do
        has "$tool" || fail "$tool is missing"
    done
}

skip() { echo "skipped: $1"; }
