# Shared by the scripts that use programs of the distribution; they source it.

script=$(basename "$0")
missing=

fail() {
    echo "$script: $*" >&2
    exit 1
}

# Notes the packages $2 ... where $1, a program or a file, is missing.
provide() {
    case $1 in
    /*) [ ! -e "$1" ] || return 0 ;;
    *) ! command -v "$1" >/dev/null || return 0 ;;
    esac
    shift
    missing="$missing $*"
}

# Installs what is missing, from the distribution's own packages.
install_missing() {
    [ -n "$missing" ] || return 0
    command -v apt-get >/dev/null || fail "missing:$missing (Debian's names), and there is no apt-get"
    [ "$(id -u)" -eq 0 ] || fail "missing; install with: apt-get install --no-install-recommends$missing"
    echo "$script: installing$missing" >&2
    # shellcheck disable=SC2086
    { apt-get -qq update && DEBIAN_FRONTEND=noninteractive apt-get -qq -y install --no-install-recommends $missing; } \
        >"$work/apt" 2>&1 || {
        tail -n 5 "$work/apt" >&2
        fail "not installed:$missing"
    }
}
