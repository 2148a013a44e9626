# Debian's packages for edge/setup and feed/setup, by apt-get as root or by sudo. Not a program: they read it, each in its own
# folder.

SETUP="${PWD##*/}/setup"  # In front of each line.
WAITS=600                 # Seconds for somebody else who installs packages just now.

fail() {
    echo "$SETUP: $*" >&2
    exit 1
}

as_root() {
    if [[ "$(id -u)" -eq 0 ]]; then
        "$@"
    elif command -v sudo >/dev/null; then
        sudo "$@"
    else
        fail "not root, and there is no sudo, to install packages by"
    fi
}

is_installed() {
    [[ "$(dpkg-query -W -f='${db:Status-Status}' "$1" 2>/dev/null)" == installed ]]
}

# Installs these packages where they aren't there.
need() {
    local missing=() it
    for it in "$@"; do
        is_installed "$it" || missing+=("$it")
    done
    [[ "${#missing[@]}" -eq 0 ]] && return
    echo "$SETUP: installs ${missing[*]}"
    local words=(env DEBIAN_FRONTEND=noninteractive apt-get -o "DPkg::Lock::Timeout=$WAITS" install -y)
    words+=(--no-install-recommends "${missing[@]}")
    as_root "${words[@]}" >/dev/null 2>&1 || { as_root apt-get update && as_root "${words[@]}"; } >/dev/null 2>&1 ||
        fail "can't be had: ${missing[*]}"
}
