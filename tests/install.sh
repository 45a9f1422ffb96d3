# shellcheck shell=bash
#
# For the commands that a newcomer runs, which read it in after machine.sh: looks for the kit, and installs the Debian packages of what else is missing.

# The packages of those needs, read as machine.sh writes them, that are not there.
packages_missing() {
    local need
    while read -r need; do
        command -v "${need%%:*}" >/dev/null 2>&1 || [ -e "${need%%:*}" ] || echo "${need#*:}"
    done
}

# Runs a command as root.
as_root() { if [ "$(id -u)" -eq 0 ]; then "$@"; else sudo "$@"; fi; }

# install_needs NEEDS: sees to all that the function NEEDS of machine.sh prints. Where that cannot be done, it says what is missing and fails.
install_needs() {
    local needs=$1 packages lean=()
    command -v rt >/dev/null || { echo 'the command rt of the Rattle kit is not on the PATH' >&2; return 1; }
    mapfile -t packages < <("$needs" | packages_missing)
    [ ${#packages[@]} -gt 0 ] || return 0
    command -v apt-get >/dev/null || { echo "missing, and there is no apt-get to install it: ${packages[*]}" >&2; return 1; }
    if [ "$machine" != x86_64 ]; then
        as_root dpkg --add-architecture amd64 || return 1
        lean=(--no-install-recommends)
    fi
    as_root apt-get update -qq || return 1
    # Once more, since the packages' names depend on the lists just fetched.
    mapfile -t packages < <("$needs" | packages_missing)
    echo "installing: ${packages[*]}"
    as_root env DEBIAN_FRONTEND=noninteractive apt-get install -y -qq "${lean[@]}" "${packages[@]}"
}
