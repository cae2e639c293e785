# shellcheck shell=bash disable=SC2154 # the script that takes it in has set log
# Debian's packages that single parts of tests/run need, installed where root runs it. tests/run and tests/install have set
#   $log             a folder for what the installing says
# Afterwards $not_installed has a sentence on what is missing, if anything is.

not_installed=

lacking() { # PACKAGE...: those that are not installed
    local package
    for package in "$@"; do
        [ "$(dpkg-query -W -f '${Status}' "$package" 2>/dev/null)" = 'install ok installed' ] || echo "$package"
    done
}

get() { # PACKAGE...: installs them, without asking
    local apt=(timeout 300 apt-get -y -q -o DPkg::Lock::Timeout=60 -o Acquire::http::Timeout=20 -o Acquire::Retries=0)
    local install=("${apt[@]}" install --no-install-recommends "$@")
    export DEBIAN_FRONTEND=noninteractive
    { apt-cache show "$@" && "${install[@]}"; } || { "${apt[@]}" update && "${install[@]}"; }
}

set_up() { # PACKAGE...
    command -v dpkg-query >/dev/null && command -v apt-get >/dev/null || return 0 # not Debian: the parts look for themselves
    local packages
    mapfile -t packages < <(lacking "$@")
    if [ ${#packages[@]} = 0 ]; then
        return 0
    elif [ "${PLOT_HUB_INSTALL-}" = no ]; then
        not_installed="$not_installed; ${packages[*]}: PLOT_HUB_INSTALL=no"
    elif [ "$(id -u)" != 0 ]; then
        not_installed="$not_installed; ${packages[*]}: only root may"
    else
        echo "tests: installing ${packages[*]}"
        get "${packages[@]}" </dev/null >>"$log/install" 2>&1 || not_installed="$not_installed; ${packages[*]}: see $log/install"
    fi
}

# The browser is by itself: where it is not to be had, the others are.
set_up_all() {
    not_installed=
    set_up valgrind make pkgconf shellcheck
    set_up chromium
    not_installed=${not_installed:+not installed: ${not_installed#; }}
}
