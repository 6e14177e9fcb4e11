#!/usr/bin/env bash
# Sees to what the gate needs, before anything is proved: ready.sh NEED.. A need with a slash is a file, any other a command on the
# path. What is missing is installed where that can be done: PACKAGES names packages, apt is there, and root asks.
set -euo pipefail

missing() {
    local need
    for need in "$@"; do
        if [[ $need == /* ]]; then
            [[ -e $need ]] || echo "$need"
        else
            command -v "$need" >/dev/null || echo "$need"
        fi
    done
}

install_packages() {
    echo "installing $PACKAGES"
    dpkg --add-architecture amd64 && apt-get -q update && DEBIAN_FRONTEND=noninteractive apt-get -q -y install $PACKAGES
}

lacks=$(missing "$@")
if [[ -n $lacks && -n ${PACKAGES:-} && $(id -u) == 0 ]] && command -v apt-get >/dev/null; then
    install_packages
    lacks=$(missing "$@")
fi
if [[ -n $lacks ]]; then
    echo "not installed: ${lacks//$'\n'/, } (README.md, \"What must be installed\")"
    [[ -z ${PACKAGES:-} ]] || echo "Debian has them in: $PACKAGES, after 'dpkg --add-architecture amd64'"
    exit 1
fi
