#!/usr/bin/env bash
# Installs the library under target/ and builds the example from what was installed, as hosts do: by pkg-config and by
# find_package. Every way of installing gives the same files.
set -euo pipefail
cd "$(dirname "$0")/../.."
. host/tests/check.sh
root=$PWD/target/host/install
version=$(cat host/VERSION)
rm -rf "$root"
mkdir -p "$root"

installed() {
    diff - <(cd "$root/prefix" && find . -type f | LC_ALL=C sort) <<'END'
./include/pws.h
./include/pws.hpp
./include/pws_calls.hpp
./include/pws_segments.hpp
./include/pws_wire.hpp
./lib/cmake/pws/pws-config-version.cmake
./lib/cmake/pws/pws-config.cmake
./lib/libpws.a
./lib/pkgconfig/pws.pc
END
}

by_pkg_config() {
    local -x PKG_CONFIG_PATH=$root/prefix/lib/pkgconfig
    local flags
    pkg-config --exact-version="$version" pws && read -ra flags <<<"$(pkg-config --cflags --libs pws)" &&
        "${CXX:-g++}" -std=c++20 host/example/two_yards.cpp "${flags[@]}" -o "$root/by_pkg_config"
}

# finds VERSION: whether a host that asks for this version, as find_package takes it, is configured.
finds() {
    rm -rf "$root/consumer"
    cmake -S host/tests/consumer -B "$root/consumer" -DCMAKE_PREFIX_PATH="$root/prefix" -DPWS_VERSION="$1" >/dev/null 2>&1
}

finds_no_other_version() {
    for other in 0.1.0 0.1 0.2.0 0.3.0 "${version%.*}.99" "$((${version%%.*} + 1)).0.0"; do
        ! finds "$other" || return 1
    done
}

# A host for a processor that the library has no code for finds none.
finds_none_for_arm() {
    rm -rf "$root/arm"
    ! env -u CMAKE_TOOLCHAIN_FILE cmake -S host/tests/consumer -B "$root/arm" -DCMAKE_PREFIX_PATH="$root/prefix" -DPWS_VERSION="$version" \
        -DCMAKE_SYSTEM_NAME=Linux -DCMAKE_SYSTEM_PROCESSOR=aarch64 >"$root/arm.txt" 2>&1 &&
        grep -q 'code for x86-64 alone' "$root/arm.txt"
}

by_find_package() { finds "$version;EXACT" && cmake --build "$root/consumer" >/dev/null; }

by_cmake() {
    cmake -S host -B "$root/build" >/dev/null && cmake --install "$root/build" --prefix "$root/by_cmake" >/dev/null
}

prints_the_same() { diff host/example/two_yards.out <(${RUN:-} "$1"); }

check "make install" make --silent --no-print-directory install PREFIX="$root/prefix"
check "its files" installed
check "make install with DESTDIR" make --silent --no-print-directory install DESTDIR="$root/stage" PREFIX=/opt/pws
check "the same files" diff -r "$root/prefix" "$root/stage/opt/pws"

if command -v pkg-config >/dev/null; then
    check "the example by pkg-config" by_pkg_config
    check "it prints the same" prints_the_same "$root/by_pkg_config"
else
    echo "skipped: pkg-config is not installed"
fi

if command -v cmake >/dev/null; then
    check "a host that asks for another version" finds_no_other_version
    check "a host that asks for this minor version" finds "${version%.*}"
    check "a host for Arm" finds_none_for_arm
    check "the example by find_package" by_find_package
    check "it prints the same" prints_the_same "$root/consumer/two_yards"
    check "cmake --install" by_cmake
    check "the same files" diff -r "$root/prefix" "$root/by_cmake"
else
    echo "skipped: cmake is not installed"
fi
report
