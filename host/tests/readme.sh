#!/usr/bin/env bash
# Every block of the README is tried. A C++ block is a whole program: it runs and succeeds, and the README has every line that it
# prints, between backticks. The first of them is unit.cpp, which the compiler's commands and the CMake block build. Of all other
# commands it is seen that they are there. readme.sh [FILE]
set -euo pipefail
readme=$(realpath "${1:-README.md}")
cd "$(dirname "$0")/../.."
. host/tests/check.sh
blocks=$PWD/target/host/readme

# cut LANGUAGE: each block of the language into a file of its own, numbered.
cut() {
    awk -v language="$1" -v to="$blocks" '$0 == "```" language { inside = 1; ++n; next } /^```$/ { inside = 0 }
        inside { print >(to "/" n "." language) }' "$readme"
}

says_what_it_prints() {
    ${RUN:-} "$1" | while read -r line; do
        grep -qF "\`$line\`" "$readme" || { echo "  not said: $line" && exit 1; }
    done
}

# The command of a line builds unit, in a folder that has unit.cpp beside what the README takes from its own folder.
builds_unit() {
    (cd "$blocks/from_here" && rm -f unit && PKG_CONFIG_PATH=$blocks/prefix/lib/pkgconfig bash -euc "$1") &&
        says_what_it_prints "$blocks/from_here/unit"
}

# built_by_cmake FOLDER: the folder's CMakeLists.txt, as it stands, builds unit at the compiler's own default standard.
built_by_cmake() {
    cmake -S "$1" -B "$1/build" -DCMAKE_PREFIX_PATH="$blocks/prefix" >/dev/null && cmake --build "$1/build" >/dev/null &&
        says_what_it_prints "$1/build/unit"
}

# The help has the line's command, which is its first two words: `rt all` of `rt all check`.
knows_command() {
    local words
    read -ra words <<<"$1"
    grep -qE "  rt (\\w+\\|)*${words[1]}\\b" <(rt help 2>&1)
}

try_command() {
    case $1 in
    make\ *) check "$1" bash -euc "make -n ${1#make } >/dev/null" ;;
    rt\ *) check "$1" knows_command "$1" ;;
    *pkg-config*) if command -v pkg-config >/dev/null; then check "$1" builds_unit "$1"; else echo "skipped: pkg-config is not installed"; fi ;;
    *g++\ *) check "$1" builds_unit "$1" ;;
    *) check "a command that is known: $1" false ;;
    esac
}

rm -rf "$blocks"
mkdir -p "$blocks/from_here" "$blocks/found" "$blocks/added"
for language in cpp sh cmake; do cut "$language"; done
check "five C++ blocks" test -s "$blocks/5.cpp"
for source in "$blocks"/*.cpp; do
    program=${source%.cpp}
    check "$program compiles" "${CXX:-g++}" -std=c++20 -Wall -Wextra -Werror -Ihost/include "$source" target/staticlib/libpws.a -o "$program"
    check "$program succeeds, and prints what is said" says_what_it_prints "$program"
done

make --silent --no-print-directory install PREFIX="$blocks/prefix"
for folder in from_here found added; do
    cp "$blocks/1.cpp" "$blocks/$folder/unit.cpp"
    ln -s "$PWD/host" "$PWD/target" "$blocks/$folder"
done
check "three blocks of commands" test -s "$blocks/3.sh"
# Without what is said behind it: a -n in a comment would not keep make from running the gate.
while read -r line; do
    try_command "${line/#g++/${CXX:-g++}}"
done < <(sed 's/ *#.*//' "$blocks"/*.sh)

check "a CMake block" test -s "$blocks/1.cmake"
if command -v cmake >/dev/null; then
    cp "$blocks/1.cmake" "$blocks/found/CMakeLists.txt"
    sed 's/^find_package(pws.*/add_subdirectory(host)/' "$blocks/1.cmake" >"$blocks/added/CMakeLists.txt"
    check "the CMake block, with the library installed" built_by_cmake "$blocks/found"
    check "the CMake block, with this folder added" built_by_cmake "$blocks/added"
else
    echo "skipped: cmake is not installed"
fi
report
