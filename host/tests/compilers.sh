#!/usr/bin/env bash
# The headers compile without a warning: pws.h as C, each C++ header alone and the examples as C++20 with and without
# exceptions, by each compiler that is installed. What they are not for is refused with a sentence.
set -euo pipefail
cd "$(dirname "$0")/../.."
. host/tests/check.sh
warnings=(-Wall -Wextra -Wpedantic -Wconversion -Werror -fsyntax-only)

for with in "${CXX:-g++}" "${CLANG:-clang++}"; do
    read -ra compiler <<<"$with"
    if ! command -v "${compiler[0]}" >/dev/null; then
        echo "skipped: ${compiler[0]} is not installed"
        continue
    fi
    check "pws.h, $with, C11" "${compiler[@]}" -x c -std=c11 "${warnings[@]}" host/include/pws.h
    for language in -fexceptions "-fno-exceptions -fno-rtti"; do
        read -ra flags <<<"-std=c++20 $language"
        for header in host/include/*.hpp; do
            check "$header alone, $with $language" "${compiler[@]}" -x c++ "${flags[@]}" "${warnings[@]}" "$header"
        done
        for example in host/example/*.cpp; do
            check "$example, $with $language" "${compiler[@]}" "${flags[@]}" "${warnings[@]}" -Ihost/include "$example"
        done
    done
done

# says SENTENCE COMMAND..: the compiler refuses, and an #error says why.
says() {
    local sentence=$1
    shift
    ! "$@" 2>target/host/refused.txt && grep -qF "$sentence" target/host/refused.txt
}
read -ra compiler <<<"${CXX:-g++}"
check "pws.hpp below C++20" says "pws.hpp is for C++20 and later" "${compiler[@]}" -x c++ -std=c++17 -fsyntax-only host/include/pws.hpp
check "pws.h for another processor" says "code for x86-64 alone" "${compiler[@]}" -x c -U__x86_64__ -fsyntax-only host/include/pws.h
report
