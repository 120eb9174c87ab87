#!/usr/bin/env bash
# Holds include/furzewrench.h and the static library of the C doors to each other:
#   - tests/doors.c over tests/doors.h, whose declarations are those of the header: the answers of each door,
#     and again under valgrind where that is there;
#   - the header, in two translation units of one program, as C99 and as C++11;
#   - tests/doors_header.c, the same over the header, and more;
#   - tests/costs.c, stack and threads, by the bounds that the header tells;
#   - the archive's symbols: it needs memset alone, and has no data that can be written.
# Builds the library first, unless LIBDOORS names one. Needs rt, gcc, g++ and nm, on x86-64; it is not part of
# the gate.
set -e
cd "$(dirname "${BASH_SOURCE[0]}")/.."
library=${LIBDOORS:-target/staticlib/libdoors.a}
mkdir -p target
if [ -z "${LIBDOORS:-}" ]; then tools/build.sh doors > /dev/null; fi
strict=(-Wall -Wextra -Werror -pedantic -O1 -Iinclude)

memory='valgrind is not there'
answers() { # NAME ARGUMENT..
    local test=target/$1_test
    gcc -std=c11 "${strict[@]}" "${@:2}" "tests/$1.c" "$library" -o "$test"
    said=$("$test") || { echo "$said"; exit 1; }
    if command -v valgrind > /dev/null; then
        valgrind --quiet --error-exitcode=9 --leak-check=full "$test" > "$test.log" 2>&1 \
            || { cat "$test.log"; exit 1; }
        memory='the same under memcheck'
    fi
}
answers doors -include furzewrench.h
echo "by tests/doors.h: $said"

for language in 'gcc -std=c99' 'g++ -std=c++11 -x c++'; do
    $language "${strict[@]}" -c tests/header.c -o target/header_first.o
    $language "${strict[@]}" -DSECOND -c tests/header.c -o target/header_second.o
    g++ target/header_first.o target/header_second.o "$library" -o target/header_test
    echo "$language: $(target/header_test)"
done

symbols=$(nm "$library")
needed=$(awk '$1 == "U" { print $2 }' <<< "$symbols" | sort -u)
written=$(awk '$2 ~ /^[bBcCdDgGsS]$/ { print $3 }' <<< "$symbols")
if [ "$needed" != memset ] || [ -n "$written" ]; then
    echo "the archive needs: $needed; it has data that can be written: $written"
    exit 1
fi
echo "the archive needs memset alone, and has no data that can be written"

gcc -std=c11 "${strict[@]}" -pthread tests/costs.c "$library" -o target/costs
target/costs

answers doors_header
echo "$said; $memory; the header as C99 and C++11; stack and threads as it says"
