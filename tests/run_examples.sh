#!/usr/bin/env bash
# Compiles each C program of examples/ with the header and the static library of the C doors, runs it, and
# compares what it writes with NAME.out beside it. With `store`, writes those files anew instead.
# Builds the library first, unless LIBDOORS names one. Needs rt and gcc, on x86-64; it is not part of the
# gate.
set -e
cd "$(dirname "${BASH_SOURCE[0]}")/.."
library=${LIBDOORS:-target/staticlib/libdoors.a}
mkdir -p target/examples
if [ -z "${LIBDOORS:-}" ]; then tools/build.sh doors > /dev/null; fi
count=0 failed=0
for source in examples/*.c; do
    name=$(basename "$source" .c)
    gcc -std=c11 -Wall -Wextra -Werror -pedantic -O1 -Iinclude "$source" "$library" -o "target/examples/$name"
    "target/examples/$name" > "target/examples/$name.out"
    if [ "${1:-}" = store ]; then cp "target/examples/$name.out" "examples/$name.out"; fi
    diff "examples/$name.out" "target/examples/$name.out" || failed=1
    count=$((count + 1))
done
if [ $failed = 1 ]; then
    echo "an example writes other than is stored beside it"
    exit 1
fi
echo "C examples that write what is stored: $count of $count"
