#!/usr/bin/env bash
# No method of the formatter may fall out of the layout's loop: in a method that the compiler does not compile into it the
# state is read from memory and stored again. So the archive has no symbol of one, and `write_lexeme`, which is
# compiled by itself so that the methods stay small, is there. Builds the archive first, unless LIBDOORS names one. Needs rt
# and nm; it is not part of the gate.
set -e
cd "$(dirname "${BASH_SOURCE[0]}")/.."
library=${LIBDOORS:-target/staticlib/libdoors.a}
if [ -z "${LIBDOORS:-}" ]; then tools/build.sh doors > /dev/null; fi
symbols=$(nm "$library" | awk '{ print $3 }')
fallen=$(grep '^formatter::' <<< "$symbols" || true)
if [ -n "$fallen" ]; then
    printf 'these are not compiled into the loop:\n%s\n' "$fallen"
    exit 1
fi
if ! grep -q '::write_lexeme$' <<< "$symbols"; then
    echo "write_lexeme is compiled into its callers"
    exit 1
fi
echo "ok: no method of the formatter stands outside the loop"
