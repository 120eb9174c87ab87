# Sourced by run.sh and count.sh: looks for what is needed, and builds the static library of the doors unless
# LIBDOORS names one. What is missing is told in one line, before anything is built.
[ -z "${FORMAT_RS:-}" ] || FORMAT_RS=$(realpath -m "$FORMAT_RS")
[ -z "${LIBDOORS:-}" ] || LIBDOORS=$(realpath -m "$LIBDOORS")
cd "$(dirname "${BASH_SOURCE[0]}")/.." || exit 1
export FORMAT_RS LIBDOORS
FORMAT_RS=$(harness/find_format.sh) || exit 1
if [ -n "${LIBDOORS:-}" ]; then
    # the Rust crate links it by this name
    if [ "${LIBDOORS##*/}" != libdoors.a ] || [ ! -f "$LIBDOORS" ]; then
        echo "no libdoors.a at $LIBDOORS: LIBDOORS names one" >&2
        exit 1
    fi
else
    tools/build.sh doors > /dev/null || exit 1
    LIBDOORS=$PWD/target/staticlib/libdoors.a
fi
# where the Rust crate over the doors, which the harness depends on, looks for the library
FURZEWRENCH_LIB_DIR=$(dirname "$LIBDOORS")
export FURZEWRENCH_LIB_DIR
cd harness || exit 1
