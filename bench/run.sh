#!/bin/sh
# Builds the library and the program, then compares and measures.
#   bench/run.sh [count] [seed]
# With MELLFRYD_LIB set, the library in that folder is taken as it is.
set -eu
here=$(cd "$(dirname "$0")" && pwd)
if [ -z "${MELLFRYD_LIB:-}" ]; then
    (cd "$here/../crates/hub_c" && rt lib)
fi
cd "$here"
cargo build --release --offline
target/release/bench compare "${1:-20000}" "${2:-1}"
target/release/bench time
