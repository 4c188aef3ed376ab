#!/usr/bin/env bash
# Makes target/panel/libpanel.so, a loadable form of the library for other tools, with the loop over rows of the command `line`.
# Usage: panel/shared.sh [LIBRARY]; LIBRARY is crates/panel/out/libpanel.a of the repository if not given.
set -eu
root=$(cd "$(dirname "$0")/.." && pwd)
lib=$(realpath "${1:-$root/crates/panel/out/libpanel.a}")
cd "$root"
mkdir -p target/panel
gcc -shared -fPIC -O2 -Wall -Wextra -Werror -Ipanel tools/crew/rows.c -Wl,-soname,libpanel.so -Wl,-z,defs -Wl,-z,text \
    -Wl,--whole-archive "$lib" -Wl,--no-whole-archive -o target/panel/libpanel.so.new
mv target/panel/libpanel.so.new target/panel/libpanel.so
echo "target/panel/libpanel.so"
