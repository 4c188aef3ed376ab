#!/usr/bin/env bash
# Builds the examples, the guard test and the test of lists against the library, and runs them; where valgrind is at hand, also counts.sh.
# Usage: panel/test.sh [LIBRARY]
# LIBRARY is crates/panel/out/libpanel.a of the repository if not given. Products go to target/panel.
set -eu
root=$(cd "$(dirname "$0")/.." && pwd)
lib=$(realpath "${1:-$root/crates/panel/out/libpanel.a}")
cd "$root"
if [ ! -f "$lib" ]; then
    echo "no library: $lib" >&2
    exit 1
fi
made=target/panel
mkdir -p "$made"

for example in example gates; do
    gcc -O2 -Wall -Wextra -Werror panel/$example.c "$lib" -o $made/$example
done
gcc -O2 -Wall -Wextra -Werror -Ipanel panel/guard/*.c "$lib" -o $made/guard
gcc -O2 -Wall -Wextra -Werror -Ipanel -Ipanel/guard panel/lists/*.c panel/guard/{cases,count,draw,pages,rows}.c "$lib" -o $made/lists

# The header from C++: names must link as C's.
cat > $made/header.cc <<'END'
#include "panel.h"
#include "panel.h"
int main()
{
    panel_checked c = panel_check(nullptr, 0, nullptr, 0);
    panel_printed m = panel_measure(nullptr, 0, nullptr, 0);
    panel_printed p = panel_print(nullptr, 0, nullptr, 0, nullptr, 0, nullptr, 0);
    static panel_list list;
    uint64_t lengths[PANEL_MOST_PIECES];
    panel_list_empty(&list);
    panel_changed j = panel_list_join(&list, 1, nullptr, 0, nullptr, 0);
    panel_changed l = panel_list_leave(&list, 1);
    panel_list_lengths(&list, lengths);
    return !(c.number == 0 && m.number == 14 && p.number == 14 && j.number == 14 && l.number == 20 && lengths[0] == 0);
}
END
g++ -O2 -Wall -Wextra -Werror -pedantic -Ipanel $made/header.cc "$lib" -o $made/header
$made/header
echo "header: builds and links from C++"

for example in example gates; do
    $made/$example > $made/$example.out
    cmp panel/$example.out $made/$example.out
    echo "$example: output as stored"
done

if command -v valgrind > /dev/null; then
    for example in example gates; do
        valgrind --error-exitcode=1 -q $made/$example > $made/$example.valgrind.out
        cmp panel/$example.out $made/$example.valgrind.out
        echo "$example: no error under valgrind"
    done
    panel/counts.sh "$lib"
else
    echo "examples: valgrind not found, not run under it; instructions not counted"
fi

$made/guard
$made/lists
