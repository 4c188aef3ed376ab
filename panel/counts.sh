#!/usr/bin/env bash
# A digit's letter is made without a jump: values with the same number of digits run the same instructions, each the same number of times, whatever the
# digits; and what more digits add is the same in small letters and capitals. Counted by valgrind's callgrind, instruction by instruction. A table would
# pass: .ci/straight looks for one. Usage: panel/counts.sh LIBRARY. Products go to target/panel.
set -euo pipefail
lib=$(realpath "$1")
cd "$(dirname "$0")/.."
made=target/panel
mkdir -p "$made"
gcc -O2 -no-pie -Wall -Wextra -Werror panel/counted.c "$lib" -o $made/counted

# FORMAT KIND BITS TEXT: one call, which must print the text. Leaves each instruction's address and count in counted.now. LD_BIND_NOW: the loader looks for
# memcpy and the like at the start, not within the call.
run() {
    LD_BIND_NOW=1 valgrind --tool=callgrind --dump-instr=yes --compress-pos=no --toggle-collect=panel_print \
        --callgrind-out-file=$made/counted.trace $made/counted "$1" "$2" "$3" > $made/counted.text 2> $made/counted.err || {
        cat $made/counted.err >&2
        exit 1
    }
    if [ "$(cat $made/counted.text)" != "$4" ]; then
        echo "error: $1 printed $(cat $made/counted.text), not $4" >&2
        exit 1
    fi
    grep '^0x' $made/counted.trace | sort > $made/counted.now || {
        echo "error: nothing was counted for $1" >&2
        exit 1
    }
}

failed=0
# FORMAT KIND BITS TEXT [BITS TEXT]...: all run what the first runs.
same() {
    local format=$1 kind=$2 first=$4 values=0 other=0
    shift 2
    while [ $# -gt 0 ]; do
        run "$format" "$kind" "$1" "$2"
        [ $values -gt 0 ] || cp $made/counted.now $made/counted.first
        if ! cmp -s $made/counted.first $made/counted.now; then
            echo "error: $format runs other instructions for $2 than for $first" >&2
            failed=1 other=1
        fi
        values=$((values + 1))
        shift 2
    done
    [ $other != 0 ] || echo "counts: $format runs the same instructions for $values values"
}

# FORMAT DIGITS...: 64-bit integers, as these digits.
integers() {
    local format=$1 digits words=()
    shift
    for digits in "$@"; do
        case $format in
            %d | %,d) words+=("$(printf %x "${digits//,/}")" "$digits") ;;
            %o) words+=("$(printf %x "0$digits")" "$digits") ;;
            *) words+=("$digits" "$digits") ;;
        esac
    done
    same "$format" 4 "${words[@]}"
}

# FORMAT KIND BITS TEXT BITS TEXT: how often each instruction runs more for the second value, at a call also what runs within it; an address and a number
# to a line.
added() {
    run "$1" "$2" "$3" "$4"
    mv $made/counted.now $made/counted.few
    run "$1" "$2" "$5" "$6"
    awk 'FNR == NR { n[$1] -= $NF; next } { n[$1] += $NF } END { for (a in n) if (n[a]) print a, n[a] }' $made/counted.few $made/counted.now | sort
}

# SMALL CAPITAL KIND BITS TEXT BITS TEXT: the second value, of more digits, adds the same under both formats. The texts are those of the first.
alike() {
    local small=$1 capital=$2
    shift 2
    added "$small" "$@" > $made/counted.small
    added "$capital" "$1" "$2" "${3^^}" "$4" "${5^^}" > $made/counted.capital
    if [ -s $made/counted.small ] && cmp -s $made/counted.small $made/counted.capital; then
        echo "counts: more digits add the same instructions under $small and $capital"
    else
        echo "error: more digits add other instructions under $small than under $capital" >&2
        failed=1
    fi
}

integers %x 1111111111111111 1a2b3c4d5e6f7a8b 1000000000000000 7999999999999999 7fffffffffffffff
integers %X 1111111111111111 1A2B3C4D5E6F7A8B 1000000000000000 7999999999999999 7FFFFFFFFFFFFFFF
integers %x 1111111 1a2b3c4 1000000 9999999 fffffff
integers %X 1111111 1A2B3C4 1000000 9999999 FFFFFFF
integers %d 1111111 1234567 1000000 9999999
integers %,d 1,111,111 1,234,567 1,000,000 9,999,999
integers %o 1111111 1234567 1000000 7777777
same %a 5 3ff1111111111111 0x1.1111111111111p0 3ff1a2b3c4d5e6f7 0x1.1a2b3c4d5e6f7p0 3ff0000000000001 0x1.0000000000001p0 \
    3ff9999999999999 0x1.9999999999999p0 3fffffffffffffff 0x1.fffffffffffffp0
same %A 5 3ff1111111111111 0X1.1111111111111P0 3ff1a2b3c4d5e6f7 0X1.1A2B3C4D5E6F7P0 3ff0000000000001 0X1.0000000000001P0 \
    3ff9999999999999 0X1.9999999999999P0 3fffffffffffffff 0X1.FFFFFFFFFFFFFP0
alike %x %X 4 1a2b3c4 1a2b3c4 1a2b3c4d5 1a2b3c4d5
alike %a %A 5 3ff1a2b3c4d50000 0x1.1a2b3c4d5p0 3ff1a2b3c4d5e600 0x1.1a2b3c4d5e6p0
exit $failed
