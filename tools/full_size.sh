#!/usr/bin/env bash
# Runs the built program on inputs of full size, which take it more than two seconds, and compares what it writes.
# Run it at the top of the repository, after a first proof (./chichek builds the program). Its status is 1 where a case fails.
set -u
top="$(cd "$(dirname "$(readlink -f "$0")")/.." && pwd)"
work="$(mktemp -d)"
trap 'rm -rf "$work"' EXIT
cd "$work" || exit 1
cp "$top"/examples/*.lat "$top"/examples/solo.view "$top"/examples/long.view .
passed=0
failed=0

# check_case NAME STATUS EXPECTED_OUT EXPECTED_ERR WORDS..
check_case() {
    local name="$1" status="$2" out="$3" err="$4"
    shift 4
    "$top/chichek" "$@" >got.out 2>got.err
    local got=$?
    if [ "$got" -eq "$status" ] && cmp -s got.out "$out" && cmp -s got.err "$err"; then
        passed=$((passed + 1))
    else
        failed=$((failed + 1))
        echo "$name: status $got, expected $status"
        cmp got.out "$out"
        cmp got.err "$err"
    fi
}

# wide COUNT INIT: a view and a map of so many variables of two values, and what begins at INIT.
wide() {
    local count="$1" init="$2" k
    {
        printf 'view wide\nlattice two.lat\n'
        for ((k = 0; k < count; k++)); do echo "var b$k 0 1"; done
        printf 'init %s\nprop p T when b0=1\n' "$init"
        echo 'command set with T when b0=0 do b0:=1'
    } >wide.view
    {
        printf 'map wide\nuse wide wide.view\n'
        for ((k = 0; k < count; k++)); do echo "var b$k 0 1"; done
        echo 'prop p'
        for ((k = 0; k < count; k++)); do echo "send wide b$k b$k"; done
        echo 'tell wide p p'
    } >wide.map
}

: >empty
echo 'EX p' >ex.ctl

# 4,096 states, all of them initial: where b0 is 0 there is a step to where it is 1.
wide 12 true
{
    printf 'map wide states 4096 elements 2 height 1 initial 4096\nformula 1 EX p\n'
    for ((code = 0; code < 4096; code++)); do
        row="value $code"
        for ((k = 0; k < 12; k++)); do row+=" b$k=$(((code >> (11 - k)) & 1))"; done
        if ((code < 2048)); then echo "$row T"; else echo "$row F"; fi
    done
    echo 'share wide F=2048 T=2048'
} >expected
check_case "4,096 initial states" 0 expected empty check wide.map ex.ctl

# Twelve generated bits have 4,096 states. For the number 7 the weights of left are T T T M T T T T M T T T, and those of right
# N T T T T B T N T T T T, whose meets are M and F.
{
    zeros=""
    for ((k = 0; k < 12; k++)); do zeros+=" b$k=0"; done
    left='share left F=0 M=1 T=0'
    right='share right F=1 N=0 B=0 T=0'
    echo 'map gen states 4096 elements 12 height 4 initial 1'
    printf 'formula 1 E[true U last]\nrounds 2 EU 13\nvalue 0%s M,F\n%s\n%s\n' "$zeros" "$left" "$right"
    printf 'formula 2 EG!last\nrounds 2 EG 13\nvalue 0%s F,F\nshare left F=1 M=0 T=0\n%s\n' "$zeros" "$right"
    printf 'formula 3 A[true U last]\nrounds 2 AU 13\nvalue 0%s M,F\n%s\n%s\n' "$zeros" "$left" "$right"
    printf 'formula 4 !E[true U!E[true U last]]\nrounds 3 EU 13\nrounds 5 EU 1\nvalue 0%s M,F\n%s\n%s\n' "$zeros" "$left" "$right"
} >expected
check_case "twelve generated bits" 0 expected empty gen 7 12

# Twenty generated bits have more states than there may be.
echo 'refused states 1048576' >expected
check_case "twenty generated bits" 3 empty expected gen 7 20

# A chain of 64 elements, the most that a lattice may have.
echo 'lattice long elements 64 height 63 bottom e0 top e63' >expected
check_case "a chain of 64 elements" 0 expected empty lattice long.lat

# long_map two | third: two viewpoints over that chain, which take their first step to e1, and maybe a third viewpoint.
long_map() {
    {
        printf 'map long\nuse ann long.view\nuse ben long.view\n'
        [ "$1" = third ] && echo 'use cat solo.view'
        printf 'var x 0 1\nprop p\nsend ann x x\nsend ben x x\ntell ann p p\ntell ben p p\n'
        [ "$1" = third ] && printf 'send cat x x\ntell cat p p\n'
    } >long.map
}

# Two viewpoints over it have 4,096 elements, the most that a product may have.
long_map two
{
    printf 'map long states 2 elements 4096 height 126 initial 1\nformula 1 EX p\nvalue 0 x=0 e1,e1\n'
    for viewpoint in ann ben; do
        row="share $viewpoint"
        for ((k = 0; k < 64; k++)); do row+=" e$k=$((k == 1))"; done
        echo "$row"
    done
} >expected
check_case "two chains of 64 elements" 0 expected empty check long.map ex.ctl

# A third viewpoint over two elements makes them too many.
long_map third
echo 'refused product 8192' >expected
check_case "two chains of 64 elements and one of two" 3 empty expected check long.map ex.ctl

echo "$passed cases passed, $failed failed"
[ "$failed" -eq 0 ]
