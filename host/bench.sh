#!/bin/sh
# The library's calls against those of the reference, at 1,000, 10,000 and 40,000 lines, at 10,000 for a list full of zeros, for
# sizing and for a bucket's line, and at 10,000 and 40,000 for changes of a list, at 40,000 for a line that arrives as the last of
# so many: instructions a bucket, for sizing a call, counted by callgrind as the difference between one round and two, and
# nanoseconds, the best of several rounds. The growth is that of a bucket's cost from the size before, for library and reference:
# 1.00 is linear. Then the library's mean wait against its judging of the same list alone, a line, at 10,000 and 40,000 lines.
# Usage: bench.sh, six to seven minutes
set -e
cd "$(dirname "$0")"
cargo build --release --offline --locked --quiet -p bench
bench=target/release/bench

counted() {
    valgrind --tool=callgrind --callgrind-out-file=/dev/null "$bench" "$@" 2>&1 >/dev/null | sed -n 's/.*Collected : //p'
}

# side figures call n p layout copies lines
instructions() {
    buckets=$("$bench" "$@" 1)
    one=$(counted "$@" 1)
    two=$(counted "$@" 2)
    echo $(((two - one) / buckets))
}

ratio() {
    awk "BEGIN { printf \"%.2f\", $1 / $2 }"
}

# Those and nanoseconds, of library and reference: figures call n p layout copies lines
sides() {
    counts="$(instructions library "$@") $(instructions reference "$@")"
    times=$("$bench" time "$@")
}

# The library's, of the mean wait and of judging the list alone: likewise
against_judging() {
    figures=$1
    shift 2
    counts=
    times=
    for either in mean judge; do
        counts="$counts $(instructions library "$figures" $either "$@")"
        times="$times $("$bench" time "$figures" $either "$@" | cut -d ' ' -f 1)"
    done
}

# kind, aim, both figures, and both at the size before
cells() {
    printf ' | %8s %9s %5s %5s' "$3" "$4" "$(ratio "$3" "$4")" "$2"
    if [ "$5" ]; then
        printf ' %5s %5s' "$(ratio "$3" "$5")" "$(ratio "$4" "$6")"
    else
        printf '            '
    fi
}

# figures, call, its aim in instructions, n p layout copies
rows() {
    figures=$1
    call=$2
    aim=$3
    shift 3
    before=
    before_time=
    for lines in $sizes; do
        $measure "$figures" "$call" "$@" $lines
        printf '%-7s %-9s %6s' "$*" "$call" $lines
        cells instructions "$aim" $counts $before
        cells time "" $times $before_time
        echo
        before=$counts
        before_time=$times
    done
}

# title, unit, the names of both figures, that of the aim
header() {
    echo
    echo "$1"
    printf '%-24s | %-43s | %s\n' "" "instructions a $2" "nanoseconds a $2"
    printf '%-7s %-9s %6s' "n p l c" call lines
    printf ' | %8s %9s %5s %5s %11s' "$3" "$4" ratio "$5" growth
    printf ' | %8s %9s %5s %5s %11s\n' "$3" "$4" ratio "" growth
}

sides_header() {
    header "$1" bucket library reference aim
}

measure=sides
sizes="1000 10000 40000"
sides_header "A yard's list: tares of four or five digits, codes of three, weighing numbers of six"
rows yard build 2200 8 8 1 1
rows yard read_back 2300 8 8 1 1
rows yard step 2000 8 8 1 1
rows yard lookup - 8 8 1 1
rows yard build 600 2 1 1 4
rows yard read_back 700 2 1 1 4
rows yard step 1200 2 1 1 4
rows yard lookup - 2 1 1 4
rows yard build - 8 8 2 4
rows yard read_back - 8 8 2 4

sides_header "A list with figures of any length, 1 to 6 digits, in no order"
rows any build 2200 8 8 1 1
rows any read_back 2300 8 8 1 1
rows any step 2000 8 8 1 1
rows any lookup - 8 8 1 1
rows any build 600 2 1 1 4
rows any read_back 700 2 1 1 4
rows any step 1200 2 1 1 4
rows any lookup - 2 1 1 4

sizes=10000
sides_header "The yard's list with all columns full of zeros"
rows zeros build - 8 8 1 1
rows zeros build - 2 1 1 4

sizes="10000 40000"
sides_header "The yard's list: a line arrives at its front, and its first line is taken out"
rows yard arrive - 8 8 1 1
rows yard take_out - 8 8 1 1
rows yard arrive - 2 1 1 4
rows yard take_out - 2 1 1 4

sizes=10000
sides_header "The first line of each bucket, and, for a call, a cycle sized"
rows yard line - 8 8 1 1
rows yard line - 2 1 1 4
rows yard size - 8 8 1 1
rows yard size - 2 1 1 4
rows yard size - 8 8 2 4

measure=against_judging
sizes="10000 40000"
header "The mean wait; the limit is ten times the instructions of judging the list" line mean judging limit
rows yard mean 10 8 8 1 1
rows yard mean 10 2 1 1 4
rows yard mean 10 8 8 2 4

header "The same for the list full of zeros" line mean judging limit
rows zeros mean 10 8 8 1 1
