# Instructions a byte, for scripts that source this. They set `work`, a folder of theirs, `workloads`, and `lines`, where
# lines.py is.
# shellcheck shell=bash disable=SC2154

# counted WORD..: what callgrind counts of a command, after flags of callgrind
counted() {
    valgrind --tool=callgrind --callgrind-out-file=/dev/null "$@" 2>&1 > /dev/null |
        sed -n 's/.*Collected *: *\([0-9]*\).*/\1/p'
}
# count PROGRAM FLAG.. INPUT: the same of a program over an input
count() { counted "${@:2:$#-2}" "$1" < "${!#}"; }

# head_of_table NAME: makes 3 MB of lines of each workload, and 1 MB, and prints the head of the table
head_of_table() {
    local workload
    for workload in $workloads; do
        python3 "$lines" "${workload%-*}" "${workload#*-}" 3000000 > "$work/$workload-3"
        head -c 1000000 "$work/$workload-3" | sed '$d' > "$work/$workload-1"
    done
    printf '%-28s' "$1"
    printf '%12s' $workloads
    printf '\n'
}

# row NAME COMMAND WORD..: a row of the table. The command says how many instructions the input takes that is its last word.
row() {
    local workload few many bytes
    printf '%-28s' "$1"
    for workload in $workloads; do
        few=$work/$workload-1 many=$work/$workload-3
        bytes=$(($(stat -c %s "$many") - $(stat -c %s "$few")))
        awk -v a="$("${@:2}" "$few")" -v b="$("${@:2}" "$many")" -v n="$bytes" 'BEGIN { printf "%12.1f", (b - a) / n }'
    done
    printf '\n'
}
