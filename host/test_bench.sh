#!/usr/bin/env bash
# host/test_bench.sh BENCH BENCH2 COMMAND: the two small programs, of form one and of form two, on the examples, on refused
# sheets and on input of any length and pace. What they should print is written out by hand, to the byte. Of a walk the
# lines are made a sheet again, which the command's checker has to accept: several walks may stand. All programs run
# through tools/x86.
set -u

cd "$(dirname "$(readlink -f "${BASH_SOURCE[0]}")")/.." || exit 2
usage='usage: host/test_bench.sh BENCH BENCH2 COMMAND'
benches=([1]="${1:?$usage}" [2]="${2:?$usage}") command=${3:?$usage}
folder=$(mktemp -d) || exit 2
trap 'rm -rf "$folder"' EXIT
. host/checks.sh

# The form at hand.
form=1

# The program's input is this function's. A stop in front of each status shows where the printed bytes end.
prints() { # NAME LINES..
    local name=$1 said
    shift
    said=$(timeout 60 tools/x86 run "${benches[form]}" 2>&1; echo ".status $?")
    expect "form $form: $name" "$said" "$(printf '%s\n' "$@"; echo '.status 0')"
}

bytes() { printf "$(printf '\\x%s' "$@")"; } # HEX..

rising() { # COUNT
    local entry
    bytes "$(printf '%02x' "$1")"
    for ((entry = 0; entry < $1; entry++)); do bytes "$(printf '%02x' "$entry")"; done
}

two() { bytes "$(printf '%02x' $(($1 % 256)))" "$(printf '%02x' $(($1 / 256)))"; } # NUMBER

zeros() { printf '%*s' "$1" '' | tr ' ' 0; } # COUNT

# So many sets of the same terms, from 0 rising.
sets() { # COUNT TERMS
    local set
    two "$1"
    rising "$2" >"$folder/set"
    for ((set = 0; set < $1; set++)); do cat "$folder/set"; done
}

# The longest job sheet of form one: 12 wires, 8 seen by each cell, 256 rules of all 28 terms, which always hold.
longest() {
    rising 12
    rising 8
    rising 8
    sets 256 28
}

walks() { # JOB
    local heading claim combination count
    tools/x86 run "${benches[form]}" <"$1" >"$folder/printed"
    {
        read -r heading
        count=0
        while read -r claim combination; do
            two "$claim"
            two "$combination"
            count=$((count + 1))
        done >"$folder/entries"
    } <"$folder/printed"
    expect "form $form: $1: heading" "$heading" walk
    { bytes 00 00 00 00; two "$count"; cat "$folder/entries"; } >"$folder/sheet"
    expect "form $form: $1: checked" \
        "$(tools/x86 run "$command" check --form "$form" "$1" "$folder/sheet" >/dev/null 2>&1; echo "status $?")" 'status 0'
}

form_one() {
    local job
    prints J1 tables 'A 0' 'B 0' <examples/J1.job
    prints J2 tables 'A 00' 'B 11' <examples/J2.job
    prints J5 tables 'A 0' 'B 1' <examples/J5.job
    prints J6 tables 'A 0' 'B 01' <examples/J6.job
    for job in J3 J4 J7 counter speed; do walks "examples/$job.job"; done

    prints 'no byte' 'refused 1 1 0' </dev/null
    prints 'thirteen wires' 'refused 2 1 0' < <(bytes 0d)
    prints 'equal pins' 'refused 3 1 2' < <(bytes 02 07 07)
    prints 'a wire that is not there' 'refused 4 1 3' < <(bytes 01 04 01 01 00)
    prints 'J1 and one byte more' 'refused 5 1 5' < <(cat examples/J1.job; bytes 00)
    prints '257 rules' 'refused 2 1 3' < <(bytes 00 00 00 01 01)

    longest >"$folder/longest"
    expect 'the longest job' "$(wc -c <"$folder/longest" | tr -d ' ')" 7457
    prints 'the longest job' tables "A $(zeros 256)" "B $(zeros 256)" <"$folder/longest"
    prints 'the longest job and one byte more' 'refused 5 1 7457' < <(cat "$folder/longest"; bytes 00)
    prints 'the longest job twice' 'refused 5 1 7457' < <(cat "$folder/longest" "$folder/longest")
    prints 'input without an end' 'refused 5 1 5' </dev/zero
    prints 'input in two parts' tables 'A 00' 'B 11' < <(head -c 5 examples/J2.job; sleep 0.2; tail -c +6 examples/J2.job)
}

# A sheet of form one with no excuses.
with_none() { cat "examples/$1.job"; bytes 00 00; } # NAME

form_two() {
    local job
    prints J1 tables 'A 0' 'B 0' < <(with_none J1)
    prints J2 tables 'A 00' 'B 11' < <(with_none J2)
    prints J5 tables 'A 0' 'B 1' < <(with_none J5)
    prints J6 tables 'A 0' 'B 01' < <(with_none J6)
    for job in J3 J4 J7; do
        with_none "$job" >"$folder/$job"
        walks "$folder/$job"
    done
    walks examples/speed.two.job
    prints 'never both' tables 'A 01' 'B 01' <examples/speed-excused.two.job
    prints 'the first never' tables 'A 00' 'B 01' < <(cat examples/speed.job; bytes 01 00 01 00)
    prints 'J4, all excused' tables 'A 0' 'B 0' < <(cat examples/J4.job; bytes 01 00 00)

    prints 'no byte' 'refused 1 1 0' </dev/null
    prints 'thirteen wires' 'refused 2 1 0' < <(bytes 0d)
    prints 'a sheet of form one' 'refused 1 1 18' <examples/speed.job
    prints 'half of the count' 'refused 1 1 19' < <(cat examples/speed.job; bytes 41)
    prints '65 excuses' 'refused 2 1 18' < <(cat examples/speed.job; bytes 41 00)
    prints 'five terms of two wires' 'refused 2 1 20' < <(cat examples/speed.job; bytes 01 00 05)
    prints 'equal terms' 'refused 3 1 22' < <(cat examples/speed.job; bytes 01 00 02 02 02)
    prints "a cell's term" 'refused 4 1 21' < <(cat examples/speed.job; bytes 01 00 01 04)
    prints 'one byte more' 'refused 5 1 23' < <(cat examples/speed-excused.two.job; bytes 00)

    # 64 excuses of all 24 terms, which never hold.
    { longest; sets 64 24; } >"$folder/longest"
    expect 'form 2: the longest job' "$(wc -c <"$folder/longest" | tr -d ' ')" 9059
    prints 'the longest job' tables "A $(zeros 256)" "B $(zeros 256)" <"$folder/longest"
    prints 'the longest job without its last byte' 'refused 1 1 9058' < <(head -c 9058 "$folder/longest")
    prints 'the longest job and one byte more' 'refused 5 1 9059' < <(cat "$folder/longest"; bytes 00)
    prints 'the longest job twice' 'refused 5 1 9059' < <(cat "$folder/longest" "$folder/longest")
    prints 'input without an end' 'refused 5 1 7' </dev/zero
    prints 'input in two parts' tables 'A 01' 'B 01' \
        < <(head -c 20 examples/speed-excused.two.job; sleep 0.2; tail -c +21 examples/speed-excused.two.job)
}

form_one
form=2
form_two
finish bench
