#!/usr/bin/env bash
# host/test_command.sh PROGRAM: the command on the examples and on every kind of error, its exit status and its words.
# What it should say of the examples, of texts and of archives is written out by hand. The errors are those of use, of files
# that can't be read, and of sheets that can't be written; a target that was there must stay whole, and nothing may lie
# beside it.
# PROGRAM is the command, plain or sanitized; it runs through tools/x86.
set -u

cd "$(dirname "$(readlink -f "${BASH_SOURCE[0]}")")/.." || exit 2
program=${1:?usage: host/test_command.sh PROGRAM}
folder=$(mktemp -d) || exit 2
trap 'chmod -R u+rwx "$folder"; rm -rf "$folder"' EXIT
input=/dev/null
asks_more='job Q asks more than job P: other pins, a wire less, a rule that contains no rule of P, or an excuse of P'
asks_more="$asks_more that contains no excuse of Q"
ends='job ends where a byte is called for'
lost='job has excuses, which a sheet of form 1 cannot hold'
# What the speed wires' job holds, in either form.
speed=('wires 2, on pins 2 3' 'A sees wires 0, rows 2' 'B sees wires 1, rows 2' 'rules 3' \
    'rule 0: wire 0 is 0 or A is 1' 'rule 1: wire 1 is 0 or B is 1' 'rule 2: A is 0 or B is 0')
. host/checks.sh

ormsvelg() { tools/x86 run "$program" "$@"; }

# An outcome: its status and all its words, and nothing on standard error. The words before -- are lines.
says() { # STATUS LINES -- ARGS
    local status=$1 lines=() said
    shift
    while [ "$1" != -- ]; do lines+=("$1"); shift; done
    shift
    said=$(ormsvelg "$@" <"$input" 2>"$folder/errors"; echo "status $?")
    expect "$*" "$said" "$(printf '%s\n' "${lines[@]}" "status $status")"
    expect "$*: standard error" "$(cat "$folder/errors")" ''
}

# Tables that break a rule: the combination, its wires, and the lines of the rule, of A and of B.
breaks() { # COMBINATION WIRES LINES -- ARGS
    says 1 "refused: code 10 on sheet 2 at combination $1: tables break a rule" "broken at $2" "${@:3}"
}

# An error: status 2, nothing on standard output, and a first line that says why.
fails() { # FIRST_LINE -- ARGS
    local line=$1 said
    shift 2
    said=$(ormsvelg "$@" <"$input" 2>"$folder/errors"; echo "status $?")
    expect "$*" "$said" 'status 2'
    expect "$*: standard error" "$(head -n 1 "$folder/errors")" "ormsvelg: $line"
}

bytes() { printf "$(printf '\\x%s' "$@")"; } # HEX..

# A text, with its escapes, that is refused: what is said of it.
refused_text() { # SAID TEXT
    printf '%b' "$2" >"$folder/text"
    says 1 "refused: $1" -- write "$folder/text"
}

# A text, with its escapes, that makes the sheet of these bytes.
makes() { # TEXT HEX..
    local text=$1 said
    shift
    printf '%b' "$text" >"$folder/text"
    said=$(ormsvelg write "$folder/text" -o "$folder/made" 2>&1)
    expect "a text: $text" "$? ${said%%$'\n'*}" "0 sheet of $# bytes"
    expect "a text: $text: the sheet" "$(bytes "$@" | cmp - "$folder/made" && echo same)" same
    rm -f "$folder/made"
}

# The sheet that a text, with its escapes, describes.
described() { # TEXT
    printf '%b' "$1" >"$folder/text"
    ormsvelg write "$folder/text" -o "$folder/described" >/dev/null
    cat "$folder/described"
    rm -f "$folder/described"
}

# An archive that is moved: the status, the counts in one word of lines, and on standard error a line for each file.
archives() { # STATUS COUNTS LINES -- ARGS
    local status=$1 counts=$2 lines=() said
    shift 2
    while [ "$1" != -- ]; do lines+=("$1"); shift; done
    shift
    said=$(ormsvelg move-all "$@" 2>"$folder/errors"; echo "status $?")
    expect "move-all $*" "$said" "$(printf '%b\nstatus %s' "$counts" "$status")"
    expect "move-all $*: each file" "$(cat "$folder/errors")" "$(printf '%s\n' "${lines[@]}")"
}

same() { # NAME FILE FILE
    expect "$1: the bytes" "$(cmp "$2" "$3" && echo same)" same
}

# The folder for answers holds these names and no more.
holds() { # NAME NAMES..
    local name=$1
    shift
    expect "$name: files" "$(LC_ALL=C ls -A "$folder/out" | tr '\n' ' ')" "$(printf '%s ' "$@")"
}

examples() {
    says 0 accepted 'wires 0' 'A sees no wires, rows 1' 'B sees no wires, rows 1' 'rules 0' -- read examples/J1.job
    says 0 accepted 'wires 1, on pins 4' 'A sees wires 0, rows 2' 'B sees wires 0, rows 2' 'rules 2' \
        'rule 0: A is 1 or B is 1' 'rule 1: A is 0 or B is 0' -- read examples/J2.job
    says 0 accepted 'wires 0' 'A sees no wires, rows 1' 'B sees no wires, rows 1' 'rules 1' \
        'rule 0: never holds' -- read examples/J4.job
    says 0 accepted 'wires 4, on pins 2 3 5 8' 'A sees wires 1 2, rows 4' 'B sees wires 0 1 3, rows 8' 'rules 6' \
        'rule 0: wire 1 is 0 or A is 1' 'rule 1: wire 2 is 0 or A is 1' 'rule 2: wire 1 is 1 or wire 2 is 1 or A is 0' \
        'rule 3: wire 0 is 1 or B is 0' 'rule 4: A is 0 or B is 0' \
        'rule 5: wire 0 is 0 or wire 3 is 0 or A is 1 or B is 1' -- read examples/counter.job
    says 0 'tables fit' 'A 0' 'B 0' -- solve examples/J1.job
    says 0 'tables fit' 'A 00' 'B 11' -- solve examples/J2.job
    says 0 'tables fit' 'A 0' 'B 1' -- solve examples/J5.job
    says 0 'tables fit' 'A 0' 'B 01' -- solve examples/J6.job
    says 0 'tables fit' 'A 0111' 'B 0000000001000000' -- solve examples/counter-mended.job
    says 0 'tables fit' 'A 0111' 'B 0000000001000000' -- check examples/counter-mended.job examples/counter-mended.answer
    says 0 'tables fit' 'A 00' 'B 01' -- widen examples/J6.job examples/J6.wide.job examples/J6.answer
}

# Several walks may stand, so the solver's own is only checked; the papers' are written out.
walks() {
    local job
    says 0 'walk stands: no pair of tables fits' 'A row 0 is 0, so B row 0 is 0, by no wires' \
        'B row 0 is 0, so A row 0 is 1, by no wires' 'A row 0 is 1, so B row 0 is 0, by no wires' \
        'B row 0 is 0, so A row 0 is 0, by no wires' -- check examples/J4.job examples/J4.walk.answer
    says 0 'walk stands: no pair of tables fits' 'B row 0 is 0, so A row 0 is 1, by wires 0=1' \
        'A row 0 is 1, so B row 0 is 1, by wires 0=1' 'B row 0 is 1, so A row 0 is 1, by wires 0=0' \
        'A row 0 is 1, so B row 0 is 0, by wires 0=0' -- check examples/J7.job examples/J7.walk.answer
    says 0 'walk stands: no pair of tables fits' 'A row 0 is 0, so B row 1 is 1, by wires 0=0 1=1' \
        'B row 1 is 1, so A row 1 is 1, by wires 0=1 1=1' 'A row 1 is 1, so B row 1 is 0, by wires 0=1 1=1' \
        'B row 1 is 0, so A row 0 is 1, by wires 0=0 1=1' 'A row 0 is 1, so B row 0 is 1, by wires 0=0 1=0' \
        'B row 0 is 1, so A row 0 is 0, by wires 0=0 1=0' -- check examples/J3.job examples/J3.walk.answer
    for job in J3 J4 J7 counter speed; do
        expect "$job solved" "$(ormsvelg solve "examples/$job.job" -o "$folder/walk")" \
            "$(ormsvelg check "examples/$job.job" "$folder/walk")"
        expect "$job" "$(ormsvelg check "examples/$job.job" "$folder/walk" | head -n 1)" \
            'walk stands: no pair of tables fits'
    done
}

refusals() {
    bytes 02 04 07 02 01 01 >"$folder/rising"
    bytes 0D >"$folder/many"
    bytes 01 04 01 01 >"$folder/high"
    bytes 00 00 00 00 00 00 >"$folder/over"
    bytes 01 00 02 01 00 00 00 00 >"$folder/bit"
    bytes 00 00 00 00 01 00 04 00 00 00 >"$folder/range"
    bytes 00 00 00 00 02 00 00 00 00 00 03 00 00 00 >"$folder/opposite"
    says 1 'refused: code 1 on sheet 1 at byte 0: job ends where a byte is called for' -- read /dev/null
    says 1 'refused: code 2 on sheet 1 at byte 0: count above its limit' -- read "$folder/many"
    says 1 'refused: code 3 on sheet 1 at byte 5: entry not above the one before' -- solve "$folder/rising"
    says 1 'refused: code 4 on sheet 1 at byte 3: wire position or term not below its limit' -- read "$folder/high"
    says 1 'refused: code 5 on sheet 1 at byte 5: bytes left over' -- check "$folder/over" examples/J1.answer
    says 1 'refused: code 7 on sheet 2 at byte 0: answer ends early or has bytes over' -- check examples/J1.job /dev/null
    says 1 'refused: code 8 on sheet 2 at byte 0: count that fits neither tables nor a walk for this job' \
        -- check examples/J2.job examples/J1.answer
    says 1 'refused: code 9 on sheet 2 at byte 2: table byte above 1' -- check examples/J1.job "$folder/bit"
    breaks 1 'wires 0=1' 'rule 0: wire 0 is 0 or B is 1' 'A row 0 is 0' 'B row 0 is 0' \
        -- check examples/J7.job examples/J1.answer
    breaks 0 'no wires' 'rule 0: never holds' 'A row 0 is 0' 'B row 0 is 0' -- check examples/J4.job examples/J1.answer
    says 1 'refused: code 11 on sheet 2 at byte 6: claim or combination not below its limit' \
        -- check examples/J1.job "$folder/range"
    says 1 'refused: code 12 on sheet 2 at entry 0: step does not hold' \
        'not so: A row 0 is 0, so A row 1 is 0, by wires 0=0 1=0' -- check examples/J3.job examples/J4.walk.answer
    says 1 'refused: code 13 on sheet 2: opposite of the first claim is absent' -- check examples/J5.job "$folder/opposite"
    says 1 "refused: code 14 on sheet 3: $asks_more" \
        -- widen examples/J6.job examples/J7.job examples/J6.answer
    says 1 'refused: code 15 on sheet 2: answer is a walk where tables are needed' \
        -- widen examples/J7.job examples/J6.job examples/J7.walk.answer
    says 1 'refused: code 12 on sheet 2 at entry 0: step does not hold' \
        'not so: B row 0 is 0, so A row 0 is 1, by wires 0=1' -- widen examples/J6.job examples/J6.job examples/J7.walk.answer
    says 1 'refused: code 5 on sheet 3 at byte 5: bytes left over' -- widen examples/J1.job "$folder/over" examples/J1.answer
}

# Job sheets of form two. --form may stand anywhere after the command's name.
forms() {
    local walk=('walk stands: no pair of tables fits' 'A row 1 is 1, so B row 1 is 0, by wires 0=1 1=1' \
        'B row 1 is 0, so A row 1 is 0, by wires 0=1 1=1' 'A row 1 is 0, so B row 1 is 0, by wires 0=1 1=1' \
        'B row 1 is 0, so A row 1 is 1, by wires 0=1 1=1')
    says 0 accepted "${speed[@]}" -- read examples/speed.job
    says 0 accepted "${speed[@]}" -- read --form 1 examples/speed.job
    says 0 accepted "${speed[@]}" 'excuses 0' -- read --form 2 examples/speed.two.job
    says 0 accepted "${speed[@]}" 'excuses 1' 'excuse 0: wire 0 is 1 and wire 1 is 1' \
        -- read examples/speed-excused.two.job --form 2
    says 0 "${walk[@]}" -- check examples/speed.job examples/speed.walk.answer
    says 0 "${walk[@]}" -- check --form 2 examples/speed.two.job examples/speed.walk.answer
    says 0 'tables fit' 'A 01' 'B 01' -- solve --form 2 examples/speed-excused.two.job
    says 0 'tables fit' 'A 01' 'B 01' -- check examples/speed-excused.two.job --form 2 examples/speed-excused.answer
    says 0 'tables fit' 'A 00' 'B 11' -- solve --form 1 examples/J2.job
    expect 'a walk in form two' "$(ormsvelg solve --form 2 examples/speed.two.job -o "$folder/walk")" \
        "$(ormsvelg check --form 2 examples/speed.two.job "$folder/walk")"
    expect 'a walk in form two' "$(ormsvelg check --form 2 examples/speed.two.job "$folder/walk" | head -n 1)" "${walk[0]}"
    ormsvelg solve examples/speed-excused.two.job -o "$folder/made" --form 2 >/dev/null
    expect 'tables in form two' "$(cmp "$folder/made" examples/speed-excused.answer && echo same)" same
    rm -f "$folder/made" "$folder/walk"
    input=examples/speed-excused.two.job
    says 0 'tables fit' 'A 01' 'B 01' -- solve --form 2 -
    input=/dev/null
    { cat examples/J1.job; bytes 02 00 00 00; } >"$folder/two"
    says 0 accepted 'wires 0' 'A sees no wires, rows 1' 'B sees no wires, rows 1' 'rules 0' 'excuses 2' \
        'excuse 0: always holds' 'excuse 1: always holds' -- read --form 2 "$folder/two"
    { cat examples/J7.job; bytes 03 00 01 01 02 00 01 00; } >"$folder/two"
    says 0 accepted 'wires 1, on pins 0' 'A sees no wires, rows 1' 'B sees no wires, rows 1' 'rules 2' \
        'rule 0: wire 0 is 0 or B is 1' 'rule 1: wire 0 is 1 or B is 0' 'excuses 3' 'excuse 0: wire 0 is 0' \
        'excuse 1: wire 0 is 1 and wire 0 is 0' 'excuse 2: always holds' -- read --form 2 "$folder/two"
}

# The wrong form, faults among the excuses, answers that they change, and a job that excuses less.
form_refusals() {
    { cat examples/speed.job; bytes 01 00 01 00; } >"$folder/first"
    { cat examples/speed.job; bytes 41 00; } >"$folder/many"
    { cat examples/speed.job; bytes 01 00 02 02 02; } >"$folder/rising"
    { cat examples/speed.job; bytes 01 00 01 07; } >"$folder/high"
    says 1 'refused: code 5 on sheet 1 at byte 18: bytes left over' -- read examples/speed-excused.two.job
    says 1 'refused: code 5 on sheet 1 at byte 18: bytes left over' -- solve --form 1 examples/speed.two.job
    says 1 'refused: code 1 on sheet 1 at byte 18: job ends where a byte is called for' -- read --form 2 examples/speed.job
    says 1 'refused: code 2 on sheet 1 at byte 18: count above its limit' -- read --form 2 "$folder/many"
    says 1 'refused: code 3 on sheet 1 at byte 22: entry not above the one before' -- solve --form 2 "$folder/rising"
    says 1 'refused: code 4 on sheet 1 at byte 21: wire position or term not below its limit' -- read --form 2 "$folder/high"
    breaks 3 'wires 0=1 1=1' 'rule 2: A is 0 or B is 0' 'A row 1 is 1' 'B row 1 is 1' \
        -- check --form 2 examples/speed.two.job examples/speed-excused.answer
    says 1 'refused: code 12 on sheet 2 at entry 0: step does not hold' \
        'not so: A row 1 is 1, so B row 1 is 0, by wires 0=1 1=1' \
        -- check --form 2 examples/speed-excused.two.job examples/speed.walk.answer
    says 0 'tables fit' 'A 01' 'B 01' \
        -- widen --form 2 examples/speed-excused.two.job "$folder/first" examples/speed-excused.answer
    says 1 "refused: code 14 on sheet 3: $asks_more" \
        -- widen --form 2 "$folder/first" examples/speed-excused.two.job examples/speed-excused.answer
    says 1 'refused: code 1 on sheet 3 at byte 18: job ends where a byte is called for' \
        -- widen --form 2 "$folder/first" examples/speed.job examples/speed-excused.answer
    says 1 'refused: code 15 on sheet 2: answer is a walk where tables are needed' \
        -- widen --form 2 examples/speed.two.job examples/speed-excused.two.job examples/speed.walk.answer
}

# Rules that tables break, both with the checker and with the widener, where they are those of job P.
# With no wires and J1's tables, A and B are 0. Of the seed counter only rule 4 is broken, where dust is counted. J7's rule 0
# is broken at 1, whatever Q is.
rules_broken() {
    local rule
    breaks 11 'wires 0=1 1=1 2=0 3=1' 'rule 4: A is 0 or B is 0' 'A row 1 is 1' 'B row 11 is 1' \
        -- check examples/counter-mended.job examples/counter-dust.answer
    breaks 11 'wires 0=1 1=1 2=0 3=1' 'rule 4: A is 0 or B is 0' 'A row 1 is 1' 'B row 11 is 1' \
        -- widen examples/counter-mended.job examples/J1.job examples/counter-dust.answer -o "$folder/none"
    breaks 1 'wires 0=1' 'rule 0: wire 0 is 0 or B is 1' 'A row 0 is 0' 'B row 0 is 0' \
        -- widen examples/J7.job examples/J6.job examples/J1.answer -o "$folder/none"
    expect 'a widening that is refused' "$([ -e "$folder/none" ] || echo none)" none
    input=examples/J1.answer
    breaks 1 'wires 0=1' 'rule 0: wire 0 is 0 or B is 1' 'A row 0 is 0' 'B row 0 is 0' -- check examples/J7.job -
    input=/dev/null
    described 'pins\nA\nB\nrule -A\nrule\nrule B\n' >"$folder/job"
    breaks 0 'no wires' 'rule 1: never holds' 'A row 0 is 0' 'B row 0 is 0' -- check "$folder/job" examples/J1.answer
    breaks 0 'no wires' 'rule 1: never holds' 'A row 0 is 0' 'B row 0 is 0' \
        -- widen "$folder/job" examples/J4.job examples/J1.answer
    described 'pins\nA\nB\nrule A -A\nrule B\nrule B\nrule A\n' >"$folder/job"
    breaks 0 'no wires' 'rule 1: B is 1' 'A row 0 is 0' 'B row 0 is 0' -- check "$folder/job" examples/J1.answer
    { bytes 00 00 00 00 01; for rule in {0..254}; do bytes 02 00 01; done; bytes 02 00 02; } >"$folder/job"
    breaks 0 'no wires' 'rule 255: A is 1 or B is 1' 'A row 0 is 0' 'B row 0 is 0' -- check "$folder/job" examples/J1.answer
    breaks 0 'no wires' 'rule 255: A is 1 or B is 1' 'A row 0 is 0' 'B row 0 is 0' \
        -- widen "$folder/job" "$folder/job" examples/J1.answer
    { cat "$folder/job"; bytes 01 00 00; } >"$folder/excused"
    says 0 'tables fit' 'A 0' 'B 0' -- check --form 2 "$folder/excused" examples/J1.answer
    bytes 00 00 >>"$folder/job"
    breaks 0 'no wires' 'rule 255: A is 1 or B is 1' 'A row 0 is 0' 'B row 0 is 0' \
        -- check --form 2 "$folder/job" examples/J1.answer
}

# A sees wires 1 and 2, and is 0 in row 2 alone: at 4 and 5. B sees wires 0 and 2, and is 1 in row 3 alone: at 5 and 7.
# So rules 1 and 2 are broken at 4, all at 5, rules 0 and 3 at 7, and none elsewhere. Q has the same rules the other way round.
# The excuse is for wire 0 at 0 and wire 2 at 1: 4 and 6.
lowest_rule() {
    local head='pins 0 1 2\nA 1 2\nB 0 2\n' four five name
    four=('wires 0=0 1=0 2=1' 'rule 1: wire 2 is 0 or A is 1' 'A row 2 is 0' 'B row 2 is 0')
    five=('wires 0=1 1=0 2=1' 'rule 0: B is 0' 'A row 2 is 0' 'B row 3 is 1')
    described "${head}rule -B\nrule -2 A\nrule A\nrule -0 -B\n" >"$folder/p"
    described "${head}rule -0 -B\nrule A\nrule -2 A\nrule -B\n" >"$folder/q"
    bytes 04 00 01 01 00 01 04 00 00 00 00 01 00 00 >"$folder/answer"
    breaks 4 "${four[@]}" -- check "$folder/p" "$folder/answer"
    breaks 4 "${four[@]}" -- widen "$folder/p" "$folder/q" "$folder/answer"
    breaks 4 'wires 0=0 1=0 2=1' 'rule 1: A is 1' 'A row 2 is 0' 'B row 2 is 0' -- check "$folder/q" "$folder/answer"
    for name in p q; do
        { cat "$folder/$name"; bytes 00 00; } >"$folder/$name.two"
        { cat "$folder/$name"; bytes 01 00 02 01 04; } >"$folder/$name.excused"
    done
    breaks 4 "${four[@]}" -- check --form 2 "$folder/p.two" "$folder/answer"
    breaks 5 "${five[@]}" -- check --form 2 "$folder/p.excused" "$folder/answer"
    breaks 4 "${four[@]}" -- widen --form 2 "$folder/p.two" "$folder/q.excused" "$folder/answer"
    breaks 5 "${five[@]}" -- widen --form 2 "$folder/p.excused" "$folder/q.two" "$folder/answer"
    breaks 5 'wires 0=1 1=0 2=1' 'rule 0: wire 0 is 0 or B is 0' 'A row 2 is 0' 'B row 3 is 1' \
        -- check --form 2 "$folder/q.excused" "$folder/answer"
    # The speed wires with both cells always 0: rule 0 is broken at 1, rule 1 at 2, both at 3.
    bytes 02 00 00 00 02 00 00 00 00 00 >"$folder/answer"
    { cat examples/speed.job; bytes 01 00 01 00; } >"$folder/excused"
    breaks 1 'wires 0=1 1=0' 'rule 0: wire 0 is 0 or A is 1' 'A row 1 is 0' 'B row 0 is 0' \
        -- check examples/speed.job "$folder/answer"
    breaks 2 'wires 0=0 1=1' 'rule 1: wire 1 is 0 or B is 1' 'A row 0 is 0' 'B row 1 is 0' \
        -- check --form 2 "$folder/excused" "$folder/answer"
    breaks 3 'wires 0=1 1=1' 'rule 2: A is 0 or B is 0' 'A row 1 is 1' 'B row 1 is 1' \
        -- widen --form 2 examples/speed.two.job examples/speed-excused.two.job examples/speed-excused.answer
}

# Twelve wires. First A's row is wire 1 + 2 x wire 11, and A is 0 in row 2 alone; B's is wire 0 + 2 x wire 4 + 4 x wire 5.
# Wires 4 and 11 are 1 and wire 1 is 0 first at 16 + 2048. Then each cell sees eight wires, and the rule is broken at the
# last combination alone, which shows the last rows.
broken_of_twelve() {
    local head='pins 0 1 2 3 4 5 6 7 8 9 10 11' all
    described "$head\nA 1 11\nB 0 4 5\nrule -4 -11 A\n" >"$folder/job"
    bytes 04 00 01 01 00 01 08 00 00 00 01 00 00 00 00 00 00 00 >"$folder/answer"
    breaks 2064 'wires 0=0 1=0 2=0 3=0 4=1 5=0 6=0 7=0 8=0 9=0 10=0 11=1' 'rule 0: wire 4 is 0 or wire 11 is 0 or A is 1' \
        'A row 2 is 0' 'B row 2 is 1' -- check "$folder/job" "$folder/answer"
    described "$head\nA 4 5 6 7 8 9 10 11\nB 0 1 2 3 4 5 6 7\nrule +0 -0\nrule -0 -1 -2 -3 -4 -5 -6 -7 -8 -9 -10 -11\n" \
        >"$folder/job"
    { bytes 00 01; head -c 255 /dev/zero; bytes 01 00 01; head -c 258 /dev/zero; } >"$folder/answer"
    all='wire 0 is 0 or wire 1 is 0 or wire 2 is 0 or wire 3 is 0 or wire 4 is 0 or wire 5 is 0'
    all="$all or wire 6 is 0 or wire 7 is 0 or wire 8 is 0 or wire 9 is 0 or wire 10 is 0 or wire 11 is 0"
    breaks 4095 'wires 0=1 1=1 2=1 3=1 4=1 5=1 6=1 7=1 8=1 9=1 10=1 11=1' "rule 1: $all" 'A row 255 is 1' 'B row 255 is 0' \
        -- check "$folder/job" "$folder/answer"
    breaks 4095 'wires 0=1 1=1 2=1 3=1 4=1 5=1 6=1 7=1 8=1 9=1 10=1 11=1' "rule 1: $all" 'A row 255 is 1' 'B row 255 is 0' \
        -- widen "$folder/job" "$folder/job" "$folder/answer"
}

# The longest sheets, and files far longer than any sheet.
sizes() {
    {
        bytes 0C 00 01 02 03 04 05 06 07 08 09 0A 0B 08 00 01 02 03 04 05 06 07 08 00 01 02 03 04 05 06 07 00 01
        for rule in {1..256}; do
            bytes 1C 00 01 02 03 04 05 06 07 08 09 0A 0B 0C 0D 0E 0F 10 11 12 13 14 15 16 17 18 19 1A 1B
        done
    } >"$folder/longest"
    expect 'the longest job' "$(wc -c <"$folder/longest")" 7457
    expect 'the longest job' "$(ormsvelg read "$folder/longest" | sed -n '1p;2p;$=')" \
        $'accepted\nwires 12, on pins 0 1 2 3 4 5 6 7 8 9 10 11\n261'
    expect 'the longest job' "$(ormsvelg solve "$folder/longest" | sed -n '1p;$=')" $'tables fit\n3'
    expect 'the longest job moved' "$(ormsvelg move --to 2 "$folder/longest" -o "$folder/moved" | sed -n '1p;$p')" \
        $'sheet of 7459 bytes\nexcuses 0'
    same 'the longest job moved' <(cat "$folder/longest"; bytes 00 00) "$folder/moved"
    expect 'the longest job moved back' "$(ormsvelg move --to 1 "$folder/moved" -o "$folder/back" | head -n 1)" \
        'sheet of 7457 bytes'
    same 'the longest job moved back' "$folder/longest" "$folder/back"
    rm "$folder/moved" "$folder/back"
    cp "$folder/longest" "$folder/longest_two"
    bytes 00 >>"$folder/longest"
    says 1 'refused: code 5 on sheet 1 at byte 7457: bytes left over' -- move --to 2 "$folder/longest"
    says 1 'refused: code 5 on sheet 1 at byte 7457: bytes left over' -- read "$folder/longest"
    head -c 3000000 /dev/zero >>"$folder/longest"
    says 1 'refused: code 5 on sheet 1 at byte 7457: bytes left over' -- solve "$folder/longest"
    says 1 'refused: code 5 on sheet 1 at byte 5: bytes left over' -- read /dev/zero
    bytes 00 00 00 00 FE 07 >"$folder/answer"
    head -c 8184 /dev/zero >>"$folder/answer"
    expect 'the longest answer' "$(wc -c <"$folder/answer")" 8190
    says 1 'refused: code 12 on sheet 2 at entry 0: step does not hold' \
        'not so: A row 0 is 0, so A row 0 is 0, by no wires' -- check examples/J1.job "$folder/answer"
    head -c 3000000 /dev/zero >>"$folder/answer"
    says 1 'refused: code 7 on sheet 2 at byte 8190: answer ends early or has bytes over' \
        -- check examples/J1.job "$folder/answer"
}

# The longest sheet of form two: the longest of form one and 64 excuses of all 24 terms.
sizes_two() {
    {
        bytes 40 00
        for excuse in {1..64}; do
            bytes 18 00 01 02 03 04 05 06 07 08 09 0A 0B 0C 0D 0E 0F 10 11 12 13 14 15 16 17
        done
    } >>"$folder/longest_two"
    expect 'the longest job of form two' "$(wc -c <"$folder/longest_two")" 9059
    expect 'the longest job of form two' "$(ormsvelg read --form 2 "$folder/longest_two" | sed -n '1p;262p;$=')" \
        $'accepted\nexcuses 64\n326'
    expect 'the longest job of form two' "$(ormsvelg solve --form 2 "$folder/longest_two" | sed -n '1p;$=')" $'tables fit\n3'
    says 1 'refused: code 5 on sheet 1 at byte 7457: bytes left over' -- read "$folder/longest_two"
    says 1 "refused: code 16 on sheet 1 at byte 7457: $lost" -- move --to 1 "$folder/longest_two"
    bytes 00 >>"$folder/longest_two"
    says 1 'refused: code 5 on sheet 1 at byte 9059: bytes left over' -- move --to 1 "$folder/longest_two"
    says 1 'refused: code 5 on sheet 1 at byte 9059: bytes left over' -- read --form 2 "$folder/longest_two"
    head -c 3000000 /dev/zero >>"$folder/longest_two"
    says 1 'refused: code 5 on sheet 1 at byte 9059: bytes left over' -- solve --form 2 "$folder/longest_two"
    says 1 'refused: code 5 on sheet 1 at byte 7: bytes left over' -- read --form 2 /dev/zero
}

# Texts that make a sheet. Those of the examples make the examples' sheets.
texts() {
    local name
    says 0 'sheet of 14 bytes' 'wires 1, on pins 4' 'A sees wires 0, rows 2' 'B sees wires 0, rows 2' 'rules 2' \
        'rule 0: A is 1 or B is 1' 'rule 1: A is 0 or B is 0' -- write examples/J2.text
    says 0 'sheet of 36 bytes' 'wires 4, on pins 2 3 5 8' 'A sees wires 1 2, rows 4' 'B sees wires 0 1 2 3, rows 16' \
        'rules 6' 'rule 0: wire 1 is 0 or A is 1' 'rule 1: wire 2 is 0 or A is 1' \
        'rule 2: wire 1 is 1 or wire 2 is 1 or A is 0' 'rule 3: wire 0 is 1 or B is 0' 'rule 4: A is 0 or B is 0' \
        'rule 5: wire 0 is 0 or wire 3 is 0 or A is 1 or B is 1' -- write examples/counter-mended.text
    for name in J2 counter-mended; do
        ormsvelg write "examples/$name.text" -o "$folder/made" >"$folder/said"
        expect "$name.text" "$? $(cmp "$folder/made" "examples/$name.job" && echo same)" '0 same'
        expect "$name.text: what it holds" "$(tail -n +2 "$folder/said")" "$(ormsvelg read "examples/$name.job" | tail -n +2)"
        rm "$folder/made"
    done
    makes 'pins\nA\nB\n' 00 00 00 00 00
    makes 'pins\nA\nB' 00 00 00 00 00
    makes 'pins\nA\nB\nrule\n' 00 00 00 01 00 00
    makes 'pins\nA\nB\nrule' 00 00 00 01 00 00
    makes 'pins 4\r\nA 0\r\nB 0\r\n\r\nrule A B\r\nrule -A -B\r\n' 01 04 01 00 01 00 02 00 02 02 04 02 03 05
    makes '\n\t# none\n\n  pins\t4 # a pin\nA   0 \t\nB 0# a wire\n#\nrule B +A\n rule -B -A # x' \
        01 04 01 00 01 00 02 00 02 02 04 02 03 05
    makes 'pins 0 254 255\nA 2 0 1\nB 02\nrule -2 +0 -1 +B -A' 03 00 FE FF 03 00 01 02 01 02 01 00 05 00 03 05 07 08
    makes 'pins 0000000000000000000000007\nA\nB\n# \xc3\xbe\nrule +0 -0' 01 07 00 00 01 00 02 00 01
}

# Texts that are not of the form: the first fault, by line and column.
bad_texts() {
    local head='pins 4 7\nA 0\nB 1\n' word='unknown word: a line begins with pins, A, B or rule'
    local number='not a number in decimal digits' term='not a term: +p, -p, A, -A, B or -B, where p is a wire'
    refused_text "line 1, column 1: $word" 'pin 4\nA\nB\n'
    refused_text "line 1, column 1: $word" 'pins4\nA\nB\n'
    refused_text "line 3, column 2: $word" 'pins 4\n\n a\nB\n'
    refused_text "line 4, column 1: $word" "${head}rules +0\n"
    refused_text "line 1, column 1: missing line of pins" ''
    refused_text "line 1, column 1: missing line of pins" 'A\nB\n'
    refused_text "line 2, column 1: missing line of pins" '# nothing\n'
    refused_text "line 2, column 1: missing line of A" 'pins 4\nB 0\nA 0\n'
    refused_text "line 2, column 7: missing line of A" 'pins 4\n  # A '
    refused_text "line 2, column 3: missing line of A" 'pins 4\n\t rule A\n'
    refused_text "line 3, column 1: missing line of B" 'pins 4\nA 0\nrule A\nB 0\n'
    refused_text "line 2, column 4: missing line of B" 'pins 4\nA 0'
    refused_text "line 2, column 1: second line of pins" 'pins 4\npins 7\nA\nB\n'
    refused_text "line 4, column 1: second line of A" "${head}A 1\n"
    refused_text "line 5, column 1: second line of B" "${head}rule\nB\n"
    refused_text "line 1, column 6: $number" 'pins x\nA\nB\n'
    refused_text "line 1, column 8: $number" 'pins 4 -7\nA\nB\n'
    refused_text "line 1, column 6: $number" 'pins 0x4\nA\nB\n'
    refused_text "line 2, column 5: $number" 'pins 4\nA 0 1,\nB\n'
    refused_text "line 3, column 3: $number" 'pins 4\nA 0\nB +0\n'
    refused_text "line 1, column 10: pin above 255" 'pins 255 256\nA\nB\n'
    refused_text "line 1, column 6: pin above 255" 'pins 18446744073709551616\nA\nB\n'
    refused_text "line 2, column 3: wire position above 31" 'pins 4\nA 32\nB\n'
    refused_text "line 3, column 5: wire position above 31" 'pins 4\nA 0\nB 0 4294967296\n'
    refused_text "line 2, column 7: wire position twice in its line" 'pins 4 7\nA 1 0 1\nB\n'
    refused_text "line 3, column 6: wire position twice in its line" 'pins 4 7\nA\nB 31 031\n'
    refused_text "line 4, column 6: $term" "${head}rule 1\n"
    refused_text "line 4, column 9: $term" "${head}rule +0 C\n"
    refused_text "line 4, column 6: $term" "${head}rule +\n"
    refused_text "line 4, column 6: $term" "${head}rule --A\n"
    refused_text "line 4, column 6: $term" "${head}rule AB\n"
    refused_text "line 5, column 9: $term" "${head}rule A\nrule -B +1x\n"
    refused_text "line 4, column 6: wire not below the number of pins" "${head}rule +2\n"
    refused_text "line 4, column 8: wire not below the number of pins" "${head}rule A -3\n"
    refused_text "line 4, column 6: wire not below the number of pins" 'pins\nA\nB\nrule -0\n'
    refused_text "line 4, column 6: wire not below the number of pins" "${head}rule +9223372036854775808\n"
    refused_text "line 4, column 11: term twice in its rule" "${head}rule +1 A +1\n"
    refused_text "line 4, column 9: term twice in its rule" "${head}rule -B -B\n"
    refused_text "line 5, column 8: term twice in its rule" "${head}rule A\nrule A +A\n"
    refused_text "line 1, column 7: control byte" 'pins 4\x00\nA\nB\n'
    refused_text "line 2, column 2: control byte" 'pins 4\nA\r0\nB\n'
    refused_text "line 3, column 2: control byte" 'pins 4\nA\nB\r'
    refused_text "line 3, column 3: control byte" 'pins 4\nA\n# \x1b comment\nB\n'
    refused_text "line 1, column 1: control byte" '\x7fpins\nA\nB\n'
    refused_text "line 1, column 1: $word" '\xef\xbb\xbfpins\nA\nB\n'
    # The form is judged before what the text describes, however early that stands.
    refused_text "line 5, column 6: $term" 'pins 7 4\nA 9\nB 9\nrule A\nrule x\n'
}

# Texts of the right form that the library refuses: code, section and place, and the line and column of the entry.
bad_descriptions() {
    local count='count above its limit' high='wire position or term not below its limit' rule
    local rising='entry not above the one before' twelve='pins 0 1 2 3 4 5 6 7 8 9 10 11'
    refused_text "code 2 in section 1, line 1, column 32: $count" "$twelve 12\nA\nB\n"
    refused_text "code 2 in section 1, line 2, column 32: $count" "#\n$twelve 0 0 0 0\nA\nB\nrule +0 -1 -15 A -A B -B\n"
    refused_text "code 3 in section 1 at entry 1, line 1, column 8: $rising" 'pins 7 4\nA\nB\n'
    refused_text "code 3 in section 1 at entry 2, line 2, column 10: $rising" '\npins 4 7\t7\nA\nB\n'
    refused_text "code 2 in section 2, line 2, column 3: $count" "$twelve\nA 8 7 6 5 4 3 2 1 0\nB\n"
    refused_text "code 2 in section 2, line 2, column 5: $count" 'pins\nA 9 8 0 1 2 3 4 5 6 7\nB\n'
    refused_text "code 4 in section 2 at entry 1, line 2, column 7: $high" 'pins 4 7\nA 9 0 5\nB\n'
    refused_text "code 4 in section 2 at entry 0, line 2, column 3: $high" 'pins\nA 31\nB\n'
    refused_text "code 2 in section 3, line 3, column 20: $count" "$twelve\nA 0\nB 31 7 6 5 4 3 2 1 11 0\n"
    refused_text "code 4 in section 3 at entry 2, line 4, column 3: $high" 'pins 4 7\nA 0\n\nB 5 1 0 9\n'
    refused_text "code 4 in section 3 at entry 0, line 3, column 3: $high" 'pins 4\nA 0\nB 1\nrule A\n'
    { printf 'pins\nA\nB\n'; for rule in {1..256}; do echo rule A; done; } >"$folder/rules"
    expect '256 rules' "$(ormsvelg write "$folder/rules" | sed -n '1p;5p;$p')" $'sheet of 517 bytes\nrules 256\nrule 255: A is 1'
    printf '\n rule # too many\nrule\n' >>"$folder/rules"
    says 1 "refused: code 2 in section 4, line 261, column 2: $count" -- write "$folder/rules"
}

# The longest sheet, the longest text, and files far longer than any text.
long_texts() {
    local rule terms
    terms=$(printf ' +%s' {0..11} A B; printf ' -%s' {0..11} A B)
    { echo pins {0..11}; echo A {0..7}; echo B {7..0}; for rule in {1..256}; do echo "rule$terms"; done; } >"$folder/text"
    expect 'the longest sheet' "$(ormsvelg write "$folder/text" -o "$folder/made" | sed -n '1p;$=')" $'sheet of 7457 bytes\n261'
    expect 'the longest sheet is read' "$(ormsvelg read "$folder/made" | head -n 1)" accepted
    rm "$folder/made"
    { printf 'pins\nA\nB\n#'; head -c 65526 /dev/zero | tr '\0' x; } >"$folder/text"
    expect 'the longest text' "$(wc -c <"$folder/text") $(ormsvelg write "$folder/text" | head -n 1)" '65536 sheet of 5 bytes'
    printf x >>"$folder/text"
    says 1 'refused: line 4, column 65528: text longer than 65,536 bytes' -- write "$folder/text"
    says 1 'refused: line 1, column 65537: text longer than 65,536 bytes' -- write /dev/zero
    { printf pins; yes ' 0' | head -n 32760 | tr -d '\n'; printf '\nA\nB\n'; } >"$folder/text"
    says 1 'refused: code 2 in section 1, line 1, column 30: count above its limit' -- write "$folder/text"
    { printf 'pins\nA\nB\n'; yes rule | head -n 13104; printf rule; } >"$folder/text"
    says 1 'refused: code 2 in section 4, line 260, column 1: count above its limit' -- write "$folder/text"
}

uses() {
    expect '--help' "$(ormsvelg --help | grep -c '^  ormsvelg ')" 8
    expect '--version' "$(ormsvelg --version | grep -cxE 'ormsvelg [0-9]+\.[0-9]+\.[0-9]+')" 1
    fails 'a command is missing' --
    fails 'unknown command: solv' -- solv examples/J2.job
    fails 'unknown option: -x' -- read -x
    fails 'unknown option: --help' -- read --help
    fails 'a file is missing' -- read
    fails 'a file is missing' -- solve -o "$folder/none"
    fails 'a file is missing' -- check examples/J2.job
    fails 'a file is missing' -- widen examples/J6.job examples/J6.wide.job
    fails 'a file is missing' -- write -o "$folder/none"
    fails 'one word too many: examples/J2.job' -- read examples/J1.job examples/J2.job
    fails 'one word too many: examples/J2.job' -- write examples/J2.text examples/J2.job
    fails '-o wants a file' -- solve examples/J2.job -o
    fails '-o wants a file, not -' -- solve examples/J2.job -o -
    fails '-o is given twice' -- solve -o "$folder/none" -o "$folder/none" examples/J2.job
    fails '-o has no meaning for read' -- read examples/J2.job -o "$folder/none"
    fails '-o has no meaning for check' -- check examples/J2.job examples/J2.answer -o "$folder/none"
    fails '--form wants 1 or 2' -- read examples/J2.job --form
    fails '--form wants 1 or 2, not 3' -- read --form 3 examples/J2.job
    fails '--form wants 1 or 2, not 0' -- solve --form 0 examples/J2.job
    fails '--form wants 1 or 2, not 02' -- solve --form 02 examples/J2.job
    fails '--form wants 1 or 2, not 22' -- check examples/J2.job --form 22 examples/J2.answer
    fails '--form wants 1 or 2, not ' -- read --form '' examples/J2.job
    fails '--form wants 1 or 2, not two' -- write --form two examples/J2.text
    fails '--form wants 1 or 2, not examples/J2.job' -- read --form examples/J2.job
    fails '--form is given twice' -- widen --form 2 --form 2 examples/J6.job examples/J6.wide.job examples/J6.answer
    fails '--form is given twice' -- read --form 1 examples/J2.job --form 2
    fails '--form 2 has no meaning for write' -- write --form 2 examples/J2.text -o "$folder/none"
    fails '--form 2 has no meaning for write' -- write examples/J2.text --form 2
    fails 'unknown option: --form=2' -- read --form=2 examples/J2.job
    fails 'unknown command: --form' -- --form 2 read examples/J2.job
    fails 'a file is missing' -- check --form 2 examples/J2.job
    expect 'the use of check' "$(ormsvelg check 2>&1 | tail -n 1)" 'use: ormsvelg check [--form 2] JOB ANSWER'
    expect 'form 1 for write' "$(ormsvelg write --form 1 examples/J2.text | head -n 1)" 'sheet of 14 bytes'
    fails '--to has no meaning for read' -- read --to 2 examples/J2.job
    fails '--to has no meaning for write' -- write --to 1 examples/J2.text
    fails '--form has no meaning for move' -- move --form 1 --to 2 examples/J2.job
    fails '--form has no meaning for move-all' -- move-all --form 2 examples "$folder/none"
    fails '--to is missing' -- move examples/J2.job
    fails '--to is missing' -- move -o "$folder/none" examples/J2.job
    expect 'the use of move' "$(ormsvelg move examples/J2.job 2>&1 | tail -n 1)" 'use: ormsvelg move --to 2|1 IN [-o OUT]'
    fails '--to wants 1 or 2' -- move examples/J2.job --to
    fails '--to wants 1 or 2, not 3' -- move --to 3 examples/J2.job
    fails '--to wants 1 or 2, not examples/J2.job' -- move --to examples/J2.job
    fails '--to wants 1 or 2, not 0' -- move-all --to 0 examples "$folder/none"
    fails '--to is given twice' -- move --to 2 --to 2 examples/J2.job
    fails 'unknown option: --to=2' -- move --to=2 examples/J2.job
    fails 'a file is missing' -- move
    fails 'a file is missing' -- move --to 2 -o "$folder/none"
    fails 'one word too many: examples/J1.job' -- move --to 2 examples/J2.job examples/J1.job
    fails 'a folder is missing' -- move-all
    fails 'a folder is missing' -- move-all --to 1 examples
    expect 'the use of move-all' "$(ormsvelg move-all 2>&1 | tail -n 1)" 'use: ormsvelg move-all [--to 2|1] DIR-IN DIR-OUT'
    fails "one word too many: $folder/none" -- move-all examples "$folder/none" "$folder/none"
    fails 'move-all wants folders, not -' -- move-all - "$folder/none"
    fails 'move-all wants folders, not -' -- move-all examples -
    fails '-o has no meaning for move-all' -- move-all examples "$folder/none" -o "$folder/none"
    fails 'only one sheet can be -, standard input' -- check - -
    fails 'only one sheet can be -, standard input' -- widen - examples/J6.job -
    expect 'no file' "$([ -e "$folder/none" ] || echo none)" none
}

standard_input() {
    input=examples/J2.job
    says 0 'tables fit' 'A 00' 'B 11' -- solve -
    says 0 'tables fit' 'A 00' 'B 11' -- check - examples/J2.answer
    input=examples/J2.answer
    says 0 'tables fit' 'A 00' 'B 11' -- check examples/J2.job -
    input=examples/J6.wide.job
    says 0 'tables fit' 'A 00' 'B 01' -- widen examples/J6.job - examples/J6.answer
    input=examples/J2.text
    says 0 'sheet of 14 bytes' 'wires 1, on pins 4' 'A sees wires 0, rows 2' 'B sees wires 0, rows 2' 'rules 2' \
        'rule 0: A is 1 or B is 1' 'rule 1: A is 0 or B is 0' -- write -
    input=/
    fails 'cannot read standard input: Is a directory' -- read -
    fails 'cannot read standard input: Is a directory' -- write -
    input=/dev/null
    expect 'a pipe' "$(cat examples/J2.job | ormsvelg solve - | tr '\n' ' ')" 'tables fit A 00 B 11 '
    expect 'a pipe of a text' "$(ormsvelg write - -o /dev/stderr 2>&1 >/dev/null <examples/J2.text | ormsvelg solve - | tr '\n' ' ')" \
        'tables fit A 00 B 11 '
    expect 'no standard input' "$(ormsvelg read - <&- 2>&1; echo "status $?")" \
        $'ormsvelg: cannot read standard input: Bad file descriptor\nstatus 2'
}

unreadable() {
    fails 'cannot read examples: Is a directory' -- read examples
    fails 'cannot read examples: Is a directory' -- check examples/J2.job examples
    fails "cannot read $folder/none: No such file or directory" -- solve "$folder/none"
    fails "cannot read $folder/none: No such file or directory" -- check examples/J2.job "$folder/none"
    fails "cannot read $folder/none: No such file or directory" -- widen examples/J6.job "$folder/none" examples/J6.answer
    fails "cannot read $folder/none: No such file or directory" -- write "$folder/none"
    fails 'cannot read examples: Is a directory' -- write examples
    fails 'cannot read examples/J2.job/x: Not a directory' -- read examples/J2.job/x
    fails 'cannot read : No such file or directory' -- read ''
    # A file that opens, and whose first byte fails.
    fails 'cannot read /proc/self/mem: Input/output error' -- read /proc/self/mem
    [ "$(id -u)" -ne 0 ] || return 0
    cp examples/J2.job "$folder/shut"
    chmod 000 "$folder/shut"
    fails "cannot read $folder/shut: Permission denied" -- read "$folder/shut"
}

writes() {
    mkdir "$folder/out"
    says 0 'tables fit' 'A 00' 'B 11' -- solve examples/J2.job -o "$folder/out/J2"
    expect 'the answer sheet' "$(cmp "$folder/out/J2" examples/J2.answer && echo same)" same
    says 0 'tables fit' 'A 00' 'B 01' -- widen -o "$folder/out/J2" examples/J6.job examples/J6.wide.job examples/J6.answer
    expect 'a target that was there' "$(cmp "$folder/out/J2" examples/J6.wide.answer && echo same)" same
    ormsvelg write -o "$folder/out/J2" examples/J2.text >/dev/null
    expect 'a job sheet in its place' "$(cmp "$folder/out/J2" examples/J2.job && echo same)" same
    chmod 640 "$folder/out/J2"
    ln -s J2 "$folder/out/link"
    says 0 'tables fit' 'A 0' 'B 0' -- solve examples/J1.job -o "$folder/out/link"
    expect 'a link' "$(readlink "$folder/out/link"; cmp "$folder/out/J2" examples/J1.answer && echo same)" $'J2\nsame'
    expect 'the mode' "$(stat -c %a "$folder/out/J2")" 640
    says 0 'tables fit' 'A 0' 'B 0' -- solve examples/J1.job -o /dev/null
    expect 'a pipe' "$(ormsvelg solve examples/J2.job -o /dev/stderr 2>&1 >/dev/null | cmp - examples/J2.answer && echo same)" same
    (umask 027 && cd "$folder/out" && cp "$OLDPWD/examples/J2.job" job && "$OLDPWD/tools/x86" run "$full" solve job -o here >/dev/null)
    expect 'the mode of a new file' "$(stat -c %a "$folder/out/here")" 640
    rm "$folder/out/link"
    holds 'answers written' J2 here job
    rm -r "$folder/out"
}

# Answers that can't be written: an error, the target as it was, nothing beside it.
unwritable() {
    mkdir "$folder/out"
    cp examples/J5.answer "$folder/out/kept"
    cp examples/J2.job "$folder/out/job"
    fails 'cannot write examples: Is a directory' -- solve examples/J2.job -o examples
    fails 'cannot write /dev/full: No space left on device' -- solve examples/J2.job -o /dev/full
    expect '/dev/full' "$(stat -c %F /dev/full)" 'character special file'
    fails "cannot write $folder/none/answer: No such file or directory" -- solve examples/J2.job -o "$folder/none/answer"
    fails 'cannot write examples/J2.job/x: Not a directory' -- solve examples/J2.job -o examples/J2.job/x
    fails 'cannot write : No such file or directory' -- solve examples/J2.job -o ''
    fails "-o names a file that is read: $folder/out/job" -- solve "$folder/out/job" -o "$folder/out/job"
    fails "-o names a file that is read: $folder/out/kept" -- widen examples/J5.job examples/J5.job "$folder/out/kept" -o "$folder/out/kept"
    cp examples/J2.text "$folder/out/text"
    fails "-o names a file that is read: $folder/out/text" -- write "$folder/out/text" -o "$folder/out/text"
    ln -s text "$folder/out/link"
    fails "-o names a file that is read: $folder/out/link" -- write "$folder/out/text" -o "$folder/out/link"
    expect 'the text' "$(cmp "$folder/out/text" examples/J2.text && echo same)" same
    rm "$folder/out/text" "$folder/out/link"
    fails 'cannot write /dev/full: No space left on device' -- write examples/J2.text -o /dev/full
    # A file that may hold no byte stands for a disk that fills up while the answer is written.
    expect 'a disk that fills up' "$(ulimit -f 0; ormsvelg solve examples/J2.job -o "$folder/out/kept" 2>&1; echo "status $?")" \
        "ormsvelg: cannot write $folder/out/kept: File too large"$'\nstatus 2'
    expect 'a disk that fills up' "$(ulimit -f 0; ormsvelg solve examples/J2.job -o "$folder/out/new" 2>&1; echo "status $?")" \
        "ormsvelg: cannot write $folder/out/new: File too large"$'\nstatus 2'
    says 1 'refused: code 5 on sheet 1 at byte 5: bytes left over' -- solve /dev/zero -o "$folder/out/kept"
    says 1 'refused: code 15 on sheet 2: answer is a walk where tables are needed' \
        -- widen examples/J7.job examples/J6.job examples/J7.walk.answer -o "$folder/out/new"
    says 1 'refused: line 1, column 1: control byte' -- write examples/J2.job -o "$folder/out/kept"
    printf 'pins 7 4\nA\nB\n' >"$folder/text"
    says 1 'refused: code 3 in section 1 at entry 1, line 1, column 8: entry not above the one before' \
        -- write "$folder/text" -o "$folder/out/new"
    if [ "$(id -u)" -ne 0 ]; then
        chmod 444 "$folder/out/kept"
        fails "cannot write $folder/out/kept: Permission denied" -- solve examples/J2.job -o "$folder/out/kept"
        chmod 555 "$folder/out"
        fails "cannot write $folder/out/new: Permission denied" -- solve examples/J2.job -o "$folder/out/new"
    fi
    expect 'the target' "$(cmp "$folder/out/kept" examples/J5.answer && echo same)" same
    expect 'the job' "$(cmp "$folder/out/job" examples/J2.job && echo same)" same
    holds 'answers not written' job kept
    chmod 755 "$folder/out"
    rm -rf "$folder/out"
}

# Sheets moved there and back. --to may stand anywhere after the command's name.
moves() {
    local job
    mkdir "$folder/moved"
    says 0 'sheet of 20 bytes' "${speed[@]}" 'excuses 0' -- move --to 2 examples/speed.job
    says 0 'sheet of 18 bytes' "${speed[@]}" -- move examples/speed.two.job --to 1
    says 0 'sheet of 20 bytes' "${speed[@]}" 'excuses 0' -- move -o "$folder/moved/two" examples/speed.job --to 2
    same 'moved to form two' "$folder/moved/two" examples/speed.two.job
    says 0 'sheet of 18 bytes' "${speed[@]}" -- move --to 1 "$folder/moved/two" -o "$folder/moved/one"
    same 'moved to form one' "$folder/moved/one" examples/speed.job
    input=examples/speed.job
    says 0 'sheet of 20 bytes' "${speed[@]}" 'excuses 0' -- move --to 2 -
    input=/dev/null
    expect 'a pipe' "$(ormsvelg move --to 2 - -o /dev/stderr 2>&1 >/dev/null <examples/J2.job |
        ormsvelg solve --form 2 - | tr '\n' ' ')" 'tables fit A 00 B 11 '
    for job in examples/*.job; do
        case $job in *.two.job) continue ;; esac
        ormsvelg move --to 2 "$job" -o "$folder/moved/two" >/dev/null
        expect "$job there" $? 0
        ormsvelg move --to 1 "$folder/moved/two" -o "$folder/moved/one" >/dev/null
        expect "$job and back" $? 0
        same "$job there" <(cat "$job"; bytes 00 00) "$folder/moved/two"
        same "$job and back" "$folder/moved/one" "$job"
    done
    rm -r "$folder/moved"
}

# Sheets that are not moved: the target stays, or is not made. Those with a fault in an excuse are from form_refusals.
not_moved() {
    local excuse
    mkdir "$folder/out"
    cp examples/J5.job "$folder/out/kept"
    says 1 "refused: code 16 on sheet 1 at byte 18: $lost" -- move --to 1 examples/speed-excused.two.job -o "$folder/out/kept"
    for excuse in '00' '02 00 01' '01 03'; do
        # shellcheck disable=SC2086
        { cat examples/speed.job; bytes 01 00 $excuse; } >"$folder/excused"
        says 1 "refused: code 16 on sheet 1 at byte 18: $lost" -- move --to 1 "$folder/excused" -o "$folder/out/new"
    done
    bytes 00 >>"$folder/excused"
    says 1 'refused: code 5 on sheet 1 at byte 22: bytes left over' -- move --to 1 "$folder/excused"
    says 1 'refused: code 5 on sheet 1 at byte 18: bytes left over' -- move --to 2 examples/speed.two.job -o "$folder/out/new"
    says 1 "refused: code 1 on sheet 1 at byte 18: $ends" -- move --to 1 examples/speed.job -o "$folder/out/new"
    says 1 "refused: code 1 on sheet 1 at byte 0: $ends" -- move --to 2 /dev/null
    says 1 'refused: code 2 on sheet 1 at byte 18: count above its limit' -- move --to 1 "$folder/many"
    says 1 'refused: code 3 on sheet 1 at byte 22: entry not above the one before' -- move --to 1 "$folder/rising"
    says 1 'refused: code 4 on sheet 1 at byte 21: wire position or term not below its limit' -- move --to 1 "$folder/high"
    says 1 'refused: code 5 on sheet 1 at byte 5: bytes left over' -- move --to 2 /dev/zero
    says 1 'refused: code 5 on sheet 1 at byte 7: bytes left over' -- move --to 1 /dev/zero
    fails "cannot read $folder/none: No such file or directory" -- move --to 2 "$folder/none" -o "$folder/out/new"
    fails 'cannot read examples: Is a directory' -- move --to 1 examples
    fails 'cannot write /dev/full: No space left on device' -- move --to 2 examples/J2.job -o /dev/full
    fails "-o names a file that is read: $folder/out/kept" -- move --to 2 "$folder/out/kept" -o "$folder/out/kept"
    expect 'a disk that fills up' \
        "$(ulimit -f 0; ormsvelg move --to 2 examples/J2.job -o "$folder/out/kept" 2>&1; echo "status $?")" \
        "ormsvelg: cannot write $folder/out/kept: File too large"$'\nstatus 2'
    same 'the target' "$folder/out/kept" examples/J5.job
    holds 'sheets not moved' kept
    rm -r "$folder/out"
}

# An archive of sheets that are moved, refused or can't be read, and names that are left out; then run again.
archive() {
    local in=$folder/in out=$folder/out
    mkdir -p "$in/inner"
    cp examples/J1.job "$in/-dash"
    cp examples/speed.job "$in/Speed"
    cp examples/J2.job "$in/a sheet"
    cp examples/J2.job "$in/.hidden"
    cp examples/J3.job "$in/inner/J3"
    cp examples/J4.job "$in/z"
    cp examples/speed-excused.two.job "$in/excused"
    cp examples/speed.two.job "$in/two"
    : >"$in/empty"
    ln -s z "$in/link"
    ln -s nowhere "$in/gone"
    ln -s inner "$in/to inner"
    mkfifo "$in/pipe"
    archives 2 'moved 5\nrefused 1 1\nrefused 5 2\nfailed 1' '1/9 -dash: moved' '2/9 Speed: moved' '3/9 a sheet: moved' \
        "4/9 empty: refused: code 1 on sheet 1 at byte 0: $ends" \
        '5/9 excused: refused: code 5 on sheet 1 at byte 18: bytes left over' \
        '6/9 gone: cannot read: No such file or directory' '7/9 link: moved' \
        '8/9 two: refused: code 5 on sheet 1 at byte 18: bytes left over' '9/9 z: moved' -- "$in" "$out"
    holds 'an archive' -dash Speed 'a sheet' link z
    same 'an archive' "$out/Speed" examples/speed.two.job
    same 'a link is a file in its own right' "$out/link" "$out/z"
    expect 'a link is a file in its own right' "$(stat -c '%F %h' "$out/link")" 'regular file 1'
    rm "$in/gone"
    rm "$out/a sheet"
    archives 1 'moved 1\nthere 4\nrefused 1 1\nrefused 5 2' '1/8 -dash: there already' '2/8 Speed: there already' \
        '3/8 a sheet: moved' "4/8 empty: refused: code 1 on sheet 1 at byte 0: $ends" \
        '5/8 excused: refused: code 5 on sheet 1 at byte 18: bytes left over' '6/8 link: there already' \
        '7/8 two: refused: code 5 on sheet 1 at byte 18: bytes left over' '8/8 z: there already' -- --to 2 "$in" "$out"
    rm "$in/empty" "$in/excused" "$in/two" "$in/a sheet" "$in/link"
    archives 0 'moved 0\nthere 3' '1/3 -dash: there already' '2/3 Speed: there already' '3/3 z: there already' \
        -- "$in" "$out/"
    archives 0 'moved 3' '1/3 -dash: moved' '2/3 Speed: moved' '3/3 z: moved' -- "$in" "$in/inner"
    archives 0 'moved 0\nthere 3' '1/3 -dash: there already' '2/3 Speed: there already' '3/3 z: there already' \
        -- "$in/" "$in/inner"
    holds 'an archive that was run again' -dash Speed 'a sheet' link z
    rm -r "$in" "$out"
}

# What stands in the target folder stays, whatever it is.
taken() {
    local in=$folder/in out=$folder/out name
    mkdir "$in" "$out" "$out/folder"
    for name in dangling folder link longer other pipe same shorter; do cp examples/speed.job "$in/$name"; done
    ln -s nowhere "$out/dangling"
    cp examples/speed.two.job "$out/.target"
    ln -s .target "$out/link"
    { cat examples/speed.two.job; bytes 00; } >"$out/longer"
    { cat examples/speed.job; bytes 00 01; } >"$out/other"
    mkfifo "$out/pipe"
    cp examples/speed.two.job "$out/same"
    cp examples/speed.job "$out/shorter"
    archives 2 'moved 0\nthere 2\nfailed 6' '1/8 dangling: another file stands there' '2/8 folder: another file stands there' \
        '3/8 link: there already' '4/8 longer: another file stands there' '5/8 other: another file stands there' \
        '6/8 pipe: another file stands there' '7/8 same: there already' '8/8 shorter: another file stands there' \
        -- "$in" "$out"
    holds 'taken names' .target dangling folder link longer other pipe same shorter
    expect 'taken names' "$(readlink "$out/dangling" "$out/link"; stat -c %F "$out/folder" "$out/pipe" | tr '\n' ' ')" \
        $'nowhere\n.target\ndirectory fifo '
    expect 'taken names: the longer file' "$(wc -c <"$out/longer")" 21
    same 'taken names: the other file' "$out/other" <(cat examples/speed.job; bytes 00 01)
    same 'taken names: the shorter file' "$out/shorter" examples/speed.job
    rm "$in"/{dangling,folder,longer,other,pipe,shorter}
    expect 'nothing to write on a full disk' "$(ulimit -f 0; ormsvelg move-all "$in" "$out" 2>&1; echo "status $?")" \
        $'1/2 link: there already\n2/2 same: there already\nmoved 0\nthere 2\nstatus 0'
    rm -r "$in" "$out"
}

# There and back: all examples of form one, and sheets of form two, one of them with an excuse.
archive_back() {
    local in=$folder/in out=$folder/out job
    mkdir "$in"
    for job in examples/*.job; do
        case $job in *.two.job) ;; *) cp "$job" "$in" ;; esac
    done
    expect 'an archive there' "$(ormsvelg move-all "$in" "$out" 2>/dev/null)" 'moved 11'
    expect 'an archive and back' "$(ormsvelg move-all --to 1 "$out" "$folder/back" 2>/dev/null)" 'moved 11'
    expect 'an archive there and back' "$(diff -r "$in" "$folder/back" && ls "$folder/back" | wc -l)" 11
    rm -r "$in" "$out" "$folder/back"
    mkdir "$in"
    cp examples/speed.two.job examples/speed-excused.two.job examples/J1.job "$in"
    archives 1 'moved 1\nrefused 1 1\nrefused 16 1' "1/3 J1.job: refused: code 1 on sheet 1 at byte 5: $ends" \
        "2/3 speed-excused.two.job: refused: code 16 on sheet 1 at byte 18: $lost" '3/3 speed.two.job: moved' \
        -- "$in" --to 1 "$out"
    same 'an archive to form one' "$out/speed.two.job" examples/speed.job
    holds 'an archive to form one' speed.two.job
    rm -r "$in" "$out"
}

# Folders that can't be, and a disk that fills up. A folder is made only for an archive that is there.
bad_archives() {
    local in=$folder/in out=$folder/out
    mkdir "$in"
    archives 0 'moved 0' -- "$in" "$out"
    expect 'an empty archive' "$(stat -c %F "$out"; ls -A "$out")" directory
    rmdir "$out"
    cp examples/J1.job "$in/a"
    cp examples/J2.job "$in/b"
    ln -s in "$folder/link"
    fails "DIR-OUT is DIR-IN: $in" -- move-all "$in" "$in"
    fails "DIR-OUT is DIR-IN: $in/../in/" -- move-all "$in" "$in/../in/"
    fails "DIR-OUT is DIR-IN: $folder/link" -- move-all "$in" "$folder/link"
    fails "cannot read $folder/none: No such file or directory" -- move-all "$folder/none" "$out"
    fails "cannot read $in/a: Not a directory" -- move-all "$in/a" "$out"
    fails 'cannot read : No such file or directory' -- move-all '' "$out"
    expect 'no folder made' "$([ -e "$out" ] || echo none)" none
    fails "cannot make folder $in/a: File exists" -- move-all "$in" "$in/a"
    fails "cannot make folder $out/deeper: No such file or directory" -- move-all "$in" "$out/deeper"
    same 'the archive' "$in/a" examples/J1.job
    expect 'a disk that fills up' "$(ulimit -f 0; ormsvelg move-all "$in" "$out" 2>&1; echo "status $?")" \
        $'1/2 a: cannot write: File too large\n2/2 b: cannot write: File too large\nmoved 0\nfailed 2\nstatus 2'
    expect 'a disk that fills up: files' "$(ls -A "$out")" ''
    head -c 3000000 /dev/zero >"$in/a"
    archives 1 'moved 1\nrefused 5 1' '1/2 a: refused: code 5 on sheet 1 at byte 5: bytes left over' '2/2 b: moved' \
        -- "$in" "$out"
    if [ "$(id -u)" -ne 0 ]; then
        rm "$out/b"
        chmod 000 "$in/a"
        chmod 555 "$out"
        archives 2 'moved 0\nfailed 2' '1/2 a: cannot read: Permission denied' '2/2 b: cannot write: Permission denied' \
            -- "$in" "$out"
        chmod 755 "$out"
    fi
    rm -rf "$in" "$out" "$folder/link"
}

# A run that is cut off leaves whole sheets and nothing else, and is run again. Its lines go to a pipe that is not read any
# more, and are too many for it, so that the run can't have come to its end.
cut_off() {
    local in=$folder/in out=$folder/out long line there
    long=$(printf '%0200d' 0)
    mkdir "$in"
    tee "$in/$long"{100..699} <examples/speed.job >/dev/null
    mkfifo "$folder/lines"
    tools/x86 run "$program" move-all "$in" "$out" >/dev/null 2>"$folder/lines" &
    exec 3<"$folder/lines"
    read -r line <&3
    kill $!
    wait $! 2>/dev/null
    expect 'a run that is cut off' "$? $line" "143 1/600 ${long}100: moved"
    exec 3<&-
    there=$(ls -A "$out" | wc -l)
    expect 'a run that is cut off, again' "$(ormsvelg move-all "$in" "$out" 2>/dev/null; echo "status $?")" \
        "moved $((600 - there))"$'\n'"there $there"$'\nstatus 0'
    expect 'a run that is cut off, again: files' "$(ls -A "$out" | wc -l)" 600
    same 'a run that is cut off, again' <(cat "$out"/*) <(yes examples/speed.two.job | head -n 600 | xargs cat)
    rm -r "$in" "$out"
}

moves_by() { # WHY=N [TAKEN=1]
    env "$@" LD_PRELOAD="$folder/link.so" "$full" move-all "$folder/in" "$folder/out" 2>&1
}

# A link call that fails stands for a file system without links, and for a name that is taken while the sheet is written:
# then it makes the file first. It comes before the C library's own, which only a plain program on x86-64 allows.
without_links() {
    local in=$folder/in out=$folder/out code
    case $(uname -m)-$program in *-sanitized | aarch64-*) return 0 ;; esac
    mkdir "$in"
    cp examples/speed.job "$in/a"
    cat >"$folder/link.c" <<'END'
#include <errno.h>
#include <stdio.h>
#include <stdlib.h>

int link(const char *from, const char *to)
{
    FILE *made = from == NULL || getenv("TAKEN") == NULL ? NULL : fopen(to, "wb");
    if (made != NULL)
        fclose(made);
    errno = atoi(getenv("WHY"));
    return -1;
}
END
    tools/x86 cc -shared -fPIC -o "$folder/link.so" "$folder/link.c"
    for code in 1 31 95; do # EPERM, EMLINK, EOPNOTSUPP
        expect "link fails with $code" "$(moves_by WHY=$code)" $'1/1 a: moved\nmoved 1'
        same "link fails with $code" "$out/a" examples/speed.two.job
        expect "link fails with $code, again" "$(moves_by WHY=$code)" $'1/1 a: there already\nmoved 0\nthere 1'
        holds "link fails with $code" a
        rm "$out/a"
    done
    for code in 1 17; do # EPERM, EEXIST
        expect "taken, and link fails with $code" "$(moves_by WHY=$code TAKEN=1)" \
            $'1/1 a: another file stands there\nmoved 0\nfailed 1'
        expect "taken, and link fails with $code" "$(wc -c <"$out/a")" 0
        holds "taken, and link fails with $code" a
        rm "$out/a"
    done
    ln -s nowhere "$out/a"
    expect 'a link to nowhere, and no links' "$(moves_by WHY=1)" $'1/1 a: another file stands there\nmoved 0\nfailed 1'
    expect 'a link to nowhere, and no links' "$(readlink "$out/a")" nowhere
    rm -r "$in" "$out"
}

# Standard output on a full disk, or closed: an error, for short words and for long ones.
full_output() {
    local words
    for words in '--help' '--version' 'read examples/J2.job' 'solve examples/J3.job' 'write examples/J2.text' \
        'read --form 2 examples/speed-excused.two.job' 'move --to 2 examples/J2.job' 'check examples/J7.job examples/J1.answer' \
        "read $folder/many_rules"; do
        # shellcheck disable=SC2086
        expect "$words to a full disk" "$(ormsvelg $words 2>&1 >/dev/full; echo "status $?")" \
            $'ormsvelg: cannot write standard output: No space left on device\nstatus 2'
    done
    mkdir "$folder/in"
    expect 'counts to a full disk' "$(ormsvelg move-all "$folder/in" "$folder/out" 2>&1 >/dev/full; echo "status $?")" \
        $'ormsvelg: cannot write standard output: No space left on device\nstatus 2'
    expect 'closed' "$(ormsvelg read examples/J2.job 2>&1 >&-; echo "status $?")" \
        $'ormsvelg: cannot write standard output: Bad file descriptor\nstatus 2'
}

case $program in /*) full=$program ;; *) full=$PWD/$program ;; esac
examples
walks
refusals
forms
form_refusals
rules_broken
lowest_rule
broken_of_twelve
sizes
sizes_two
texts
bad_texts
bad_descriptions
long_texts
uses
standard_input
unreadable
writes
unwritable
moves
not_moved
archive
taken
archive_back
bad_archives
cut_off
without_links
{ bytes 00 00 00 00 01; for rule in {1..256}; do bytes 04 00 01 02 03; done; } >"$folder/many_rules"
full_output
finish command
