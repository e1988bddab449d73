# host/checks.sh: what the shell tests share, read in by each: the count of checks, one check, and the last line.
checks=0 failures=0

expect() { # NAME GOT WANTED
    checks=$((checks + 1))
    [ "$2" != "$3" ] || return 0
    failures=$((failures + 1))
    printf '%s\n  got:    %s\n  wanted: %s\n' "$1" "${2//$'\n'/$'\n'          }" "${3//$'\n'/$'\n'          }"
}

finish() { # NAME
    if [ "$failures" -gt 0 ]; then
        echo "$1: $failures of $checks checks failed"
        exit 1
    fi
    echo "$1: $checks checks passed"
}
