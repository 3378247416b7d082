# The counts of the gate and of each test: what passed, what failed, and what was left out since a tool is missing. Source it from
# the repository root.
passed=0
failed=0
skipped=0
setup=$PWD/tools/setup

# note STATUS TEXT: counts one check, good if the status is 0.
note() {
    if [ "$1" -eq 0 ]; then
        echo "ok $2"
        passed=$((passed + 1))
    else
        echo "FAILED $2"
        failed=$((failed + 1))
    fi
}

# left_out TEXT: counts a test, or a part of one, that cannot run here.
left_out() {
    echo "left out: $1"
    skipped=$((skipped + 1))
}

# have TOOL TEXT: whether a tool is there; if not, the part of a test that the text names is left out.
have() {
    local without
    without=$("$setup" --have "$1") && return
    left_out "$2: $without"
    return 1
}

# counts: the last line of a test.
counts() { echo "$passed passed, $failed failed$([ "$skipped" -eq 0 ] || echo ", $skipped skipped")"; }

# add_counts LOG: adds the last such line of a log, which may say more in brackets; a log without one counts as a failure.
add_counts() {
    local line
    line=$(grep -E '^[0-9]+ passed, [0-9]+ failed(, [0-9]+ skipped)?( \(.*\))?$' "$1" | tail -n 1)
    if [ -z "$line" ]; then
        note 1 "a last line \`N passed, M failed\`"
        return
    fi
    set -- ${line%% (*}
    passed=$((passed + $1))
    failed=$((failed + $3))
    skipped=$((skipped + ${5:-0}))
}

# finish: the last line, and the exit status.
finish() {
    counts
    [ "$failed" -eq 0 ]
    exit
}
