# Shared by the tests of a program that reads the files of its folder and prints a text: $program is that program. Source it behind
# tests/host/common.sh.

# told EXPECTED SAID TEXT: what was printed is the expected file, and what was said on standard error is this line, or nothing.
told() {
    cmp -s "$work/printed" "$1"
    note $? "$3: standard output"
    if [ -n "$2" ]; then echo "$2"; fi | cmp -s - "$work/said"
    note $? "$3: standard error"
}

# stopped EXPECTED SAID TEXT [COMMAND ..]: the program, run by the command in $work/case, prints the expected file and says the line.
stopped() {
    local expected=$1 said=$2 text=$3
    shift 3
    (cd "$work/case" && "$@" "$program") >"$work/printed" 2>"$work/said"
    told "$expected" "$said" "$text"
}
