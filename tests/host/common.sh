# Shared by the host tests: where the library is, and (tests/counts.sh) the counts of the last line. Source it from the repository root.
#
# The library is libyaslaurel.a in the folder that YASLAUREL_LIB names (target/lib by default). With --self as the first
# argument of a test the stand-in takes its place: the judge behind the library's interface.
root=$PWD
standin=$root/target/standin
library=${YASLAUREL_LIB:-$root/target/lib}
case $library in /*) ;; *) library=$root/$library ;; esac
libraries=()
. tests/counts.sh

# must STATUS TEXT: a check without which the rest of the test means nothing.
must() {
    note "$1" "$2"
    [ "$1" -eq 0 ] || finish
}

# use_standin: builds the stand-in and takes it for the library.
use_standin() {
    tests/host/standin/build "$standin"
    must $? "the stand-in builds"
    library=$standin
    # What Rust's own library needs of the system.
    libraries=(-lpthread -ldl -lm)
}

# planted COUNT COMMAND..: the list of planted faults that the command prints goes to $work/planted, a line `NUMBER PART TEXT` for
# each. COUNT says how many there are, so that a list that has lost some, or all, is a failure.
planted() {
    local count=$1
    shift
    "$@" >"$work/planted"
    [ "$(wc -l <"$work/planted")" -eq "$count" ]
    note $? "$count faults are planted: ${*##*/}"
}

# standin_faults TEST: the faults of the stand-in, which must be built, that a test must see.
standin_faults() { "$root/target/cargo/release/standin-faults" "$1"; }

# need_library: ends the test if there is no library.
need_library() {
    if [ ! -f "$library/libyaslaurel.a" ]; then
        must 1 "libyaslaurel.a is in $library (make lib)"
    fi
}

# need_policy: builds the program `policy` with the library, as $policy.
need_policy() {
    policy=$(YASLAUREL_LIB=$library hosts/build policy)
    must $? "the program policy builds"
}

work=$(mktemp -d)
trap 'rm -rf "$work"' EXIT
