# Part of tests/host/record/run: what the options of a live run do (--state, --json, --pass-status, --allow-missing), stories that do not
# fit the files, and files that are written where links of others stand. What must be told is written from docs/RECORD.md.

mkdir "$work/options"
cd "$work/options" || exit 2

# fresh LINE..: two sources, nothing else, and a story of these lines.
fresh() {
    rm -rf "$work/options/run" && mkdir "$work/options/run" && cd "$work/options/run" || exit 2
    echo A >a.pos
    echo B >b.pos
    printf '%s\n' "$@" >story
}

# ran STATUS NAME ARGUMENT..: a live run with this exit status; what is told is in the file `said`.
ran() {
    local wanted=$1 name=$2 status
    shift 2
    timeout 60 "$record" --story story "$@" >printed 2>said </dev/null
    status=$?
    [ "$status" -eq "$wanted" ] || { cat said && false; }
    note $? "$name: exit status $wanted"
}

# says LINE / says_not LINE: whether a line was told, a pattern for the whole of it.
says() {
    grep -qxE -- "$1" said
    note $? "told: $1"
}
says_not() {
    ! grep -qxE -- "$1" said
    note $? "not told: $1"
}

before='files from before the run count as holding only their own source, without --state'
leak='alert, step [0-9]+: cat \([0-9]+\) (writes|appends to) out, which now holds a\.pos'

# What earlier runs left.
three=("source a.pos" "source b.pos" "permit out: b.pos")
fresh "${three[@]}"
ran 0 "a copy of a source" --state kept -- sh -c 'cat a.pos > middle; cat b.pos > clean; cat b.pos > out'
says_not "$before"
[ "$(head -n 1 kept)" = "state of record, form 1" ] && [ "$(grep -c "^holds .* a\.pos .*/middle$" kept)" -eq 1 ] && ! grep -q '/a\.pos$' kept
note $? "the state has what files hold beside their own source"
cp kept first
ran 0 "the copy is read without a state" -- sh -c 'cat middle > out'
says "$before"
ran 1 "the copy is read with the state" --state kept -- sh -c 'cat middle > out'
says "$leak"
fresh_state() { cp first kept; }
fresh_state
mv middle moved
ran 1 "the copy has another name" --state kept -- sh -c 'cat moved > out'
says "$leak"
fresh_state
ran 0 "another copy is clean" --state kept -- sh -c 'cat clean > out'
ran 0 "the copy is written anew" --state kept -- sh -c 'cat b.pos > moved'
ran 0 "and is clean behind it" --state kept -- sh -c 'cat moved > out'
fresh_state
rm moved
ran 0 "the copy is gone" --state kept -- true
! grep -q middle kept
note $? "files that are gone are left out of the state"
fresh "source b.pos" "permit out: b.pos"
cp a.pos middle
printf 'source a.pos\n' >story
ran 0 "a state of another story" --state kept -- sh -c 'cat a.pos > middle'
printf '%s\n' "source b.pos" "permit out: b.pos" >story
ran 2 "a source that the story does not have" --state kept -- sh -c 'cat middle > out'
says "not followed, line [0-9]+: .*middle holds a\.pos from an earlier run, which is no source of this story"
printf 'no state\n' >kept
ran 5 "a state that is none" --state kept -- true
says "record: kept: line 1 is none of a state of record"

# The command's own exit status.
fresh "${three[@]}"
ran 0 "a command that fails" -- sh -c 'cat b.pos > out; exit 7'
ran 7 "--pass-status" --pass-status -- sh -c 'cat b.pos > out; exit 7'
ran 137 "--pass-status, a command that is killed" --pass-status -- sh -c 'cat b.pos > out; kill -9 $$'
ran 1 "--pass-status, an alert" --pass-status -- sh -c 'cat a.pos > out; exit 7'
ran 5 "a command that cannot be executed" --pass-status -- ./story

# Lines of JSON: each is an object, the last one has the numbers.
fresh "${three[@]}" "source gone"
ran 3 "--json" --json -- sh -c 'cat a.pos > out'
python3 - said <<'END'
import json, sys
told = [json.loads(line) for line in open(sys.argv[1])]
alert, rule, chain = (next(line for line in told if line["kind"] == kind) for kind in ("alert", "rule", "chain"))
assert alert["text"].endswith("writes out, which now holds a.pos")
assert alert["step"] == rule["step"] == chain["step"] and rule["text"].startswith("its own permit rule")
assert chain["text"].startswith("a.pos came by a.pos -> ")
story = [line["text"] for line in told if line["kind"] == "story"]
assert story == ["source gone was not there at the start, so nothing was known to come from it"]
assert set(told[-1]) == {"kind", "records", "containers", "alerts", "blocked", "refused", "not_followed"}
assert (told[-1]["kind"], told[-1]["alerts"], told[-1]["not_followed"]) == ("summary", 1, 1)
END
note $? "--json: an alert with its rule and its chain, what of the story does not fit, and the summary"
ran 2 "--json, a call outside the table" --json -- python3 -c 'import ctypes; ctypes.CDLL(None).syscall(999); open("out", "w")'
python3 - said <<'END'
import json, sys
told = [json.loads(line) for line in open(sys.argv[1])]
gap = next(line for line in told if line["kind"] == "not followed")
assert gap["text"] == "the call of number 999 is not in the table" and gap["line"] > 0
END
note $? "--json: what is not followed, with its line"

# Calls that are in no table are told, one run for each: by name, by a number that nobody has, of the x32 convention.
fresh "${three[@]}"
for call in 101:ptrace 163:acct 167:swapon 170:sethostname 179:quotactl 206:io_setup 248:add_key 250:keyctl 298:perf_event_open \
    300:fanotify_init 321:bpf 323:userfaultfd 425:io_uring_setup; do
    ran 2 "the call ${call#*:}" -- python3 -c "import ctypes; ctypes.CDLL(None).syscall(${call%:*}, -1, -1, -1, -1); open('out', 'w')"
    says "not followed, line [0-9]+: the call ${call#*:} is not in the table"
done
ran 2 "a call that is newer than the table" -- python3 -c "import ctypes; ctypes.CDLL(None).syscall(600); open('out', 'w')"
says "not followed, line [0-9]+: the call of number 600 is not in the table"
ran 2 "a call of the x32 convention" -- python3 -c "import ctypes; ctypes.CDLL(None).syscall(0x40000001, 1, b'x', 1); open('out', 'w')"
says "not followed, line [0-9]+: the call of number 1073741825 is not in the table"

# A story that does not fit the files.
missing='story: source gone was not there at the start, so nothing was known to come from it'
fresh "source a.pos" "source gone"
ran 2 "a source that is not there" -- cat a.pos
says "$missing"
ran 0 "--allow-missing" --allow-missing gone -- cat a.pos
says_not "$missing"
fresh "source a.pos" "source b.pos" "permit outt: b.pos"
unmade='outt was neither there nor made, so nothing was judged by its rule'
ran 2 "a report whose name is misspelt" -- sh -c 'cat a.pos > out'
says "story: $unmade"
ran 0 "--allow-missing, a report" --allow-missing outt -- sh -c 'cat a.pos > out'
ran 0 "a run without a report" -- sh -c 'cat b.pos >/dev/null'
says "note: $unmade"
says "never read: a\.pos"
fresh "source a.pos" "permit d/out: a.pos"
ran 2 "a report in a folder that is not there" -- sh -c 'cat a.pos'
says "story: d/out was neither there nor made, so nothing was judged by its rule"
fresh "source a.pos" "source b.pos" "permit d/out: b.pos"
mkdir d
ran 2 "a report of the same name in another folder" -- sh -c 'cat a.pos > out'
says "story: d/out was neither there nor made, so nothing was judged by its rule"
fresh "source a.pos"
ran 2 "a source that is rewritten" -- sh -c 'echo x >> a.pos'
says "story: source a\.pos was written or replaced: what it had then is not known as its own"
fresh "source north/" "source b.pos" "permit out: b.pos"
mkdir -p north/deep
echo N >north/deep/n
ran 1 "a file below a folder that is a source" -- sh -c 'cat north/deep/n > out'
says 'alert, step [0-9]+: cat \([0-9]+\) writes out, which now holds north/'

# A process goes on behind the command's end.
fresh "${three[@]}"
ran 1 "a process that goes on" -- sh -c 'cat b.pos > out; (sleep 0.3; cat a.pos > out) &'
says "the command has ended, 1 process is still watched: an interrupt ends them"
says "$leak"

# Files are written only where no link of another user stands.
if [ "$(id -u)" -eq 0 ]; then
    fresh "${three[@]}"
    # theirs TARGET NAME: a link of another user.
    theirs() { ln -s "$1" "$2" && chown -h 65534:65534 "$2"; }
    refused='a link of another user, which is not followed'
    echo mine >victim
    mkdir folder o
    theirs victim link
    theirs folder linked
    theirs ../victim o/records.txt
    ran 5 "an event list at a link of another user" --keep link -- true
    says "record: link: $refused"
    ran 5 "an event list below a link of another user" --keep linked/events -- true
    says "record: linked/events: $refused"
    ran 5 "a state at a link of another user" --state link -- true
    says "record: link: $refused"
    ran 5 "a folder at a link of another user" --out linked -- true
    says "record: linked: $refused"
    ran 5 "a folder with a link of another user" --out o -- true
    says "record: o/records.txt: $refused"
    [ "$(cat victim)" = mine ] && [ -z "$(ls folder)" ]
    note $? "nothing was written through them"
    ln -s victim own
    ran 0 "an event list at a link of one's own" --keep own -- sh -c 'cat b.pos > out'
    [ "$(head -n 1 victim)" = "events of record, form 1" ]
    note $? "a link of one's own is followed"
else
    left_out "links of another user, since this is not root"
fi
cd "$root" || exit 2
