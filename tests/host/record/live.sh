# Part of tests/host/record/run: small scripts that are watched. Each live run and its event list, which is kept, give the same records.

mkdir "$work/live"
cd "$work/live" || exit 2

# live NAME STATUS COMMAND..: runs a command under the story in the file `story` and follows its event list afterwards.
live() {
    local name=$1 wanted=$2 status
    shift 2
    "$record" --story story --out first --keep log -- "$@" >printed 2>"$work/live-said"
    status=$?
    "$record" --story story --out second --log log >"$work/out"
    [ $? -eq "$status" ] && [ "$status" -eq "$wanted" ] && diff -r first second &&
        diff <(grep -v '^the command ended' "$work/live-said") "$work/out"
    note $? "$name: a live run and its event list give the same records, exit status $wanted"
}

# alerts LINE..: these alerts, without process numbers, and no others.
alerts() {
    diff <(printf '%s\n' "$@") <(told "$work/out" | sed -E 's/ \([0-9]+\)//')
    note $? "$1"
}

cp "$root"/demo/night/{a.pos,b.pos,prices,night.sh,story} .
live "the night" 1 ./night.sh
alerts "head writes b.report, which now holds a.pos, b.pos, prices"
grep -q '^the command ended with exit status: 0$' "$work/live-said"
note $? "a live run tells how the command ended"

printf '%s\n' "source a.pos" "source b.pos" "permit report: b.pos" >story
live "a quiet command" 0 sh -c 'cat b.pos > report; exit 3'
grep -q '^the command ended with exit status: 3$' "$work/live-said"
note $? "a live run tells the command's own status"
live "a file that is renamed over the report" 1 sh -c 'cat a.pos > new; mv new report'
alerts "a rename by mv writes report, which now holds a.pos"
live "a file that is copied through a chain of pipes" 1 sh -c 'cat < a.pos | tr A-Z a-z | cat >> report'
alerts "cat appends to report, which now holds a.pos"
rm -f report
live "a report that is deleted and made anew" 1 sh -c 'cat b.pos > report; rm report; cat a.pos > report'
alerts "cat writes report, which now holds a.pos"
live "a background process that is killed" 0 sh -c 'sleep 60 & kill -9 $!; wait $! 2>/dev/null; true'
live "threads, shared memory and sockets" 1 python3 "$here/live.py"
alerts "python3 writes report, which now holds a.pos" "python3 appends to report, which now holds a.pos" \
    "python3 writes report, which now holds a.pos"
live "a command that prints" 0 sh -c 'echo printed; cat b.pos'
[ "$(cat printed)" = "printed
$(cat b.pos)" ]
note $? "a live run leaves standard output to the command"

mkdir kept
ln -s kept linked
printf '%s\n' "source a.pos" "source b.pos" "permit linked/report: b.pos" >story
live "a name of the story in a linked folder" 1 sh -c 'cat a.pos > kept/report; cat a.pos >> linked/report'
alerts "cat writes linked/report, which now holds a.pos" "cat appends to linked/report, which now holds a.pos"

timeout 60 python3 "$here/terminal.py" "$record" story
note $? "on a terminal: a line of progress, and a summary behind an interrupt"

"$record" --story story -- ./nowhere >printed 2>"$work/err"
[ $? -eq 5 ] && grep -qx 'record: ./nowhere: No such file or directory (os error 2)' "$work/err"
note $? "exit status 5: a command that is not there"
"$record" --story story --strict -- python3 -c 'import ctypes, time
made = ctypes.CDLL(None).syscall(425, 8, ctypes.create_string_buffer(120)) >= 0
time.sleep(600 if made else 0)' >printed 2>"$work/err"
status=$?
if grep -q 'io_uring_setup' "$work/err"; then
    [ "$status" -eq 2 ] && grep -q '^the command ended with signal: 9' "$work/err"
    note $? "with --strict a call outside the table ends the command"
else
    echo "left out: --strict in a live run, since this system has no io_uring"
fi

# A build of the project's own host tests, with over a hundred processes: it runs to its end, more than 256 containers come and go,
# and files that hold nothing give their numbers back to the recorder.
cd "$root" || exit 2
cat >"$work/live/story" <<'END'
source tests/host/judge/src/lib.rs
source hosts/c/host.c
permit README.md: tests/host/judge/src/lib.rs
END
built="cargo build --offline --quiet -p judge --target-dir $work/built && tests/host/c/run ${self:-}"
CARGO_INCREMENTAL=0 YASLAUREL_LIB=$library "$record" --story "$work/live/story" --out "$work/first" --keep "$work/log" -- \
    sh -c "$built" >"$work/printed" 2>"$work/out"
{ [ $? -eq 0 ] && grep -qE '^[0-9]+ passed, 0 failed$' "$work/printed" && grep -q '^the command ended with exit status: 0$' "$work/out"; } ||
    { grep '^FAILED' "$work/printed"; tail -n 5 "$work/out"; false; }
note $? "a build of host tests runs to its end: $(tail -n 1 "$work/out")"
# The story has three files, so the recorder is 3.
[ "$(wc -l <"$work/first/containers.txt")" -gt 256 ] && grep -q ': delete 3 ' "$work/first/records.txt"
note $? "with numbers taken back: $(grep -c ': delete 3 ' "$work/first/records.txt") by the recorder, of $(grep -c ': delete ' "$work/first/records.txt")"
"$record" --story "$work/live/story" --log "$work/log" --out "$work/second" >"$work/out" && diff -rq "$work/first" "$work/second"
note $? "and its event list gives the same records"
