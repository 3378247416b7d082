# Part of tests/host/record/run and tests/host/record/soak: guarded files. Many ways to change one must leave its bytes, size and times,
# and so must threads that exchange descriptors, fill buffers or change names while a call is judged.

gcc -w -O1 -o "$work/ways-program" "$here/programs/guarded.c" && gcc -w -O1 -pthread -o "$work/race-program" "$here/programs/race.c"
note $? "the programs against the guard build"

# guarded_folder: a folder with sources, a guarded report in a folder of its own, and a story.
guarded_folder() {
    cd "$work" && rm -rf guarded-run && mkdir -p guarded-run/d && cd guarded-run || exit 2
    echo S3CRET >a.pos
    echo b >b.pos
    echo clean >d/out
    touch -d 2020-01-01 d/out
    printf '%s\n' "source a.pos" "source b.pos" "file d/out guarded" "permit d/out: b.pos" >story
}

# looks: what must stay of the report.
looks() { cat d/out && stat -c '%s %Y %Z %i %a' d/out; }

guarded_ways() {
    local way before wrong=0
    [ "$("$work/ways-program")" -eq 50 ] || return 1
    for way in $(seq "$("$work/ways-program")"); do
        guarded_folder
        before=$(looks)
        timeout 30 "$record" --guard --story story -- "$work/ways-program" "$way" >printed 2>said
        case $? in 1 | 2 | 3) ;; *) echo "way $way: exit status $?" && wrong=1 ;; esac
        [ "$(looks)" = "$before" ] || { echo "way $way has changed the report" && cat said && wrong=1; }
    done
    return $wrong
}
guarded_ways
note $? "$("$work/ways-program") ways to change a guarded file leave its bytes, size and times"

# dumps: a process that holds the source is killed so that it leaves a core dump, under the name of a guarded file.
dumps() {
    guarded_folder
    echo clean >core
    printf '%s\n' "source a.pos" "source b.pos" "file core guarded" "permit core: b.pos" >story
    timeout 30 "$record" --guard --story story -- sh -c 'ulimit -c unlimited; python3 -c "import os; open(\"a.pos\").read(); os.abort()"' >printed 2>said
    [ "$(cat core)" = clean ] && grep -q 'core dumps are not allowed while files are guarded$' said
}
dumps
note $? "guarded: a core dump under the name of a guarded file is not made"

# hard_links: a further name of a guarded file is neither renamed nor removed by who holds the source.
hard_links() {
    local before
    guarded_folder
    ln d/out h
    before=$(looks)
    "$record" --guard --story story -- python3 -c 'import os
open("a.pos").read()
for change in (lambda: os.unlink("h"), lambda: os.rename("h", "k"), lambda: os.link("h", "k")):
    try:
        change()
    except PermissionError:
        print("refused")' >printed 2>said
    [ $? -eq 1 ] && [ "$(looks)" = "$before" ] && [ "$(grep -c refused printed)" -eq 3 ] && grep -qE ', 3 blocked, ' said
}
hard_links
note $? "guarded: further names of a guarded file stay"

# told_once COUNT COMMAND..: a command whose only change is refused is told so many times as it tries, and explained once.
told_once() {
    local count=$1
    shift
    guarded_folder
    "$record" --guard --story story -- "$@" >printed 2>said
    [ $? -eq 1 ] && [ "$(grep -c '^blocked' said)" -eq "$count" ] && [ "$(grep -c '^  its own permit rule' said)" -eq 1 ] &&
        [ "$(grep -cE '^blocked, step [0-9]+: .* \(explained at step [0-9]+\)$' said)" -eq $((count - 1)) ]
    note $? "guarded: $* is blocked $count times, and explained once"
}
# It tries a rename that must not replace first, which cannot succeed.
told_once 1 mv a.pos d/out
told_once 1 ln -f a.pos d/out
told_once 2 sh -c 'read x <a.pos; echo "$x" >>d/out; echo "$x" >>d/out'

# race NAME ROUNDS: the report never has what is in the source.
race() {
    guarded_folder
    timeout 120 "$record" --guard --story story -- "$work/race-program" "$1" "$2" >printed 2>said
    [ $? -eq 1 ] && grep -q '^the command ended with exit status: 0$' said && ! grep -q S3CRET d/out
    note $? "guarded: a race of $1, $2 rounds"
}
race descriptors "$((1000 * ${race_factor:-1}))"
race buffers "$((40 * ${race_factor:-1}))"
race shared-buffers "$((40 * ${race_factor:-1}))"
race renames "$((200 * ${race_factor:-1}))"

# allowed STATUS WANTED COMMAND: what a command leaves in the report.
allowed() {
    guarded_folder
    timeout 30 "$record" --guard --story story -- sh -c "$3" >printed 2>said
    [ $? -eq "$1" ] && [ "$(cat d/out)" = "$2" ]
    note $? "guarded: $3"
}
allowed 0 b 'cat b.pos > d/out'
allowed 0 b 'cp b.pos new && mv new d/out'
allowed 0 "" ': > d/out'
allowed 0 "clean
b" 'cat b.pos >> d/out'
allowed 1 clean 'cp a.pos d/out'
allowed 1 clean 'cat a.pos > d/out'
allowed 1 b 'cat b.pos > d/out; cat a.pos > d/out'

guarded_folder
"$record" --guard --story story --out first --keep events -- sh -c 'cat b.pos > d/out; cat a.pos > d/out' >printed 2>said
"$record" --guard --story story --out second --log events >again
[ $? -eq 1 ] && diff -r first second && diff <(grep -E '^blocked|^  ' said) <(grep -E '^blocked|^  ' again)
note $? "guarded: a live run and its event list give the same answers"
# What is blocked has the rule and the way under it, with --json by their kinds.
cat >wanted <<'END'
blocked, step: cat writes d/out, which would hold a.pos
  its own permit rule permits {b.pos}: it lacks a.pos
  a.pos came by a.pos -> cat (step, reads) -> d/out (step, writes, blocked)
END
grep -E '^blocked|^  ' said | sed -E 's/step [0-9]+/step/g; s/ \([0-9]+\)//g' | head -n 3 | diff wanted -
note $? "guarded: what is blocked is explained"
"$record" --guard --json --story story --out second --log events >again
[ $? -eq 1 ] && python3 - again <<'END' | diff <(grep -E '^blocked|^  ' said) -
import json, sys
for line in open(sys.argv[1]):
    told = json.loads(line)
    if told["kind"] == "blocked":
        step = told["step"]
        print(f"blocked, step {step}: {told['text']}")
    elif told["kind"] in ("rule", "chain"):
        assert told["step"] == step and (told["kind"] == "chain") == (" came by " in told["text"])
        print(f"  {told['text']}")
END
note $? "guarded: the same as lines of JSON, the rule and the chains by their kinds"

# The tracer does nothing for a task with rights that the task lacks.
if [ "$(id -u)" -eq 0 ] && command -v setpriv >/dev/null; then
    guarded_folder
    chmod 755 "$work" . d
    echo old >d/theirs
    "$record" --guard --story story -- setpriv --reuid=65534 --regid=65534 --clear-groups \
        sh -c 'mv d/theirs d/new; : > d/theirs; : < d/theirs > d/out; rm d/out; ln d/theirs d/link; mv b.pos d/out' >printed 2>said
    [ "$(cat d/theirs)" = old ] && [ "$(cat d/out)" = clean ] && [ ! -e d/new ] && [ ! -e d/link ] && [ -f b.pos ]
    note $? "guarded: a child that has dropped its rights gets none by the tracer"
fi

# A run that is killed takes the command with it.
guarded_folder
"$record" --story story -- sh -c 'sleep 300 & sleep 300' >printed 2>said &
watcher=$!
for _ in $(seq 50); do [ "$(pgrep -P "$watcher" | wc -l)" -gt 0 ] && break || sleep 0.1; done
children=$(pgrep -P "$watcher")
sleep 0.3
kill -9 "$watcher"
wait "$watcher" 2>/dev/null
status=$?
sleep 0.3
alive=0
# One that is dead and that nobody has asked about is no process that lives.
for child in $children; do grep -qE '\) [^ZX] ' "/proc/$child/stat" 2>/dev/null && alive=1; done
[ "$status" -ne 0 ] && [ "$alive" -eq 0 ] && [ -n "$children" ]
note $? "a run that is killed: its status is not 0, and no process of the command lives on"
cd "$root" || exit 2
