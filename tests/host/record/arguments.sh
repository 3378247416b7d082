# Part of tests/host/record/run: arguments, stories that are none for a recorder, and exit statuses.

case=$here/threads
# said STATUS ERROR ARGUMENT..: the exit status and the one line of standard error, a pattern.
said() {
    local wanted=$1 error=$2
    shift 2
    "$record" "$@" >"$work/out" 2>"$work/err" </dev/null
    [ $? -eq "$wanted" ] && [ "$(wc -l <"$work/err")" -eq 1 ] && grep -qxE -- "record: $error" "$work/err" && [ ! -s "$work/out" ]
    note $? "exit status $wanted: $error"
}
said 5 "--story is missing; see record help"
said 5 "--story is missing; see record help" --log "$case/log"
said 5 "--log or a command is missing; see record help" --story "$case/story"
said 5 "--out is missing; see record help" --story "$case/story" --log "$case/log"
said 5 "nothing is behind --story; see record help" --story
said 5 "frob is too much; see record help" frob
said 5 "a user id is a number; see record help" --uid nobody
said 5 "--log and a command do not go together; see record help" --story "$case/story" --log "$case/log" -- true
said 5 "--keep is for a live run; see record help" --story "$case/story" --log "$case/log" --out "$work/o" --keep "$work/k"
said 5 "--uid is for a log; see record help" --story "$case/story" --uid 0 -- true
said 5 "none: No such file or directory .+" --story "$case/story" --log none --out "$work/o"
said 5 "none: No such file or directory .+" --story none --log "$case/log" --out "$work/o"
said 5 "the story names user ids, so --uid must say that of the first process" \
    --story "$here/uids/story" --log "$here/uids/log" --out "$work/o"
"$record" --story "$case/story" --log "$case/log" --out /dev/null/o >"$work/out" 2>"$work/err"
[ $? -eq 5 ] && grep -q '^record: /dev/null/o: ' "$work/err"
note $? "exit status 5: a folder that cannot be written"
"$record" --story "$case/story" --log "$case/log" --out "$work/o" >/dev/full 2>"$work/err"
[ $? -eq 5 ] && grep -q '^record: the report: ' "$work/err"
note $? "exit status 5: a report that cannot be written"
"$record" help >"$work/out" && grep -q '^record --log LOG ' "$work/out"
note $? "record help"
[ "$("$record" --version)" = "record $(sed -n 's/^version = "\(.*\)"$/\1/p' hosts/record/Cargo.toml)" ]
note $? "record --version"

# refused ERROR LINE..: a story of these lines is refused.
refused() {
    local error=$1
    shift
    printf '%s\n' "$@" >"$work/story"
    said 4 "$work/story:$error" --story "$work/story" --log "$log" --out "$work/o"
}
log=$case/log
refused "1: found .frob., expected .+" "frob"
refused " .v. is no file, expected files alone: the run brings the rest" "source a" "volatile v"
refused "3: found a step, expected none: the steps come from the run" "source a" "process p" "step read p a"
refused " .a. and .\./a. are the same file, expected each file under one name" "source a" "file ./a"
log=$work/no-folder
printf '%s\n' '1  execve("/bin/sh", ["sh"], 0x1 /* 1 var */) = 0' '1  +++ exited with 0 +++' >"$log"
refused " .a. is a relative name and the log names no folder, expected .--folder FOLDER." "source a"
"$record" --story "$work/story" --log "$log" --folder /srv/x --out "$work/o" >"$work/out"
note $? "a story's relative names with --folder"
# 16 users leave no room for the recorder's own.
for number in $(seq 16); do echo "user u$number"; done >"$work/users"
refused " no room for the recorder's own containers and users: .+" "$(cat "$work/users")"
