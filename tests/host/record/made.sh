# Part of tests/host/record/run: logs that are made here, with the records that the table gives for them.

# 300 short-lived processes, one behind the other: each takes the number of the one before.
{
    echo '1000  execve("/bin/sh", ["sh"], 0x7ffc00000000 /* 1 var */) = 0'
    echo '1000  openat(AT_FDCWD</srv/x>, "a", O_RDONLY) = 3</srv/x/a>'
    for pid in $(seq 2001 2300); do
        echo "1000  fork()                            = $pid"
        echo "$pid  read(3</srv/x/a>, \"A\", 10)        = 1"
        echo "$pid  +++ exited with 0 +++"
    done
    echo '1000  +++ exited with 0 +++'
} >"$work/log"
printf 'source a\n' >"$work/story"
# a 0, the recorder 1, the first process 2, its program 3
{
    printf '%s\n' "file 1 3 as 0" "exec 2 3 as 0"
    for pid in $(seq 2001 2300); do printf '%s\n' "fork 2 4" "read 4 0" "end 4"; done
    echo "end 2"
} >"$work/wanted"
echo "903 records, 304 containers: 0 alerts, 0 refused, 0 not followed" >"$work/words"
"$record" --log "$work/log" --story "$work/story" --out "$work/short-lived" >"$work/out"
[ $? -eq 0 ] && followed short-lived "$work/wanted"
note $? "300 short-lived processes"

# opens FIRST LAST WORD: a process opens files, reads or writes each, and closes it.
opens() {
    local number
    for number in $(seq "$1" "$2"); do
        echo "1000  openat(AT_FDCWD</srv/x>, \"f$number\", O_RDWR|O_CREAT, 0666) = 4</srv/x/f$number>"
        echo "1000  $3(4</srv/x/f$number>, \"x\", 1) = 1"
        echo "1000  close(4</srv/x/f$number>) = 0"
    done
}

# 300 files outside the story that hold nothing: when no number is free, the one that was used least lately gives its own back.
# The file of the story keeps its own, though it holds nothing either.
{
    echo '1000  execve("/bin/sh", ["sh"], 0x7ffc00000000 /* 1 var */) = 0'
    opens 1 300 read
    opens 1 1 read
    echo '1000  fork()                            = 1001'
    opens 301 302 read
} >"$work/log"
printf 'file plain\n' >"$work/story"
{
    printf '%s\n' "file 1 3 as 0" "exec 2 3 as 0"
    for number in $(seq 4 255); do printf '%s\n' "file 1 $number as 0" "read 2 $number"; done
    # f253 takes the program's number, f254 that of f1, and so on; in the end f1 takes the one that f48 had.
    for number in $(seq 3 51); do printf '%s\n' "delete 1 $number" "file 1 $number as 0" "read 2 $number"; done
    # A child takes the number that f49 had, and two more files those of f50 and f51.
    printf '%s\n' "delete 1 52" "fork 2 52"
    for number in 53 54; do printf '%s\n' "delete 1 $number" "file 1 $number as 0" "read 2 $number"; done
} >"$work/wanted"
cat >"$work/words" <<'END'
not followed, line 911: 2 processes without an end in the log, the first of them 1000
661 records, 308 containers: 0 alerts, 0 refused, 1 not followed
END
"$record" --log "$work/log" --story "$work/story" --out "$work/given-back" >"$work/out"
[ $? -eq 2 ] && followed given-back "$work/wanted"
note $? "300 files that hold nothing share the numbers"

# What holds nothing and is restricted to run keeps its number, and what is open gives its own back last.
{
    echo '1000  execve("/bin/desk", ["desk"], 0x7ffc00000000 /* 1 var */) = 0'
    opens 1 1 write
    echo '1000  openat(AT_FDCWD</srv/x>, "f2", O_RDONLY) = 5</srv/x/f2>'
    echo '1000  read(5</srv/x/f2>, "x", 1) = 1'
    opens 3 254 read
} >"$work/log"
printf '%s\n' "source a" "rule desk-takes = {a}" "file /bin/desk run desk-takes" >"$work/story"
# a 0, /bin/desk 1, the recorder 2, the first process 3, f1 4, f2 5
{
    printf '%s\n' "exec 3 1 as 0" "file 2 4 as 0" "append 3 4" "file 2 5 as 0" "read 3 5"
    for number in $(seq 6 255); do printf '%s\n' "file 2 $number as 0" "read 3 $number"; done
    # f253 and f254 take the numbers of f3 and f4.
    for number in 6 7; do printf '%s\n' "delete 2 $number" "file 2 $number as 0" "read 3 $number"; done
} >"$work/wanted"
cat >"$work/words" <<'END'
not followed, line 762: 1 processes without an end in the log, the first of them 1000
511 records, 258 containers: 0 alerts, 0 refused, 1 not followed
END
"$record" --log "$work/log" --story "$work/story" --out "$work/kept" >"$work/out"
[ $? -eq 2 ] && followed kept "$work/wanted"
note $? "what is restricted to run keeps its number, and what is open gives it back last"

# 300 files outside the story that hold the same share one number when numbers are few. One that gets more has one of its own again.
{
    echo '1000  execve("/bin/sh", ["sh"], 0x7ffc00000000 /* 1 var */) = 0'
    echo '1000  openat(AT_FDCWD</srv/x>, "a", O_RDONLY) = 3</srv/x/a>'
    echo '1000  fork()                            = 1001'
    echo '1000  read(3</srv/x/a>, "A", 10)        = 1'
    opens 1 300 write
    echo '1000  fork()                            = 1002'
    echo '1002  openat(AT_FDCWD</srv/x>, "b", O_RDONLY) = 5</srv/x/b>'
    echo '1002  read(5</srv/x/b>, "B", 10)        = 1'
    opens 299 299 write | sed 's/^1000/1002/'
    echo '1001  openat(AT_FDCWD</srv/x>, "f300", O_RDONLY) = 4</srv/x/f300>'
    echo '1001  read(4</srv/x/f300>, "A", 10)     = 1'
    echo '1001  openat(AT_FDCWD</srv/x>, "out", O_WRONLY|O_CREAT|O_TRUNC, 0666) = 5</srv/x/out>'
    echo '1001  write(5</srv/x/out>, "A", 1)      = 1'
    for pid in 1001 1002 1000; do echo "$pid  +++ exited with 0 +++"; done
} >"$work/log"
printf '%s\n' "source a" "source b" "permit out: b" >"$work/story"
"$record" --log "$work/log" --story "$work/story" --out "$work/shared" >"$work/out"
[ $? -eq 1 ] && grep -qE ': 1 alerts, 0 refused, 0 not followed$' "$work/out" &&
    grep -qx 'alert, step [0-9]*: sh (1001) writes out, which now holds a' "$work/out"
note $? "300 files that hold the same share a number, and another one gets no more by it"

# 260 processes at once: there is no number for the last seven. The run goes on.
{
    echo '1000  execve("/bin/sh", ["sh"], 0x7ffc00000000 /* 1 var */) = 0'
    for pid in $(seq 2001 2260); do echo "1000  fork()                            = $pid"; done
    echo '2260  read(3</srv/x/a>, "A", 10)        = 1'
    echo '2260  +++ exited with 0 +++'
} >"$work/log"
printf 'source a\n' >"$work/story"
{
    printf '%s\n' "file 1 3 as 0" "exec 2 3 as 0"
    for number in $(seq 4 255); do echo "fork 2 $number"; done
    # The program holds nothing: its number goes to process 2253.
    printf '%s\n' "delete 1 3" "fork 2 3"
} >"$work/wanted"
{
    for pid in $(seq 2254 2260); do
        echo "not followed, line $((pid - 1999)): the start of process $pid: no number is free, 256 containers are in use"
    done
    echo "not followed, line 262: an operation of process 2260, which has no number"
    echo "not followed, line 263: 260 processes without an end in the log, the first of them 1000"
    echo "256 records, 257 containers: 0 alerts, 0 refused, 9 not followed"
} >"$work/words"
"$record" --log "$work/log" --story "$work/story" --out "$work/full" --folder /srv/x >"$work/out"
[ $? -eq 2 ] && followed full "$work/wanted"
note $? "more than 256 at once are told, and the run goes on"
"$record" --strict --log "$work/log" --story "$work/story" --out "$work/strict" --folder /srv/x >"$work/out"
[ $? -eq 2 ] && grep -q '^not followed, line 255: ' "$work/out" &&
    cmp "$work/wanted" <(cut -d ' ' -f 2- "$work/strict/records.txt")
note $? "more than 256 at once: with --strict the run stops there"

# More than 32 sources are an error of the story, with its line.
for number in $(seq 33); do echo "source s$number"; done >"$work/story"
"$record" --log "$work/log" --story "$work/story" --out "$work/sources" >"$work/out" 2>"$work/err"
[ $? -eq 4 ] && grep -q "^record: $work/story:33: " "$work/err" && [ ! -s "$work/out" ]
note $? "more than 32 sources: the story is refused at line 33"

# Of 16 different permit rules the last one has no user: a new file of its name is told.
# Equal rules share one.
for number in $(seq 16); do
    printf 'source s%s\npermit p%s: s%s\n' "$number" "$number" "$number"
    [ "$number" -gt 1 ] || echo "permit same: s1"
done >"$work/story"
cat >"$work/log" <<'END'
1000  execve("/bin/sh", ["sh"], 0x7ffc00000000 /* 1 var */) = 0
1000  openat(AT_FDCWD</srv/x>, "s1", O_RDONLY) = 3</srv/x/s1>
1000  read(3</srv/x/s1>, "1", 10)       = 1
1000  unlink("p15")                     = 0
1000  unlink("p16")                     = 0
1000  openat(AT_FDCWD</srv/x>, "p15", O_WRONLY|O_CREAT, 0666) = 4</srv/x/p15>
1000  openat(AT_FDCWD</srv/x>, "p16", O_WRONLY|O_CREAT, 0666) = 5</srv/x/p16>
1000  write(4</srv/x/p15>, "1", 1)      = 1
1000  write(5</srv/x/p16>, "1", 1)      = 1
1000  rename("p16", "p16.old")          = 0
1000  rename("p1", "p16")               = 0
END
# s1 0, p1 1, same 2, s2 3, .., p15 30, s16 31, p16 32, the recorder 33, the first process 34; users 0 unrestricted, 1 of p1 and
# same, .., 15 of p15
printf '%s\n' "file 33 35 as 0" "exec 34 35 as 0" "read 34 0" "delete 34 30" "delete 34 32" "file 33 30 as 15" \
    "append 34 30" "file 33 32 as 0" "append 34 32" >"$work/wanted"
cat >"$work/words" <<'END'
alert, step 7: sh (1000) appends to p15, which now holds s1
  the rule of p15, under whose name it was made (step 6), permits {s15}: it lacks s1
  s1 came by s1 -> sh (1000) (step 3, reads) -> p15 (step 7, appends)
not followed, line 9: p16 is a new file of that name, and no user is left that has the story's rule
not followed, line 11: p16 is another file now, and no user is left that has the story's rule
not followed, line 11: 1 processes without an end in the log, the first of them 1000
9 records, 38 containers: 1 alerts, 0 refused, 3 not followed
END
"$record" --log "$work/log" --story "$work/story" --out "$work/rules" >"$work/out"
[ $? -eq 3 ] && followed rules "$work/wanted"
note $? "more different permit rules than users are told where they do not hold"

# A leak, and behind it 30 processes that append to the same file and have read nothing: each is an alert, and none has brought anything.
{
    echo '1000  execve("/bin/sh", ["sh"], 0x7ffc00000000 /* 1 var */) = 0'
    echo '1000  openat(AT_FDCWD</srv/x>, "out", O_WRONLY|O_APPEND) = 3</srv/x/out>'
    echo '1000  fork()                            = 1001'
    echo '1001  openat(AT_FDCWD</srv/x>, "a", O_RDONLY) = 4</srv/x/a>'
    echo '1001  read(4</srv/x/a>, "A", 10)        = 1'
    echo '1001  write(3</srv/x/out>, "A", 1)      = 1'
    echo '1001  +++ exited with 0 +++'
    for pid in $(seq 2001 2030); do
        echo "1000  fork()                            = $pid"
        echo "$pid  write(3</srv/x/out>, \"x\", 1)      = 1"
        echo "$pid  +++ exited with 0 +++"
    done
    # Another source behind it is told with what it brought.
    echo '1000  openat(AT_FDCWD</srv/x>, "c", O_RDONLY) = 4</srv/x/c>'
    echo '1000  read(4</srv/x/c>, "C", 10)        = 1'
    echo '1000  write(3</srv/x/out>, "C", 1)      = 1'
    echo '1000  write(3</srv/x/out>, "C", 1)      = 1'
    echo '1000  +++ exited with 0 +++'
} >"$work/log"
printf '%s\n' "source a" "source b" "source c" "permit out: b" >"$work/story"
# a 0, b 1, c 2, out 3, the recorder 4, the first process 5, its program 6, the others 7
{
    printf '%s\n' "file 4 6 as 0" "exec 5 6 as 0" "fork 5 7" "read 7 0" "append 7 3" "end 7"
    for pid in $(seq 2001 2030); do printf '%s\n' "fork 5 7" "append 7 3" "end 7"; done
    printf '%s\n' "read 5 2" "append 5 3" "append 5 3" "end 5"
} >"$work/wanted"
{
    echo "alert, step 5: sh (1001) appends to out, which now holds a"
    echo "  its own permit rule permits {b}: it lacks a"
    echo "  a came by a -> sh (1001) (step 4, reads) -> out (step 5, appends)"
    for pid in $(seq 2001 2030); do
        echo "alert, step $((8 + 3 * (pid - 2001))): sh ($pid) appends to out, which still holds a; this access brought nothing new (explained at step 5)"
    done
    echo "alert, step 98: sh (1000) appends to out, which now holds a, c; this access brought c"
    echo "  its own permit rule permits {b}: it lacks a (and c)"
    echo "  a came by a -> sh (1001) (step 4, reads) -> out (step 5, appends)"
    echo "alert, step 99: sh (1000) appends to out, which still holds a, c; this access brought nothing new (explained at step 98)"
    echo "100 records, 38 containers: 33 alerts, 0 refused, 0 not followed"
} >"$work/words"
"$record" --log "$work/log" --story "$work/story" --out "$work/innocent" >"$work/out"
[ $? -eq 1 ] && followed innocent "$work/wanted"
note $? "30 processes that append behind a leak are told to have brought nothing"
judged "$work/innocent" "30 processes behind a leak"

# Ten times the same leak by a write, by a process of its own each: eight are explained.
{
    echo '1000  execve("/bin/sh", ["sh"], 0x7ffc00000000 /* 1 var */) = 0'
    echo '1000  openat(AT_FDCWD</srv/x>, "prices", O_RDONLY) = 3</srv/x/prices>'
    for pid in $(seq 2001 2010); do
        echo "1000  fork()                            = $pid"
        echo "$pid  openat(AT_FDCWD</srv/x>, \"a\", O_RDONLY) = 3</srv/x/a>"
        echo "$pid  read(3</srv/x/a>, \"A\", 10)        = 1"
        echo "$pid  openat(AT_FDCWD</srv/x>, \"out\", O_WRONLY|O_TRUNC) = 4</srv/x/out>"
        echo "$pid  write(4</srv/x/out>, \"A\", 1)      = 1"
        echo "$pid  +++ exited with 0 +++"
    done
    echo '1000  +++ exited with 0 +++'
} >"$work/log"
printf '%s\n' "source a" "source b" "permit out: b" >"$work/story"
{
    for pid in $(seq 2001 2010); do
        step=$((5 + 4 * (pid - 2001)))
        head="alert, step $step: sh ($pid) writes out, which now holds a"
        if [ "$pid" -le 2008 ]; then
            echo "$head"
            echo "  its own permit rule permits {b}: it lacks a"
            echo "  a came by a -> sh ($pid) (step $((step - 1)), reads) -> out (step $step, writes)"
        else
            echo "$head (not explained: 8 alerts at out are, the last at step 33)"
        fi
    done
    echo "43 records, 16 containers: 10 alerts, 0 refused, 0 not followed"
} >"$work/words"
"$record" --log "$work/log" --story "$work/story" --out "$work/often" >"$work/out"
[ $? -eq 1 ] && diff "$work/words" "$work/out"
note $? "eight alerts at a name are explained, the others are told"
