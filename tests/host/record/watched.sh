# Part of tests/host/record/run and tests/host/record/soak: programs that bring the source a.pos into the report `out`, which may hold
# b.pos alone, one folder of watched/ for each way. A folder has program.c or `command`, a text of the shell that runs $record; and
# it may have `story`, `setup`, `leaked` (whether the source has come into the report, if another way than by its text) and `needs`
# (a tool) or `as-root` (why another user does not run it). `expect` says what must be seen, and what the way is. `told` is right also where an alert is, and the other way round.

# watched NAME: runs one of them in a folder of its own.
watched() {
    local from=$here/watched/$1 name=$1 wanted words secret status leaked tool
    tool=$(cat "$from/needs" 2>/dev/null)
    # shellcheck disable=SC2086
    if [ -n "$tool" ] && ! ${as_other:-} sh -c "command -v $tool" >/dev/null; then
        echo "left out: $name, since there is no $tool"
        return
    fi
    if [ -n "${as_other:-}" ] && [ -f "$from/as-root" ]; then
        echo "left out as another user: $name"
        return
    fi
    { read -r wanted && read -r words; } <"$from/expect"
    w=${watched_in:-$work}/watched-$name
    rm -rf "$w" && mkdir -p "$w" && cp -r "$from/." "$w" && chmod 755 "$w"
    secret=S3CRET-$(od -An -N8 -tx1 /dev/urandom | tr -d ' \n')
    cd "$w" || exit 2
    [ -f a.pos ] || echo "$secret" >a.pos
    [ -f b.pos ] || echo b >b.pos
    [ -f story ] || printf '%s\n' "source a.pos" "source b.pos" "permit out: b.pos" >story
    [ ! -f program.c ] || gcc -w -O1 -pthread -I"$here/watched/.." -o program -iquote "$from" program.c -lrt
    # In a subshell bash executes the last command of a file that it reads in its own place: so something stands behind it.
    [ ! -f setup ] || eval "$(cat setup)"$'\n:'
    [ -z "${as_other:-}" ] || { chown -R 65534:65534 "$w" && export HOME=$w; }
    if [ -f command ]; then eval "$(cat command)"$'\nstatus=$?'; else timeout 60 "$record" --story story --keep events --out first -- ./program >stdout 2>stderr </dev/null; status=$?; fi
    if [ ! -f command ]; then
        "$record" --story story --log events --out second >again 2>&1
        [ $? -eq "$status" ] && diff -r first second >differences || note 1 "$name: its event list gives other records"
    fi
    if [ -f leaked ]; then eval "$(cat leaked)"$'\nleaked=$?'; else grep -aq "$secret" out 2>/dev/null; leaked=$?; fi
    [ "$leaked" -eq 0 ] || leaked=1
    cd "$root" || exit 2
    case "$wanted $status $leaked" in
    'alert '[123]' '* | 'told '[123]' '* | 'quiet 0 '*) note 0 "$name: $words" ;;
    'alert 0 1' | 'told 0 1') echo "left out: $name, since nothing has come into the report here" ;;
    *)
        cat "$w/stderr"
        note 1 "$name: $words (exit status $status, expected: $wanted)"
        ;;
    esac
}

# Four at a time, since most of them wait; each counts for itself, and what it says is put together afterwards.
for folder in "$here"/watched/*/; do
    while [ "$(jobs -r | wc -l)" -ge 4 ]; do wait -n; done
    (
        passed=0 failed=0 skipped=0
        watched "$(basename "$folder")"
        counts
    ) >"$work/watched.$(basename "$folder")" 2>&1 &
done
wait
for folder in "$here"/watched/*/; do
    sed '$d' "$work/watched.$(basename "$folder")"
    add_counts "$work/watched.$(basename "$folder")"
done

# truncations ROUNDS: a write that meets a truncation by another process: each time that the source has come into the report is an alert.
truncations() {
    w=${watched_in:-$work}/truncations
    rm -rf "$w" && mkdir -p "$w" && gcc -w -O1 -pthread -o "$w/program" "$here/programs/truncated.c" && cd "$w" || return 1
    echo S3CRET >a.pos
    echo b >b.pos
    printf '%s\n' "source a.pos" "source b.pos" "permit out: b.pos" >story
    chmod 755 . && [ -z "${as_other:-}" ] || chown -R 65534:65534 .
    timeout 120 "$record" --quiet-why --story story -- ./program "$1" >found 2>said
    cd "$root" && [ "$(cat "$w/found")" -gt 0 ] && grep -qE ": $(cat "$w/found") alerts( \(| |,)" "$w/said"
}
truncations "$((100 * ${race_factor:-1}))"
note $? "a race of truncations, $((100 * ${race_factor:-1})) rounds: each time that the source has arrived is an alert"
