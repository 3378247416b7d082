# Shared by tests/host/fleet/run and soak: the engines as processes, and workers of the live monitor that are killed. Source it behind tests/host/common.sh.
. hosts/fleet/servers.sh
here=$root/tests/host/fleet

# ended: ends all that was started and has not ended, also where the test is interrupted.
ended() {
    local pid
    stop_servers
    for pid in $(jobs -pr); do kill -KILL "$pid" 2>/dev/null; done
    rm -rf "$work"
}
trap ended EXIT
trap 'exit 130' INT TERM HUP

# need_fleet: installs both packages in $work/venv, with the library, and has $fleet as the command and $python beside it.
need_fleet() {
    fleet=$(YASLAUREL_LIB=$library hosts/fleet/install "$work/venv")
    must $? "the packages are built and installed without any network"
    python=$work/venv/bin/python
}

# counted TEXT COMMAND..: runs a script of this test, prints what it prints, and adds its counts.
counted() {
    echo "-- $1"
    shift
    "$@" >"$work/counted" 2>"$work/counted.err"
    cat "$work/counted"
    if ! tail -n 1 "$work/counted" | grep -q ' passed, 0 failed$'; then tail -n 40 "$work/counted.err"; fi
    add_counts "$work/counted"
}

# dask: a scheduler and two workers with their nannies, as a user starts them; $scheduler is the file with the address, nannies their processes.
dask() {
    local options=(--no-dashboard --dashboard-address 127.0.0.1:0 --host 127.0.0.1) number
    scheduler=$work/scheduler.json
    setpriv --pdeathsig KILL "$python" -m distributed.cli.dask_scheduler "${options[@]}" --port 0 --scheduler-file "$scheduler" >"$work/scheduler.log" 2>&1 &
    export SCHEDULER_PID=$!
    nannies=()
    for number in 1 2; do
        setpriv --pdeathsig KILL "$python" -m distributed.cli.dask_worker "${options[@]}" --nthreads 1 --scheduler-file "$scheduler" --local-directory "$work/worker-$number" \
            >"$work/worker-$number.log" 2>&1 &
        nannies+=($!)
    done
    answers test -s "$scheduler"
}

# empty_servers: the log and the store as they were when they were started.
empty_servers() {
    REDISCLI_AUTH=$servers_password redis-cli -p "$log_port" flushall >/dev/null
    "$python" -c 'import os, psycopg2
with psycopg2.connect(os.environ["YASLAUREL_FLEET_STORE"]) as db: db.cursor().execute("drop table if exists alert, state, place, fleet")'
}

# worker PARTITION MESSAGES: a worker in the background; $worker is its process.
worker() {
    "$fleet" work "$1" --policy demo/policy.bin --messages "$2" --until-idle 1 --tries 40 2>>"$work/said.$1" &
    worker=$!
}

# killed_live KILLS HOSTS RECORDS MESSAGES: all messages are sent twice while workers run on two partitions; they are killed at random moments and started again, and the
# log is killed and started again; then two workers have each partition at once, to the end. The store is compared with an undisturbed run.
killed_live() {
    local kills=$1 alive=0 publisher first replaced=0 part
    rm -rf "$work/hosts"
    "$python" "$here/inputs.py" "$work/hosts" "$2" "$3" "$seed"
    "$fleet" init --policy demo/policy.bin --partitions 2 >/dev/null || return 1
    "$python" "$here/live_cases.py" publish "$work/hosts" >"$work/published" 2>&1 &
    publisher=$!
    for number in $(seq "$kills"); do
        worker $((number % 2)) "$4"
        if [ "$number" -eq $((kills / 2)) ]; then
            kill -KILL "$log_pid"
            wait "$log_pid" 2>/dev/null
            start_log "$work" || return 1
        fi
        sleep 0.$((RANDOM % 40 + 25))
        kill -KILL "$worker" 2>/dev/null && alive=$((alive + 1))
        wait "$worker" 2>/dev/null
    done
    wait "$publisher"
    must $? "all messages were sent twice, while the log was killed: $(cat "$work/published")"
    for part in 0 1; do
        worker "$part" "$4"
        first=$worker
        worker "$part" "$4"
        wait "$first"
        last "$part" "$?"
        wait "$worker"
        last "$part" "$?"
    done
    note $((alive < kills / 2)) "$alive of $kills kills found a worker at work; of two workers on a partition, $replaced were replaced"
    counted "the store after all kills" "$python" "$here/live_cases.py" compare "$work/hosts"
}

# last PARTITION STATUS: a worker that was not killed has come to the end of the log, or was replaced.
last() {
    [ "$2" -eq 0 ] || [ "$2" -eq 6 ]
    note $? "a worker of partition $1 comes to the end of the log, or is replaced"
    [ "$2" -ne 6 ] || replaced=$((replaced + 1))
}
