#!/usr/bin/env bash
# Times the proved program on exercises of 64 threads, beside a yardstick in the same run.
#
# Each thread makes 16, 64, 256 or 1,024 calls, and locks and unlocks one mutex in turn. With 64 mutexes
# each thread has its own, so that no call waits; with 8, eight threads share each. The exercises are the
# same every time. Each event stands in its object's book, too.
#
# The yardstick is awk, which reads the rows of that run and writes each by a write of its own, as the
# program does. Each time is the best of three. Beside the events and the seconds stands how many times
# more they are than in the line above: where the two are alike, the time grows as the events do.
#
# Where valgrind is there, a second table counts the instructions of the program for each event of a run or a trace,
# and for each byte of a text, which come out the same on every machine of one kind. Where python3 is there, the last
# lines say how much memory the longest run takes for each event, and its trace, as it is and backwards.
set -eu
export LC_ALL=C

here=$(cd "$(dirname "$0")/.." && pwd)
program=$here/crates/mentor/out/mentor
room=$(mktemp -d)
trap 'rm -rf "$room"' EXIT

# Proves and builds the program where that isn't done yet.
(cd "$here/crates/mentor" && rt run -- run <"$here/exercises/empty.txt" >"$room/first")
if [ "$(cat "$room/first")" != "done 0" ]; then
    echo "bench: the program doesn't run the empty exercise" >&2
    exit 1
fi

# Writes an exercise of 64 threads with so many calls each, over so many mutexes.
exercise() {
    awk -v calls="$1" -v mutexes="$2" 'BEGIN {
        for (m = 0; m < mutexes; m++) print "mutex m" m
        for (t = 1; t <= 64; t++) {
            print "thread T" t
            for (c = 0; c < calls; c += 2) {
                print "lock m" (t % mutexes)
                print "unlock m" (t % mutexes)
            }
            print "end"
        }
    }'
}

# Writes an exercise of so many threads, each of which makes the calls so often. `%` in an object's name stands
# for the thread's number divided by 8.
repeated() {
    local declared=$1 threads=$2 times=$3
    shift 3
    printf '%s\n' "$declared"
    for thread in $(seq "$threads"); do
        printf 'thread T%d\nrepeat %d\n' "$thread" "$times"
        printf '%s\n' "${@//%/$((thread % 8))}"
        printf 'end\nend\n'
    done
}

# Writes a text of a mebibyte at most, with so many lines for each of 64 threads, the last of which isn't ended,
# so that nothing runs. The other words are what the lines say, in turn.
unended() {
    local lines=$1
    shift
    awk -v lines="$lines" -v said="$*" 'BEGIN {
        count = split(said, line, ";")
        print "sem a 9\nmutex mutex_of_all\nvar counter 0"
        for (t = 1; t <= 64; t++) {
            print "thread T" t
            for (k = 0; k < lines; k++) print line[k % count + 1]
            if (t < 64) print "end"
        }
    }'
}

# Sets `count` to how many instructions the program takes over the file with these words.
count_instructions() {
    local from=$1
    shift
    valgrind --tool=callgrind --callgrind-out-file=/dev/null "$program" "$@" \
        <"$from" >"$room/rows" 2>"$room/said" || true
    count=$(awk '/Collected/ { print $NF }' "$room/said")
}

# Prints the line of a run: what it is, how many events it has, and the instructions for each.
instructions_of_run() {
    local name=$1
    shift
    count_instructions "$room/exercise" run --events 10000 "$@"
    read -r word events < <(tail -n 1 "$room/rows")
    [ "$word" = done ] || exit 1
    awk -v name="$name" -v events="$events" -v count="$count" \
        'BEGIN { printf "%-52s %8d %8.0f\n", name, events, count / events }'
}

# Prints the line of a trace that is judged, the exercise's rows from the last run in the order that the command gives
# them: what it is, how many events it has, and the instructions for each.
instructions_of_trace() {
    local name=$1
    shift
    head -n -1 "$room/rows" >"$room/events"
    { cat "$room/exercise" && echo trace && "$@" <"$room/events"; } >"$room/trace"
    count_instructions "$room/trace" check
    read -r word events < <(tail -n 1 "$room/rows")
    [ "$word" = legal ] || exit 1
    awk -v name="$name" -v events="$events" -v count="$count" \
        'BEGIN { printf "%-52s %8d %8.0f\n", name, events, count / events }'
}

# Prints the line of the large run that this number makes: how many events it has, and the instructions for each.
instructions_of_large() {
    count_instructions /dev/null large "$1"
    read -r word events < <(tail -n 1 "$room/rows")
    [ "$word" = done ] || exit 1
    awk -v number="$1" -v events="$events" -v count="$count" \
        'BEGIN { printf "%-52s %8d %8.0f\n", "large " number ", no rows", events, count / events }'
}

# Prints the line of a text that is read: what it is, how many bytes it has, and the instructions for each.
instructions_of_text() {
    count_instructions "$room/exercise" run
    awk -v name="$1" -v bytes="$(wc -c <"$room/exercise")" -v count="$count" \
        'BEGIN { printf "%-52s %8d %8.0f\n", name, bytes, count / bytes }'
}

# Runs the command three times over the file, into another, and sets `best` to its least microseconds.
best_of_three() {
    local from=$1 to=$2 start took
    shift 2
    best=
    for _ in 1 2 3; do
        start=${EPOCHREALTIME/./}
        "$@" <"$from" >"$to"
        took=$((${EPOCHREALTIME/./} - start))
        if [ -z "$best" ] || [ "$took" -lt "$best" ]; then
            best=$took
        fi
    done
}

printf '%7s %6s %8s %6s %9s %6s %10s %9s %6s\n' \
    mutexes calls events more seconds more events/s yardstick ratio
for mutexes in 64 8; do
    events_before=0 took_before=0
    for calls in 16 64 256 1024; do
        exercise "$calls" "$mutexes" >"$room/exercise"
        best_of_three "$room/exercise" "$room/rows" "$program" run --events 10000
        took=$best
        read -r word events < <(tail -n 1 "$room/rows")
        if [ "$word" != done ] || [ "$(wc -l <"$room/rows")" -ne $((events + 1)) ]; then
            echo "bench: a run of $calls calls over $mutexes mutexes isn't whole" >&2
            exit 1
        fi
        best_of_three "$room/rows" "$room/copy" awk '{ print; fflush() }'
        cmp -s "$room/rows" "$room/copy" || exit 1
        awk -v mutexes="$mutexes" -v calls="$calls" -v events="$events" -v took="$took" -v yard="$best" \
            -v events_before="$events_before" -v took_before="$took_before" '
            function more(now, before) { return before ? sprintf("x%.1f", now / before) : "-" }
            BEGIN {
                printf "%7d %6d %8d %6s %9.4f %6s %10.0f %9.4f %6.2f\n", mutexes, calls,
                    events, more(events, events_before), took / 1e6, more(took, took_before),
                    events * 1e6 / took, yard / 1e6, took / yard
            }'
        events_before=$events took_before=$took
    done
done

if command -v valgrind >/dev/null; then
    printf '\n%-52s %8s %8s\n' run events 'instr.'
    repeated "$(printf 'mutex m%d\n' 0 1 2 3 4 5 6 7)" 64 400 'lock m%' 'unlock m%' >"$room/exercise"
    instructions_of_run '64 threads on 8 mutexes, schedule 0'
    instructions_of_run '64 threads on 8 mutexes, schedule 7' --schedule 7
    repeated 'var x 0' 20 10000 'add x 1' >"$room/exercise"
    instructions_of_run '20 threads add to a variable'
    instructions_of_trace 'the rows of these, judged' cat
    instructions_of_trace 'the same in reversed order' tac
    repeated 'var x 0' 64 10000 'add x 1' >"$room/exercise"
    instructions_of_run '64 threads add to a variable'
    instructions_of_trace 'the rows of these, judged' cat
    instructions_of_large 7
    printf '\n%-52s %8s %8s\n' text bytes 'instr.'
    unended 1190 'lock mutex_of_all;read counter r0;add counter 1;write counter r0;unlock mutex_of_all;p a;v a' \
        >"$room/exercise"
    instructions_of_text 'locks, reads, additions, writes and semaphores'
    unended 4050 'p a' >"$room/exercise"
    instructions_of_text 'the shortest lines'
fi

if command -v python3 >/dev/null; then
    repeated 'var x 0' 64 10000 'add x 1' >"$room/exercise"
    "$program" run --events 10000 <"$room/exercise" >"$room/rows"
    { cat "$room/exercise" && echo trace && head -n -1 "$room/rows"; } >"$room/trace"
    { cat "$room/exercise" && echo trace && head -n -1 "$room/rows" | tac; } >"$room/back"
    # Says how much memory a command takes over the file, beyond what is said, for each event.
    memory() {
        python3 - "$program" "$@" <<'END'
import os, resource, subprocess, sys

program, name, text, beyond, *words = sys.argv[1:]
run = subprocess.run([program, *words], stdin=open(text), stdout=subprocess.PIPE)
events = int(run.stdout.split()[-1])
peak = resource.getrusage(resource.RUSAGE_CHILDREN).ru_maxrss * 1024
if beyond == "input":
    peak -= os.path.getsize(text)
print(f"memory of {name}: {peak / events:.0f} bytes an event")
END
    }
    printf '\n'
    memory 'the last run' "$room/exercise" nothing run --events 10000
    memory 'its trace, beside the text' "$room/trace" input check
    memory 'the same in reversed order' "$room/back" input check
fi
