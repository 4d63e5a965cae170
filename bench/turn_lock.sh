#!/bin/sh
# Times turns at a turn lock that all threads share, at one for each thread, and at the kit's Mutex: the median of seven runs, in nanoseconds a turn and in turns a second.
# usage: bench/turn_lock.sh   (proves and builds a program over turn_lock in a scratch copy)
# shellcheck source=bench/lib.sh
. "$(dirname -- "$0")/lib.sh"
scratch turn_lock_bench turn_lock anyhow
mkdir -p specs proofs/take_turns
cp "$top/bench/turn_lock.antt.txt" proofs/take_turns/Invariants.antt
: >specs/Lib.antt
: >proofs/Lib.antt
build
grep -E '^(turn_lock|apart|Mutex|two_atomics) [0-9]+ [0-9]+ [0-9]+$' "$work/figures" |
    awk '{ printf "%s %s %.1f\n", $1, $2, $4 / $3 }' | sort -k1,1 -k2,2n -k3,3n |
    awk '
        function close_group() { if (n) { median[name, threads] = runs[int((n + 1) / 2)]; seen[threads] } n = 0 }
        ($1 != name || $2 != threads) { close_group() }
        { name = $1; threads = $2; runs[++n] = $3 }
        END {
            close_group()
            for (threads = 1; threads <= 64; threads++) if (threads in seen) {
                lock = median["turn_lock", threads]
                mutex = median["Mutex", threads]
                asked = threads == 1 ? "at most 3 times a Mutex" : "none"
                late = threads == 1 && lock > 3 * mutex ? " (NOT MET)" : ""
                printf "| a turn, %d thread%s | %s | %.1f ns, %.1f million a second; Mutex %.1f ns, %.1f million%s |\n", threads, threads == 1 ? "" : "s", asked, lock, 1000 / lock, mutex, 1000 / mutex, late
                if (threads > 1)
                    printf "| a turn, %d threads, each at its own lock | none | %.1f ns |\n", threads, median["apart", threads]
            }
        }'
