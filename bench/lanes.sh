#!/bin/sh
# Times writes and reads of lanes that run at once, beside a plain Rust program with the same steps on atomic words (lanes_twin.rs):
# an arena of 32 MiB with 256 lanes and 64,716 sectors of 512 bytes in memory, random sectors, each thread its own lane.
# usage: bench/lanes.sh   (proves and builds a program over lane_table in a scratch copy)
# shellcheck source=bench/lib.sh
. "$(dirname -- "$0")/lib.sh"
want python3 rustc
scratch lanes_bench nvd_words nvd_media cut_words arena_layout arena_open lane_table uuid
mkdir -p specs proofs
: >specs/Lib.antt
: >proofs/Lib.antt

# invariant FUNCTION LOOP FACT: what holds whenever a loop of a function begins again
invariant() {
    mkdir -p "proofs/$1"
    cat >"proofs/$1/Invariants.antt" <<EOS
use Rattle.std.proofs.Common.{◌≡◌, ◌+◌, [], ◌∷◌, length, true}
use Rattle.std.specs.Prelude.{All}
use Rattle.lane_table.specs.Kits.{arena_id, held_in, IsOf}
use Rattle.lane_table.specs.Law.{may_enter, new_pass}
use Rattle.lanes_bench.proofs.$1.Given as goal

abbrev pub invariant-$2 : goal.invariant-$2
invariant-$2 l = $3
EOS
}
may='may_enter (held_in l.KIT) (record { session = l.session; call = l.next }) ≡ true'
invariant stage loop "IsOf l.arena l.lane.kit × ($(echo "$may" | sed 's/KIT/lane.kit/'))"
invariant commit loop "IsOf l.arena l.staged.kit × ($(echo "$may" | sed 's/KIT/staged.kit/'))"
invariant read loop "IsOf l.arena l.lane.kit × (length l.into ≡ length l.initial.into) × ($(echo "$may" | sed 's/KIT/lane.kit/'))"
invariant fill loop-sector 'IsOf l.arena l.client.lane.kit'
invariant write_many loop 'IsOf l.arena l.client.lane.kit'
invariant read_many loop 'IsOf l.arena l.client.lane.kit × (length l.words ≡ 64)'
invariant workers loop 'All (λ k. IsOf l.arena k.kit) l.lanes.items × All (λ k. held_in k.kit ≡ []) l.lanes.items × All (λ p. p.seat.table_id ≡ arena_id l.arena) l.passes.items × All (λ p. p.seat.me.0.loose ≡ new_pass p.session ∷ []) l.passes.items'
invariant passes_of loop '(IsOf l.arena l.first.kit) × (l.first.kit.number ≡ 0) × (l.first.kit.made ≡ l.counter) × (held_in l.first.kit ≡ held_in l.initial.first.kit) × All (λ p. p.seat.table_id ≡ arena_id l.arena) l.passes.items × All (λ p. p.seat.me.0.loose ≡ new_pass p.session ∷ []) l.passes.items'
build
rustc -O --edition 2021 -o "$work/twin" "$top/bench/lanes_twin.rs"
python3 - out/lanes_bench "$work/twin" <<'PY'
import statistics
import subprocess
import sys
from rows import row

PROVED, TWIN = sys.argv[1:]
# Many reads: else what the system takes to start the threads counts.
CALLS, ROUNDS = {"write": 20000, "read": 200000}, 15
MOST = {1: 1.5, 4: 1.3}
# How far apart the lanes' numbers are. The reader words of lanes 0, 9, 18 and 27 share no line of cache if all lie side by side, nor if
# neighbouring lanes have theirs in lines apart.
APART = 9


def run(words):
    """Nanoseconds of a write and of a read."""
    text = subprocess.run([str(word) for word in words], stdout=subprocess.PIPE, check=True).stdout.decode()
    return {name: int(nanos) / CALLS[name] for name, nanos in (line.split(": ") for line in text.splitlines()) if name in CALLS}


def by_turns(threads, apart):
    """Runs each program by turns with the plain twin: in each round once before it and, in the next, once behind it. Returns for each
    program and kind of call the median of its times, that of the twin's beside it, and that of the quotients of the two."""
    words = [threads, CALLS["write"], CALLS["read"], apart]
    programs = {
        "proved": [PROVED, *words],
        "spread": [TWIN, *words, 8, 0, 0],
        "logged": [TWIN, *words, 1, 1, 0],
        "ahead": [TWIN, *words, 1, 1, 1],
    }
    pairs = {name: [] for name in programs}
    for number in range(ROUNDS):
        for name, program in programs.items():
            two = [program, [TWIN, *words, 1, 0, 0]]
            if number % 2:
                pairs[name].append(tuple(map(run, two)))
            else:
                pairs[name].append(tuple(map(run, two[::-1]))[::-1])

    def middle(figure, name, call):
        return statistics.median(figure(own[call], twin[call]) for own, twin in pairs[name])

    figures = [lambda own, twin: own, lambda own, twin: twin, lambda own, twin: own / twin]
    return {(name, call): [middle(figure, name, call) for figure in figures] for name in pairs for call in CALLS}


for apart in (APART, 1):
    lanes = "" if apart == APART else ", lanes side by side"
    for threads in (1, 2, 4):
        if apart == 1 and threads == 1:
            continue
        took = by_turns(threads, apart)
        for call in CALLS:
            own, twin, times = took["proved", call]
            spread, logged, ahead = (took[name, call][2] for name in ("spread", "logged", "ahead"))
            loads = f", and with the lines loaded ahead too {ahead:.2f} times" if call == "write" else ""
            most = MOST.get(threads)
            row(
                f"a {call} by a lane, {threads} thread{'s' if threads > 1 else ''}{lanes}",
                f"at most {most} times a plain twin" if most else "none",
                f"{times:.2f} times: {own:.0f} ns and {twin:.0f} ns; the twin with reader words in lines of their own {spread:.2f} times, with logs {logged:.2f} times{loads}",
                not most or times <= most,
            )
PY
