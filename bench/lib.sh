# shellcheck shell=sh
# What the scripts of this folder share; each begins with:  . "$(dirname -- "$0")/lib.sh"
#
# A script prints a row for each figure (`row`, or `row` of bench/rows.py): | figure | asked | measured |. Status 77 means that it
# can't run here; the reason is on standard error. It works in the new directory $work, which is removed at its end.
set -eu
top=$(CDPATH='' cd -- "$(dirname -- "$0")/.." && pwd)
work=$(mktemp -d)
trap 'rm -rf "$work"' EXIT
trap 'exit 130' INT
trap 'exit 143' TERM
# shellcheck source=lib/memory.sh
. "$top/lib/memory.sh"
export PYTHONDONTWRITEBYTECODE=1 PYTHONPATH="$top/bench:$top/samples:$top/lib"

# skip REASON: prints why the script can't run here, and ends it
skip() {
    echo "$(basename -- "$0"): $1" >&2
    exit 77
}

# want TOOL ..
want() {
    for tool in "$@"; do
        command -v "$tool" >/dev/null 2>&1 || skip "wants $tool, and it isn't here"
    done
}

# row FIGURE ASKED MEASURED
row() {
    printf '| %s | %s | %s |\n' "$1" "$2" "$3"
}

# proved: sets program to the proved build of these very sources
proved() {
    want python3
    # shellcheck disable=SC2034
    program=$top/crates/nvdimm_shell/out/nvdimm_shell
    NVD_BUILD=kept NVD_QUIET=1 "$top/nvd" "$top/samples/small" - nfit >/dev/null 2>&1 ||
        skip 'wants the proved build: NVD_BUILD=proved ./nvd samples/small - nfit makes it'
}

# scratch NAME LIBRARY ..: enters a new crate, made from the script's own bench/*.rt.txt and these libraries, in a copy of the
# repository's crates that they need; libraries of the kit are named too. With BENCH_KEEP=DIRECTORY the copy stays there, in a
# folder with the script's name. A second run then proves nothing again, and measures on a quiet machine.
scratch() {
    want rt
    crate=$1
    shift
    script=$(basename -- "$0" .sh)
    copy=$work
    if [ -n "${BENCH_KEEP:-}" ]; then
        mkdir -p "$BENCH_KEEP/$script"
        copy=$(CDPATH='' cd -- "$BENCH_KEEP/$script" && pwd)
    fi
    mkdir -p "$copy/crates/$crate/src"
    : >"$copy/crates.txt"
    # shellcheck disable=SC2013
    for name in $(awk -v wanted="$*" '
        function add(name,   parts, count, i) {
            if (!(name in below) || name in got) return
            got[name]
            count = split(below[name], parts, " ")
            for (i = 1; i <= count; i++) add(parts[i])
        }
        /^[^#]/ { name = $1; sub(/:.*/, "", name); sub(/^[^:]*:/, ""); below[name] = $0 }
        END { count = split(wanted, names, " "); for (i = 1; i <= count; i++) add(names[i]); for (name in got) print name }' "$top/crates.txt"); do
        mkdir -p "$copy/crates/$name"
        for part in src specs proofs; do
            rm -rf "$copy/crates/$name/$part"
            [ ! -d "$top/crates/$name/$part" ] || cp -r "$top/crates/$name/$part" "$copy/crates/$name"
        done
        grep "^$name:" "$top/crates.txt" >>"$copy/crates.txt"
    done
    echo "$crate: $*" >>"$copy/crates.txt"
    [ ! -e "$top/HANDLES" ] || cp "$top/HANDLES" "$copy"
    cp "$top/bench/$script.rt.txt" "$copy/crates/$crate/src/main.rt"
    cd "$copy/crates/$crate"
}

# build: proves, builds and runs the scratch crate, with an argument if $given is set; its output is in $work/figures then
given=
build() {
    rt run ${given:+-- "$given"} </dev/null >"$work/figures" 2>"$work/log" || {
        tail -n 40 "$work/log" >&2
        exit 1
    }
}
