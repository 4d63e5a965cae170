#!/bin/sh
# Shows what nvdimm_shell does: `nvd demo` runs this.
#
# It makes an image set of two blank modules in a temporary directory, initialises it, and creates, renames and deletes namespaces.
# It cuts power in between, lists the state after the crash, and recovers. It runs a race of two lanes, and sessions at once. If xz
# is there, it reads a sector namespace that Linux wrote. Each command is shown with its output and its exit status. Nothing is left
# behind. The exit status is 0 only if every command ended with the right status.
#
# It shows colours on a terminal, unless NO_COLOR is set.
set -eu
top=$(CDPATH='' cd -- "$(dirname -- "$0")/.." && pwd)
work=$(mktemp -d)
trap 'rm -rf "$work"' EXIT
trap 'exit 130' INT
trap 'exit 143' TERM
export NVD_QUIET=1

plain='' bold='' green='' red='' blue=''
if [ -t 1 ] && [ -z "${NO_COLOR:-}" ] && [ "${TERM:-dumb}" != dumb ]; then
    plain=$(printf '\033[0m') bold=$(printf '\033[1m') green=$(printf '\033[32m') red=$(printf '\033[31m') blue=$(printf '\033[34m')
fi
wrong=0
steps=0

tell() {
    printf '\n%s# %s%s\n' "$blue" "$1" "$plain"
}

# shows a command line with the words quoted where they need it
show() {
    printf '%s$ nvd' "$bold"
    for word in "$@"; do
        case $word in
        *[!a-zA-Z0-9./_:-]* | '') printf " '%s'" "$word" ;;
        *) printf ' %s' "$word" ;;
        esac
    done
    printf '%s\n' "$plain"
}

# step STATUS WORDS ..: runs nvd, shows what came and whether the status is this one
step() {
    due=$1
    shift
    show "$@"
    status=0
    "$top/nvd" "$@" >said 2>noted || status=$?
    # a line of a sector of 512 bytes is longer than a screen
    cut -c 1-160 said
    grep '^nvd: ' noted || true
    steps=$((steps + 1))
    if [ "$status" -eq "$due" ]; then
        printf '%sexit status %s%s\n' "$green" "$status" "$plain"
    else
        printf '%sexit status %s, and it has to be %s%s\n' "$red" "$status" "$due" "$plain"
        wrong=$((wrong + 1))
    fi
}

if ! command -v python3 >/dev/null 2>&1; then
    echo 'nvd demo: wants python3, which makes the first image set: install it' >&2
    exit 1
fi
cd "$work"
if ! NVD_BUILD=kept "$top/nvd" "$top/samples/small" - nfit >said 2>noted && grep -q 'no proved build' noted; then
    echo 'There is no proved build of these sources. The first step compiles them unproved, a minute or more, unless that was done before.'
fi

first=11111111-1111-4111-8111-111111111111
second=22222222-2222-4222-8222-222222222222

tell 'An image set of two blank modules: one region, in which the modules take turns every 4,096 bytes.'
python3 "$top/samples/make_blank.py" blank --size 65536 --labels 4096
step 0 blank - nfit
step 3 blank - labels 0

tell 'init writes the first index blocks into a new set. A crash before the first block is valid leaves none:'
step 8 blank torn0 init 0 --cut 40
step 3 torn0 - labels 0

tell 'The set after a crash is a set like any other.'
step 0 torn0 one init 0
step 0 one ready init 1
step 0 ready - labels 0

tell 'A namespace of 16 KiB over both modules:'
step 0 ready made create --uuid $first --name data --region 0 --size 16384 --mode raw
step 0 made - list

tell 'A second namespace. Power is cut after 200 steps, when only one module has its label:'
step 8 made torn1 create --uuid $second --name logs --region 0 --size 8192 --mode raw --cut 200
step 0 torn1 - list

tell 'The next command that changes something recovers first: it removes the unfinished namespace.'
step 0 torn1 renamed rename $first records
step 0 renamed - list

tell 'A rename that crashes stays pending. Recovery returns to its old name or its new one:'
step 8 renamed torn2 rename $first 'Größe "q"' --cut 300
step 0 torn2 - list
step 0 torn2 both create --uuid $second --name logs --region 0 --size 8192 --mode raw
step 0 both - list

tell 'A command that is refused says why, and makes no set.'
step 4 both none create --uuid $second --name again --region 0 --size 8192 --mode raw
step 4 both none create --uuid 33333333-3333-4333-8333-333333333333 --name big --region 0 --size 1048576 --mode raw

tell 'The space of a deleted namespace is free again.'
step 0 both last delete $first
step 0 last - list

tell 'Two lanes of a sector namespace race, as the schedule samples/races/block_comes_back says: a reader whose block comes back.'
python3 "$top/samples/make_blank.py" racers --modules 1 --size 16777216 --labels 4096
step 0 racers racers0 init 0
step 0 racers0 arena create --uuid $first --name race --region 0 --size 16777216 --mode sector --lanes 2
cat "$top/samples/races/block_comes_back"
step 0 arena raced replay $first <"$top/samples/races/block_comes_back"

tell 'A write loses power when its log entry is whole. Opening completes it, and the next write takes another block:'
cat "$top/samples/races/lost_write"
step 0 arena torn3 replay $first <"$top/samples/races/lost_write"
step 0 torn3 - info $first
step 0 torn3 later replay $first <"$top/samples/races/next_write"
step 0 later - read $first 9

tell 'check lists everything that is wrong with the arenas of a namespace. Here is nothing; then a byte of the info block and a map entry are changed:'
step 0 later looked0 check $first
cp -r later damaged
printf x | dd of=damaged/contents-0.bin bs=1 seek=84 conv=notrunc status=none
printf '\012\0\0\300' | dd of=damaged/contents-0.bin bs=1 seek=$((16637952 + 4 * 11)) conv=notrunc status=none
step 3 damaged - info $first
step 0 damaged looked1 check $first

tell 'Without a UUID check looks at the whole set: objects, regions, label areas and namespaces too. What a crash left is a notice, and no fault:'
step 0 torn1 - check
step 3 damaged - check

tell 'With --repair what needs no guess is mended in OUT: the info block has a backup. Which sector has the block that two of them name, nobody knows:'
step 0 damaged repaired check $first --repair
step 0 repaired looked2 check $first

tell 'rescue prints all sectors that can still be read, and zeros for those that are lost. With --lost it says which are:'
step 3 damaged - rescue $first --lost

tell 'Two sessions write one sector at once, as the script samples/scripts/two_writers says. Each reads its own value, or that of the other:'
cat "$top/samples/scripts/two_writers"
step 0 arena written serve <"$top/samples/scripts/two_writers"

tell 'load makes sessions from a number. The checksum of their replies is the same with any number of workers:'
step 0 arena loaded load 7 --uuid $first --workers 1
step 0 arena again load 7 --uuid $first --workers 4

if command -v xz >/dev/null 2>&1; then
    tell 'A set that Linux wrote, samples/linux/ns12: the arenas of a sector namespace, a sector, and one past the end.'
    mkdir linux
    for packed in "$top"/samples/linux/ns12/*.bin.xz; do
        xz -dc "$packed" >"linux/$(basename "$packed" .xz)"
    done
    cp "$top"/samples/linux/ns12/nfit.bin "$top"/samples/linux/ns12/complete linux
    sectors=20000000-0000-4000-8000-000000000002
    step 0 linux - list
    step 0 linux - info $sectors
    step 0 linux - read $sectors 5000
    step 4 linux - read $sectors 4000000000
else
    tell 'There is no xz here, so samples/linux/ns12 is left out: a set that Linux wrote, with a sector namespace.'
fi

tell "$steps commands, $wrong with another exit status than they had to have."
[ "$wrong" -eq 0 ]
