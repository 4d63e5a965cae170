#!/bin/sh
# Times `check_blocks` on an arena of 2^24 blocks, and `entry`, `normal` and `half_words` on as many words.
# usage: bench/arena_formats.sh   (proves and builds a program over map_table and flog in a scratch copy)
# shellcheck source=bench/lib.sh
. "$(dirname -- "$0")/lib.sh"
scratch arena_bench map_table flog
build
awk '
    function row(figure, asked, measured) { printf "| %s | %s | %s |\n", figure, asked, measured }
    function seconds(us,   s) { s = us / 1e6; return sprintf("%.3f s%s", s, s < 0.3 ? "" : " (NOT MET)") }
    function each(us) { return sprintf("%.2f ns", us * 1000 / 2 ^ 24) }
    /^check_blocks, blocks in order:/ { row("check_blocks, 2^24 blocks in order", "under 0.3 s", seconds($5)) }
    /^check_blocks, each block far/ { row("check_blocks, 2^24 blocks far from one another", "under 0.3 s", seconds($9)) }
    /^entry:/ { row("entry, a word", "a few instructions", each($2)) }
    /^half_words:/ { row("half_words, a half", "a few instructions", each($2)) }' "$work/figures"
