#!/bin/sh
# Times read_nfit on tables of 64 KiB to 1 MiB. "apart": the mappings of one module share no bytes. "piled":
# all mappings are into one region, and those of one module share all their bytes, so each pair is compared.
# Each figure is the best of seven.
# usage: bench/nfit_reader.sh   (proves and builds a program over nfit_reader in a scratch copy)
# shellcheck source=bench/lib.sh
. "$(dirname -- "$0")/lib.sh"
scratch nfit_bench nfit_reader
build
awk '
    { times[$1] = times[$1] sprintf("%s%.1f ms of %d KiB", times[$1] ? ", " : "", $9 / 1000, $3 / 1024) }
    END {
        printf "| reading a firmware table, mappings of one module apart | no faster than n log n | %s |\n", times["apart"]
        printf "| the same, all mappings on the same bytes | none | %s |\n", times["piled"]
    }' "$work/figures"
