# shellcheck shell=sh
# How the program gets memory: bench/lib.sh reads this file, and lib/runs.py sets the same for nvd.
#
# glibc asks Linux for huge pages, of 2 MiB and not 4 KiB, for what it allocates in large pieces: 512 MiB are then 256 pages and not
# 131,072. It changes nothing if the system gives none (`never` in /sys/kernel/mm/transparent_hugepage/enabled), or with
# a C library that doesn't know the word (glibc before 2.35, musl). Whoever sets GLIBC_TUNABLES decides.
: "${GLIBC_TUNABLES=glibc.malloc.hugetlb=1}"
export GLIBC_TUNABLES
