/* The calls of bench/peers.sh on a pool of libpmemblk: threads that each read or write random blocks of 512 bytes of one pool.
   usage: pmemblk POOL read|write THREADS CALLS     prints the nanoseconds a call: the time of all calls, through their number */
#include <libpmemblk.h>
#include <pthread.h>
#include <stdio.h>
#include <stdlib.h>
#include <string.h>
#include <time.h>

static PMEMblkpool *pool;
static size_t blocks;
static long calls;
static int writes;
static pthread_barrier_t gate;

static void *run(void *at)
{
    unsigned long long draw = 88172645463325252ull + (unsigned long long)(size_t)at * 7919;
    char buffer[512];
    memset(buffer, (int)(size_t)at + 1, sizeof buffer);
    pthread_barrier_wait(&gate);
    for (long n = 0; n < calls; n++) {
        draw ^= draw << 13, draw ^= draw >> 7, draw ^= draw << 17;
        long long block = (long long)(draw % blocks);
        if ((writes ? pmemblk_write(pool, buffer, block) : pmemblk_read(pool, buffer, block)) != 0) {
            perror("pmemblk");
            exit(1);
        }
    }
    return NULL;
}

int main(int argc, char **argv)
{
    if (argc != 5)
        return 2;
    int threads = atoi(argv[3]);
    writes = argv[2][0] == 'w';
    calls = atol(argv[4]) / threads;
    pool = pmemblk_create(argv[1], 512, (size_t)64 << 20, 0644);
    if (!pool) {
        perror("pmemblk_create");
        return 1;
    }
    blocks = pmemblk_nblock(pool);
    if (blocks > 32000)
        blocks = 32000;
    char buffer[512] = {1};
    for (size_t n = 0; n < blocks; n++)
        if (pmemblk_write(pool, buffer, (long long)n) != 0)
            return 1;
    pthread_t own[64];
    struct timespec from, to;
    pthread_barrier_init(&gate, NULL, (unsigned)threads + 1);
    for (int n = 0; n < threads; n++)
        pthread_create(&own[n], NULL, run, (void *)(size_t)n);
    clock_gettime(CLOCK_MONOTONIC, &from);
    pthread_barrier_wait(&gate);
    for (int n = 0; n < threads; n++)
        pthread_join(own[n], NULL);
    clock_gettime(CLOCK_MONOTONIC, &to);
    double took = (double)(to.tv_sec - from.tv_sec) * 1e9 + (double)(to.tv_nsec - from.tv_nsec);
    printf("%.0f\n", took / (double)(calls * threads));
    pmemblk_close(pool);
    return 0;
}
