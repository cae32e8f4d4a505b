// The same in C: locks LOCK THREADS TURNS MICROS, where LOCK is `mutex` (pthread) or `ticket` (a ticket lock that yields).
#define _GNU_SOURCE
#include <pthread.h>
#include <sched.h>
#include <stdatomic.h>
#include <stdint.h>
#include <stdio.h>
#include <stdlib.h>
#include <string.h>
#include <time.h>
#include <unistd.h>

static pthread_mutex_t mutex = PTHREAD_MUTEX_INITIALIZER;
static _Alignas(64) atomic_uint_fast64_t next;
static atomic_uint_fast64_t serving;
static uint64_t raised;
static pthread_barrier_t together;
static int by_ticket, micros;

static void *turns(void *count) {
    pthread_barrier_wait(&together);
    for (uint64_t left = *(uint64_t *)count; left > 0; left--) {
        if (by_ticket) {
            uint64_t ticket = atomic_fetch_add(&next, 1);
            while (atomic_load(&serving) != ticket) sched_yield();
        } else {
            pthread_mutex_lock(&mutex);
        }
        raised++;
        if (micros > 0) usleep(micros);
        if (by_ticket) {
            atomic_fetch_add(&serving, 1);
        } else {
            pthread_mutex_unlock(&mutex);
        }
    }
    return NULL;
}

int main(int argc, char **argv) {
    if (argc != 5) return 2;
    int threads = atoi(argv[2]);
    uint64_t each = strtoull(argv[3], NULL, 10) / threads;
    pthread_t running[64];
    struct timespec start, end;
    by_ticket = strcmp(argv[1], "ticket") == 0;
    micros = atoi(argv[4]);
    pthread_barrier_init(&together, NULL, threads);
    clock_gettime(CLOCK_MONOTONIC, &start);
    for (int i = 0; i < threads; i++) pthread_create(&running[i], NULL, turns, &each);
    for (int i = 0; i < threads; i++) pthread_join(running[i], NULL);
    clock_gettime(CLOCK_MONOTONIC, &end);
    printf("%llu %lld\n", (unsigned long long)raised, (end.tv_sec - start.tv_sec) * 1000000LL + (end.tv_nsec - start.tv_nsec) / 1000);
    return 0;
}
