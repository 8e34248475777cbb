/* A hand-written pool, to measure beside: what a job that does nothing costs from its start to its finish, in nanoseconds.

   usage: pool asleep|awake|thread JOBS

   asleep: one worker waits on a condition for a job, and its lead for the answer. awake: both look at a word all the time.
   thread: each job has a thread of its own. */
#include <pthread.h>
#include <stdatomic.h>
#include <stdio.h>
#include <stdlib.h>
#include <string.h>
#include <time.h>

static pthread_mutex_t lock = PTHREAD_MUTEX_INITIALIZER;
static pthread_cond_t changed = PTHREAD_COND_INITIALIZER;
static atomic_int state; /* 0: nothing to do, 1: a job, 2: it is done, 3: no more */

static int is(int wanted, int other) {
    int now = atomic_load(&state);
    return now == wanted || now == other;
}

static void await_asleep(int wanted, int other) {
    pthread_mutex_lock(&lock);
    while (!is(wanted, other)) pthread_cond_wait(&changed, &lock);
    pthread_mutex_unlock(&lock);
}

static void await_awake(int wanted, int other) {
    while (!is(wanted, other)) __builtin_ia32_pause();
}

static void tell_asleep(int next) {
    pthread_mutex_lock(&lock);
    atomic_store(&state, next);
    pthread_cond_broadcast(&changed);
    pthread_mutex_unlock(&lock);
}

static void tell_awake(int next) { atomic_store(&state, next); }

static void (*await)(int, int) = await_asleep;
static void (*tell)(int) = tell_asleep;

static void *work(void *unused) {
    for (;;) {
        await(1, 3);
        if (atomic_load(&state) == 3) return unused;
        tell(2);
    }
}

static void *nothing(void *unused) { return unused; }

int main(int count, char **words) {
    if (count != 3) return 2;
    int is_thread = !strcmp(words[1], "thread");
    long jobs = atol(words[2]);
    pthread_t worker;
    struct timespec from, to;
    if (!strcmp(words[1], "awake")) { await = await_awake; tell = tell_awake; }
    if (!is_thread) pthread_create(&worker, NULL, work, NULL);
    clock_gettime(CLOCK_MONOTONIC, &from);
    for (long n = 0; n < jobs; n++) {
        if (is_thread) {
            pthread_create(&worker, NULL, nothing, NULL);
            pthread_join(worker, NULL);
        } else {
            tell(1);
            await(2, 2);
        }
    }
    clock_gettime(CLOCK_MONOTONIC, &to);
    if (!is_thread) { tell(3); pthread_join(worker, NULL); }
    printf("%.0f\n", ((to.tv_sec - from.tv_sec) * 1e9 + (to.tv_nsec - from.tv_nsec)) / jobs);
    return 0;
}
