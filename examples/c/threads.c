/* One world, four threads of C's, and a lock of C's round each call. */
#include "voxdag.h"
#include <pthread.h>
#include <stdio.h>

static voxdag_world w;
static pthread_mutex_t lock = PTHREAD_MUTEX_INITIALIZER;

/* Fills 2,000 rows of its own quarter, and asks one cell of each. */
static void *work(void *arg)
{
    uint32_t me = *(uint32_t *)arg, wrong = 0;
    for (uint32_t i = 0; i < 2000; i++) {
        voxdag_box row = {{16 * me, i % 64, i / 64}, {16, 1, 1}};
        voxdag_place last = {16 * me + 15, i % 64, i / 64};
        bool set = false;
        uint32_t newest;
        pthread_mutex_lock(&lock);
        wrong += voxdag_fill(&w, &row) != VOXDAG_OK;
        wrong += voxdag_newest(&w, &newest) != VOXDAG_OK;
        wrong += voxdag_get(&w, newest, &last, &set) != VOXDAG_OK || !set;
        pthread_mutex_unlock(&lock);
    }
    *(uint32_t *)arg = wrong;
    return NULL;
}

int main(void)
{
    pthread_t threads[4];
    uint32_t given[4], wrong = 0, newest = 0;
    uint64_t cells = 0;
    voxdag_box all = {{0, 0, 0}, {64, 64, 64}};
    if (voxdag_open(&w, 64)) return 1;
    for (uint32_t k = 0; k < 4; k++) {
        given[k] = k;
        if (pthread_create(&threads[k], NULL, work, &given[k])) return 1;
    }
    for (uint32_t k = 0; k < 4; k++) {
        pthread_join(threads[k], NULL);
        wrong += given[k];
    }
    if (voxdag_newest(&w, &newest) || voxdag_count(&w, newest, &all, &cells)) return 1;
    printf("threads: %u wrong, version %u, %llu cells\n", wrong, newest, (unsigned long long)cells);
    if (voxdag_close(&w)) return 1;
    return wrong || newest != 8000 || cells != 128000;
}
