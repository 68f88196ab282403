/* Does many pieces of work by several threads; which one does a piece does not matter to it. */
#include "command.h"
#include <pthread.h>

#define MOST_THREADS 256

/* What the threads share; next and number are changed while the lock is held. */
typedef struct {
    const labour *of;
    pthread_mutex_t lock;
    uint64_t next;
    uint32_t number;
} pool;

/* The next pieces to be done, none where all are; and how far the work is. */
static uint64_t take_pieces(pool *p, uint64_t *start) {
    pthread_mutex_lock(&p->lock);
    uint64_t left = p->number == JABULGHI_OK ? p->of->pieces - p->next : 0,
             taken = left < p->of->stretch ? left : p->of->stretch;
    *start = p->next;
    p->next += taken;
    progress_show(*start, p->of->pieces);
    pthread_mutex_unlock(&p->lock);
    return taken;
}

static void *do_some(void *shared) {
    pool *p = shared;
    uint64_t start, pieces;
    while ((pieces = take_pieces(p, &start)) > 0) {
        uint32_t number = p->of->run(p->of->context, start, (size_t)pieces);
        if (number == JABULGHI_OK) continue;
        pthread_mutex_lock(&p->lock);
        p->number = number;
        pthread_mutex_unlock(&p->lock);
    }
    return NULL;
}

/* This thread works too, so that a system without threads is slower and no more. */
uint32_t by_threads(const labour *work, const char *counted) {
    pool p = {work, PTHREAD_MUTEX_INITIALIZER, 0, JABULGHI_OK};
    pthread_t threads[MOST_THREADS];
    size_t started = 0;
    progress_start(counted, true);
    while (started + 1 < work->threads && started < MOST_THREADS &&
           pthread_create(&threads[started], NULL, do_some, &p) == 0)
        started++;
    do_some(&p);
    for (size_t j = 0; j < started; j++) pthread_join(threads[j], NULL);
    pthread_mutex_destroy(&p.lock);
    progress_end(work->pieces, work->pieces);
    return p.number;
}
