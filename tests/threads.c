/* Calls from several threads on different records: each thread's samples are those that one thread alone gets. */
#include "jabulghi.h"
#include <pthread.h>
#include <stdio.h>
#include <string.h>

#define THREADS 8
#define LENGTH 100000
static int16_t alone[THREADS][LENGTH], together[THREADS][LENGTH];

static void fill(uint32_t thread, int16_t *block) {
    jabulghi_record record;
    jabulghi_seed(3770694558u + thread, 3532774216u, 2901327257u, 4093209576u, 2137023497u, 2889436789u, &record);
    for (size_t at = 0; at < LENGTH; at += 100) jabulghi_block(&record, block + at, 100);
}

static void *run(void *thread) {
    uint32_t number = *(uint32_t *)thread;
    fill(number, together[number]);
    return NULL;
}

int main(void) {
    pthread_t threads[THREADS];
    uint32_t numbers[THREADS];
    for (uint32_t j = 0; j < THREADS; j++) fill(j, alone[j]);
    for (uint32_t j = 0; j < THREADS; j++) {
        numbers[j] = j;
        if (pthread_create(&threads[j], NULL, run, &numbers[j]) != 0) return 1;
    }
    for (uint32_t j = 0; j < THREADS; j++) pthread_join(threads[j], NULL);
    puts(memcmp(alone, together, sizeof alone) == 0 ? "alike" : "DIFFERENT");
}
