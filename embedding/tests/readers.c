/* Threads that read one server at the same time, each by the calls that take it `const`, and write it between by one thread alone, as a
 * readers-writer lock has it. Prints 'N passed, M failed'. */
#define _POSIX_C_SOURCE 200809L
#include "dehokuna.h"
#include <pthread.h>
#include <stdio.h>

enum { FILE_A = 7, OWNERS = 200, THREADS = 4, ROUNDS = 200, STRANGER = 1000 };

static struct dehokuna_server server;
static pthread_rwlock_t lock = PTHREAD_RWLOCK_INITIALIZER;
static unsigned wrong[THREADS];

/* Owner n has bytes 10 n to 10 n + 8 in one mode or another, which the writer changes. */
static bool set(uint64_t owner, uint32_t mode) {
    return dehokuna_set(&server, FILE_A, owner, 10 * owner, 10 * owner + 8, mode) == DEHOKUNA_DONE;
}

static bool is_told(uint64_t owner) {
    const struct dehokuna_server *readable = &server;
    struct dehokuna_blocker told = {0};
    if (dehokuna_get(readable, FILE_A, STRANGER, 10 * owner + 9, 10 * owner + 9, DEHOKUNA_WRITE, &told) != DEHOKUNA_DONE) return false;
    if (dehokuna_get(readable, FILE_A, STRANGER, 10 * owner, 10 * owner + 9, DEHOKUNA_WRITE, &told) != DEHOKUNA_BLOCKED) return false;
    return told.owner == owner && told.first == 10 * owner && told.last == 10 * owner + 8;
}

static void *read_all(void *number) {
    for (int round = 0; round < ROUNDS; round++) {
        pthread_rwlock_rdlock(&lock);
        for (uint64_t owner = 0; owner < OWNERS; owner++) wrong[*(const int *)number] += !is_told(owner);
        pthread_rwlock_unlock(&lock);
    }
    return NULL;
}

int main(void) {
    unsigned passed = 0, failed = 0;
    int numbers[THREADS];
    bool is_set = true;
    pthread_t threads[THREADS];
    if (!dehokuna_create(&server, DEHOKUNA_HELD)) return 2;
    for (uint64_t owner = 0; owner < OWNERS; owner++) is_set &= set(owner, DEHOKUNA_WRITE);
    for (int number = 0; number < THREADS; number++) {
        numbers[number] = number;
        if (pthread_create(&threads[number], NULL, read_all, &numbers[number]) != 0) return 2;
    }
    for (int round = 0; round < ROUNDS; round++) {
        pthread_rwlock_wrlock(&lock);
        for (uint64_t owner = 0; owner < OWNERS; owner++) is_set &= set(owner, round % 2 ? DEHOKUNA_WRITE : DEHOKUNA_READ);
        pthread_rwlock_unlock(&lock);
    }
    for (int number = 0; number < THREADS; number++) {
        pthread_join(threads[number], NULL);
        *(wrong[number] == 0 ? &passed : &failed) += 1;
    }
    *(is_set ? &passed : &failed) += 1;
    dehokuna_destroy(&server);
    printf("%u passed, %u failed\n", passed, failed);
    return failed ? 1 : 0;
}
