/* Threads that ask one server for locks, which a mutex guards as docs/EMBEDDING.md shows it ("Under one lock"): two threads lock two bytes
 * in opposite orders, so that some requests wait and some would deadlock, and none is lost or told twice. Prints 'N passed, M failed'. */
#include "dehokuna.h"
#include <pthread.h>
#include <stdio.h>

enum { FILE_A = 7, BYTES = 2, ROUNDS = 5000 };

/* A request of a thread. Its address is its ticket, so that whoever fetches its grant finds it. */
struct request {
    uint64_t owner, byte;
    uint32_t mode, status;
    bool is_answered;
    struct request *next;
};

static struct dehokuna_server server;
static pthread_mutex_t mutex = PTHREAD_MUTEX_INITIALIZER;

static pthread_mutex_t replies = PTHREAD_MUTEX_INITIALIZER;
static pthread_cond_t replied = PTHREAD_COND_INITIALIZER;

/* How often the owner of each byte, which is alone there, was counted; and what was told twice. */
static unsigned counts[BYTES];
static unsigned told_twice;

/* Answers the request, which its thread may drop as soon as it sees that. */
static void reply(struct request *request, uint32_t status) {
    pthread_mutex_lock(&replies);
    told_twice += request->is_answered;
    request->status = status;
    request->is_answered = true;
    pthread_cond_broadcast(&replied);
    pthread_mutex_unlock(&replies);
}

/* The one call of the library that the request stands for. */
static uint32_t ask(struct request *request) {
    if (request->mode == DEHOKUNA_UNLOCK) {
        dehokuna_flush(&server, FILE_A, request->owner);
        return DEHOKUNA_DONE;
    }
    return dehokuna_wait(&server, (uintptr_t)request, FILE_A, request->owner, request->byte, request->byte, request->mode, true);
}

static void serve(struct request *request) {
    struct request *granted = NULL, **end = &granted;
    pthread_mutex_lock(&mutex);
    uint32_t status = ask(request); /* its ticket is its address */
    for (uint64_t ticket; dehokuna_next_grant(&server, &ticket); end = &(*end)->next) *end = (struct request *)(uintptr_t)ticket;
    *end = NULL;
    pthread_mutex_unlock(&mutex);
    if (status != DEHOKUNA_WAITS) reply(request, status); /* else another thread may have answered it */
    for (struct request *next; granted; granted = next) {
        next = granted->next; /* before the reply, after which it may be gone */
        reply(granted, DEHOKUNA_DONE);
    }
}

/* The status of a request, which this thread waits for. */
static uint32_t await_reply(struct request request) {
    serve(&request);
    pthread_mutex_lock(&replies);
    while (!request.is_answered) pthread_cond_wait(&replied, &replies);
    pthread_mutex_unlock(&replies);
    return request.status;
}

/* Locks both bytes, from the one of its own number on, and counts each; a deadlock has it begin again. */
static void *lock_both(void *number) {
    const uint64_t owner = *(const uint64_t *)number;
    for (unsigned round = 0; round < ROUNDS;) {
        uint32_t status = DEHOKUNA_DONE;
        for (uint64_t step = 0; step < BYTES && status == DEHOKUNA_DONE; step++)
            status = await_reply((struct request){.owner = owner, .byte = (owner + step) % BYTES, .mode = DEHOKUNA_WRITE});
        if (status == DEHOKUNA_DONE) {
            for (int byte = 0; byte < BYTES; byte++) counts[byte]++;
            round++;
        } else if (status != DEHOKUNA_DEADLOCK) {
            return NULL;
        }
        await_reply((struct request){.owner = owner, .mode = DEHOKUNA_UNLOCK});
    }
    return NULL;
}

int main(void) {
    enum { THREADS = 2 };
    unsigned passed = 0, failed = 0;
    uint64_t owners[THREADS];
    pthread_t threads[THREADS];
    if (!dehokuna_create(&server, DEHOKUNA_HELD)) return 2;
    for (uint64_t number = 0; number < THREADS; number++) {
        owners[number] = number;
        if (pthread_create(&threads[number], NULL, lock_both, &owners[number]) != 0) return 2;
    }
    for (int number = 0; number < THREADS; number++) pthread_join(threads[number], NULL);
    for (int byte = 0; byte < BYTES; byte++) *(counts[byte] == THREADS * ROUNDS ? &passed : &failed) += 1;
    *(told_twice == 0 ? &passed : &failed) += 1;
    dehokuna_destroy(&server);
    printf("%u passed, %u failed\n", passed, failed);
    return failed ? 1 : 0;
}
