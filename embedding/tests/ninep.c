/* The lock messages of 9P2000.L over the library, as docs/EMBEDDING.md maps them: takes a Tlock or Tgetlock as bytes, and writes the reply.
 * Prints 'N passed, M failed' of messages whose replies are told by Linux's fs/9p and include/net/9p/9p.h. */
#include "dehokuna.h"
#include <stdio.h>
#include <string.h>

enum { TLOCK = 52, RLOCK = 53, TGETLOCK = 54, RGETLOCK = 55 };
enum { RDLCK = 0, WRLCK = 1, UNLCK = 2 };
enum { SUCCESS = 0, BLOCKED = 1, ERROR = 2 };
enum { CLIENTS = 16, NAME = 32 };

/* The clients by number (a server grows this table), which is the upper half of their owners' numbers; the lower half is the process. */
static char clients[CLIENTS][NAME];
static unsigned known;

static uint64_t get(const unsigned char *at, int size) {
    uint64_t number = 0;
    for (int byte = size; byte--;) number = number << 8 | at[byte];
    return number;
}

static unsigned char *put(unsigned char *at, uint64_t number, int size) {
    for (int byte = 0; byte < size; byte++, number >>= 8) *at++ = (unsigned char)number;
    return at;
}

static uint64_t owner_of(uint64_t process, const unsigned char *client) {
    const size_t length = get(client, 2) < NAME ? get(client, 2) : NAME - 1;
    unsigned number = 0;
    while (number < known && (strlen(clients[number]) != length || memcmp(clients[number], client + 2, length))) number++;
    if (number == known && known < CLIENTS) memcpy(clients[known++], client + 2, length);
    return (uint64_t)number << 32 | process;
}

/* A length of 0 is to the end; one that overflows is a range without bytes, which the library refuses. */
static uint64_t last_of(uint64_t first, uint64_t length) {
    return !length ? DEHOKUNA_LARGEST_OFFSET : length - 1 > UINT64_MAX - first ? 0 : first + (length - 1);
}

static size_t answer_lock(struct dehokuna_server *server, uint64_t file, const unsigned char *in, unsigned char *out) {
    static const uint32_t modes[] = {[RDLCK] = DEHOKUNA_READ, [WRLCK] = DEHOKUNA_WRITE, [UNLCK] = DEHOKUNA_UNLOCK};
    const uint64_t first = get(in + 16, 8), last = last_of(first, get(in + 24, 8));
    const uint32_t mode = in[11] <= UNLCK ? modes[in[11]] : UINT32_MAX;
    const uint32_t status = dehokuna_set(server, file, owner_of(get(in + 32, 4), in + 36), first, last, mode);
    unsigned char *end = put(put(put(out + 4, RLOCK, 1), get(in + 5, 2), 2), status == DEHOKUNA_DONE ? SUCCESS : status == DEHOKUNA_BLOCKED ? BLOCKED : ERROR, 1);
    /* Nobody waits here, so no grant is to be fetched. */
    put(out, (uint64_t)(end - out), 4);
    return (size_t)(end - out);
}

static size_t answer_getlock(struct dehokuna_server *server, uint64_t file, const unsigned char *in, unsigned char *out) {
    struct dehokuna_blocker told;
    const uint64_t first = get(in + 12, 8), length = get(in + 20, 8);
    unsigned char *end = put(put(out + 4, RGETLOCK, 1), get(in + 5, 2), 2);
    if (dehokuna_get(server, file, owner_of(get(in + 28, 4), in + 32), first, last_of(first, length), DEHOKUNA_WRITE, &told) == DEHOKUNA_BLOCKED) {
        const char *client = clients[told.owner >> 32];
        const uint64_t bytes = told.last == DEHOKUNA_LARGEST_OFFSET ? 0 : told.last - told.first + 1;
        end = put(put(put(end, told.mode == DEHOKUNA_READ ? RDLCK : WRLCK, 1), told.first, 8), bytes, 8);
        end = put(put(end, told.owner & UINT32_MAX, 4), strlen(client), 2);
        end = (unsigned char *)memcpy(end, client, strlen(client)) + strlen(client);
    } else {
        const size_t rest = 8 + 8 + 4 + 2 + get(in + 32, 2);
        end = (unsigned char *)memcpy(put(end, UNLCK, 1), in + 12, rest) + rest;
    }
    put(out, (uint64_t)(end - out), 4);
    return (size_t)(end - out);
}

/* ---- The messages */

static unsigned passed, failed;
static unsigned char message[128], reply[128];

static void ask(struct dehokuna_server *server, int kind, int type, uint64_t first, uint64_t length, uint32_t process, const char *client) {
    unsigned char *end = put(put(put(put(message + 4, (uint64_t)kind, 1), 9, 2), 1, 4), (uint64_t)type, 1);
    if (kind == TLOCK) end = put(end, 1, 4);
    end = put(put(put(put(end, first, 8), length, 8), process, 4), strlen(client), 2);
    memcpy(end, client, strlen(client));
    put(message, (uint64_t)(end - message) + strlen(client), 4);
    (kind == TLOCK ? answer_lock : answer_getlock)(server, 7, message, reply);
}

static void is_told(bool holds, const char *what, int line) {
    *(holds ? &passed : &failed) += 1;
    if (!holds) fprintf(stderr, "ninep.c:%d: %s\n", line, what);
}

#define TOLD(what) is_told(what, #what, __LINE__)

int main(void) {
    struct dehokuna_server server = {0};
    if (!dehokuna_create(&server, DEHOKUNA_HELD)) return 2;
    ask(&server, TLOCK, WRLCK, 10, 20, 100, "ann");
    TOLD(get(reply, 4) == 8 && reply[4] == RLOCK && get(reply + 5, 2) == 9 && reply[7] == SUCCESS);
    ask(&server, TLOCK, RDLCK, 0, 0, 100, "bob");
    TOLD(reply[7] == BLOCKED);
    ask(&server, TGETLOCK, UNLCK, 0, 0, 100, "bob");
    TOLD(get(reply, 4) == 7 + 1 + 8 + 8 + 4 + 2 + 3 && reply[4] == RGETLOCK && reply[7] == WRLCK && get(reply + 8, 8) == 10);
    TOLD(get(reply + 16, 8) == 20 && get(reply + 24, 4) == 100 && get(reply + 28, 2) == 3 && !memcmp(reply + 30, "ann", 3));
    ask(&server, TGETLOCK, UNLCK, 0, 0, 100, "ann");
    TOLD(reply[7] == UNLCK && get(reply + 8, 8) == 0 && get(reply + 28, 2) == 3 && !memcmp(reply + 30, "ann", 3));
    ask(&server, TLOCK, UNLCK, 0, 0, 100, "ann");
    TOLD(reply[7] == SUCCESS);
    ask(&server, TLOCK, RDLCK, 5, 0, 7, "bob");
    TOLD(reply[7] == SUCCESS);
    ask(&server, TGETLOCK, UNLCK, 0, 0, 100, "ann");
    TOLD(reply[7] == RDLCK && get(reply + 8, 8) == 5 && get(reply + 16, 8) == 0 && get(reply + 24, 4) == 7);
    ask(&server, TLOCK, WRLCK, 10, UINT64_MAX, 7, "bob");
    TOLD(reply[7] == ERROR);
    ask(&server, TLOCK, 3, 0, 1, 7, "bob");
    TOLD(reply[7] == ERROR);
    dehokuna_destroy(&server);
    printf("%u passed, %u failed\n", passed, failed);
    return failed ? 1 : 0;
}
