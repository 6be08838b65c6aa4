/* Byte locks as fcntl has them, with waits in order of arrival and EDEADLK, for a comparison of `lockreplay --explore` with Spin: four processes
 * that lock bytes of two files. Each request is one step. processes.pml is made from the script (`compare`).
 * With -DFIND an assertion fails where a request is told EDEADLK. */
#define BYTES 6 /* of a file */
#define READ 1
#define WRITE 2

/* The owners' modes on each byte of the two files: process P has the bits 2 P - 2 and 2 P - 1. */
byte held[2 * BYTES];

/* Who waits, in order of arrival (0 behind the last), and for which byte and mode. */
byte queue[4];
byte wanted[5];
byte wanted_mode[5];

/* What is used within one step alone (a search breadth first takes no hidden variables). */
#ifdef FIND
byte i, j, k, marked;
#else
hidden byte i, j, k, marked;
#endif

#define AT(file, place) ((file) * BYTES + (place))
#define MODE(at, p) ((held[at] >> (2 * (p) - 2)) & 3)
#define OTHERS(at, p) (held[at] & (255 - (3 << (2 * (p) - 2))))
#define CONFLICT(one, other) (one && other && (one == WRITE || other == WRITE))
/* A write lock is blocked by any lock of another, a read lock by a write lock. */
#define BLOCKED(at, p, mode) (OTHERS(at, p) & (mode == WRITE -> 255 : 170))
#define WAITS(p) (queue[0] == p || queue[1] == p || queue[2] == p || queue[3] == p)

inline put(at, p, mode) {
    held[at] = OTHERS(at, p) | ((mode) << (2 * (p) - 2))
}

inline leave_queue() {
    do
    :: i < 3 -> queue[i] = queue[i + 1]; i++
    :: else -> queue[3] = 0; break
    od
}

/* Grants the earliest wait that nothing blocks, again and again. */
inline settle() {
    i = 0;
    do
    :: i == 4 || queue[i] == 0 -> break
    :: else ->
        k = queue[i];
        if
        :: BLOCKED(wanted[k], k, wanted_mode[k]) -> i++
        :: else ->
            put(wanted[k], k, wanted_mode[k]);
            wanted[k] = 0;
            wanted_mode[k] = 0;
            leave_queue();
            i = 0
        fi
    od;
    i = 0; j = 0; k = 0; marked = 0
}

/* Marks who blocks a lock of p. */
inline reach(at, p, mode) {
    j = 1;
    do
    :: j == 5 -> break
    :: j != p && j < 5 && CONFLICT(MODE(at, j), mode) -> marked = marked | (1 << j); j++
    :: else -> j++
    od
}

/* Marks who is reached from those who block the lock; with four processes three rounds find all. */
inline reach_all(at, p, mode) {
    marked = 0;
    reach(at, p, mode);
    i = 0;
    do
    :: i == 12 -> break
    :: else ->
        k = i % 4 + 1;
        if
        :: (marked & (1 << k)) && WAITS(k) -> reach(wanted[k], k, wanted_mode[k])
        :: else
        fi;
        i++
    od
}

inline wait_for(at, p, mode) {
    i = 0;
    do
    :: queue[i] == 0 -> break
    :: else -> i++
    od;
    queue[i] = p;
    wanted[p] = at;
    wanted_mode[p] = mode
}

#ifdef FIND
#define TELL_EDEADLK assert(false)
#else
#define TELL_EDEADLK skip
#endif

/* F_SETLKW. */
inline setlkw(p, file, mode, place) {
    d_step {
        !WAITS(p);
        if
        :: BLOCKED(AT(file, place), p, mode) ->
            reach_all(AT(file, place), p, mode);
            if
            :: marked & (1 << p) -> TELL_EDEADLK
            :: else -> wait_for(AT(file, place), p, mode)
            fi
        :: else -> put(AT(file, place), p, mode)
        fi;
        settle()
    }
}

/* F_SETLK that unlocks. */
inline unlock(p, file, place) {
    d_step {
        !WAITS(p);
        put(AT(file, place), p, 0);
        settle()
    }
}

#include "processes.pml"
