/* The two threads of lockfs on several nodes, that of the file system and that of the group. One at a time has the turn, and with it the replica, and
 * what is kept of owners, open files and requests: the group's thread has it but while it waits for messages, and that of the file system as it
 * hands over a request for a lock or looks whether a file may be read. */
#ifndef THREADS_H
#define THREADS_H
#include "replica.h"

/* false: there is nothing to wake the group's thread by. */
bool threads_open(void);
void threads_close(void);
void take_turn(void);
void give_turn(void);
/* Gives the turn away until the other thread tells that something has changed. */
void wait_for_change(void);
void tell_change(void);

/* Where this node stands; who has the turn sets it. */
enum standing standing_now(void);
void set_standing(enum standing now);

/* Wakes the group's thread where it has something to wait for that it doesn't know of; or in any case. */
void wake_group(void);
void wake_group_in_any_case(void);
/* Waits for a change, as the group's thread looks often whether members with a majority are there, until that isn't waited for any more. */
void wait_for_beat(void);
void end_wait_for_beat(void);
/* The group's thread, without the turn: waits for a message, to be woken, or for a timer of the replica. */
void wait_for_group(void);
#endif
