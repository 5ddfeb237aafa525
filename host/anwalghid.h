/* The proved process table, for C and C++. docs/ARCHIVE.md says what the words and numbers mean,
   docs/INTEGRATING.md how a kernel uses it. */
#ifndef ANWALGHID_H
#define ANWALGHID_H

#include <stddef.h>
#include <stdint.h>

#ifdef __cplusplus
extern "C" {
#endif

/* Sizes. A name of a system thread has at most ANWALGHID_NAME_SIZE bytes; a listing and a table's
   text fit in a buffer of LISTING_ROOM and SHOW_ROOM bytes, whatever the table. */
#define ANWALGHID_SLOTS 64
#define ANWALGHID_HARTS 8
#define ANWALGHID_NAME_SIZE 16
#define ANWALGHID_WORDS (21 * ANWALGHID_SLOTS + 4 + ANWALGHID_HARTS)
#define ANWALGHID_LISTING_ROOM (66 * ANWALGHID_SLOTS)
#define ANWALGHID_SHOW_ROOM (66 + 21 * ANWALGHID_HARTS + 439 * ANWALGHID_SLOTS)

/* Channels: 0 none, then each slot's own, then the devices, which alone sleep and wake_up take. */
#define ANWALGHID_FIRST_DEVICE (ANWALGHID_SLOTS + 1)

/* Written by these functions alone, once anwalghid_new has. Zero words, as those of a static, are
   what anwalghid_new writes. */
typedef struct { uint64_t words[ANWALGHID_WORDS]; } anwalghid_table;

/* What a function returns: the call was made, or nothing was touched. */
enum { ANWALGHID_MADE_CALL, ANWALGHID_NOT_ONE_TABLE, ANWALGHID_OUT_OF_RANGE };

/* What a call answers: one of these, then its values. */
typedef uint64_t anwalghid_answer[3];
enum {
    ANWALGHID_DONE,
    ANWALGHID_MADE,    /* pid */
    ANWALGHID_HANDED,  /* slot */
    ANWALGHID_REAPED,  /* pid, status */
    ANWALGHID_JOINED,  /* status, of 32 bits with its sign */
    ANWALGHID_BLOCKED,
    ANWALGHID_REFUSED, /* one of the numbers below */
    ANWALGHID_LISTED   /* bytes */
};

/* Why a call was refused: document 01's numbers. New calls bring new ones. */
enum {
    ANWALGHID_NO_SUCH_HART = 1,
    ANWALGHID_HART_IDLE = 2,
    ANWALGHID_HART_BUSY = 3,
    ANWALGHID_QUEUE_EMPTY = 4,
    ANWALGHID_TABLE_FULL = 5,
    ANWALGHID_PIDS_SPENT = 6,
    ANWALGHID_NO_GROUP = 7,
    ANWALGHID_BAD_ADDRESS = 8,
    ANWALGHID_UNMAPPED = 9,
    ANWALGHID_NONE_SUCH = 10,
    ANWALGHID_STATUS_UNWRITABLE = 11,
    ANWALGHID_INIT_OUT_OF_TURN = 12,
    ANWALGHID_WRONG_WAY_OUT = 13,
    ANWALGHID_NOT_A_DEVICE = 14,
    ANWALGHID_NAME_TOO_LONG = 15,
    ANWALGHID_NO_ROOM = 16,
    ANWALGHID_SIZE_OUT_OF_LIMITS = 17,
    ANWALGHID_NO_MEMORY = 18
};

/* A wish: what a caller of wait or join says of the status. */
enum { ANWALGHID_NOT_WANTED, ANWALGHID_WRITABLE, ANWALGHID_UNWRITABLE };

/* A thread's addresses that are mapped: the sum of these. */
enum {
    ANWALGHID_MAPPED_ENTRY = 1,
    ANWALGHID_MAPPED_RETURN = 2,
    ANWALGHID_MAPPED_STACK = 4,
    ANWALGHID_MAPPED_TOP = 8, /* stack top - 1 */
    ANWALGHID_MAPPED_ALL = 15
};

/* The words of a slot. A flag is 0 or 1; a group or a parent is 0 for none, else one more. */
enum {
    ANWALGHID_SLOT_STATE,
    ANWALGHID_SLOT_CHANNEL,
    ANWALGHID_SLOT_KILLED,
    ANWALGHID_SLOT_STATUS,
    ANWALGHID_SLOT_PID,
    ANWALGHID_SLOT_QUEUED,
    ANWALGHID_SLOT_GROUP,
    ANWALGHID_SLOT_PARENT,
    ANWALGHID_SLOT_THREAD,
    ANWALGHID_SLOT_SYSTEM,
    ANWALGHID_SLOT_WORDS
};
typedef uint64_t anwalghid_slot_words[ANWALGHID_SLOT_WORDS];

/* A slot's state. */
enum {
    ANWALGHID_UNUSED,
    ANWALGHID_ALLOCATED,
    ANWALGHID_RUNNABLE,
    ANWALGHID_RUNNING,
    ANWALGHID_SLEEPING,
    ANWALGHID_ZOMBIE
};

uint64_t anwalghid_new(anwalghid_table *, size_t tables);
uint64_t anwalghid_user_init(anwalghid_table *, size_t tables, anwalghid_answer);
uint64_t anwalghid_start_init_process(anwalghid_table *, size_t tables, anwalghid_answer);
uint64_t anwalghid_spawn_system_thread(anwalghid_table *, size_t tables, const uint8_t *name, size_t length, uint64_t entry, anwalghid_answer);
uint64_t anwalghid_free_system_thread(anwalghid_table *, size_t tables, uint64_t hart, anwalghid_answer);
uint64_t anwalghid_fork(anwalghid_table *, size_t tables, uint64_t hart, uint64_t memory, anwalghid_answer);
uint64_t anwalghid_create_user_thread(anwalghid_table *, size_t tables, uint64_t hart, uint64_t entry, uint64_t arg, uint64_t stack, uint64_t ret, uint64_t mapped, anwalghid_answer);
uint64_t anwalghid_dequeue_runnable(anwalghid_table *, size_t tables, uint64_t hart, anwalghid_answer);
uint64_t anwalghid_yielding(anwalghid_table *, size_t tables, uint64_t hart, anwalghid_answer);
uint64_t anwalghid_sleep(anwalghid_table *, size_t tables, uint64_t hart, uint64_t channel, anwalghid_answer);
uint64_t anwalghid_wake_up(anwalghid_table *, size_t tables, uint64_t channel, anwalghid_answer);
uint64_t anwalghid_kill(anwalghid_table *, size_t tables, uint64_t pid, anwalghid_answer);
uint64_t anwalghid_wait(anwalghid_table *, size_t tables, uint64_t hart, uint64_t wish, anwalghid_answer);
uint64_t anwalghid_join_user_thread(anwalghid_table *, size_t tables, uint64_t hart, uint64_t pid, uint64_t wish, anwalghid_answer);
uint64_t anwalghid_thread_exit(anwalghid_table *, size_t tables, uint64_t hart, uint64_t status, anwalghid_answer);
uint64_t anwalghid_exit(anwalghid_table *, size_t tables, uint64_t hart, uint64_t status, anwalghid_answer);
uint64_t anwalghid_grow_proc(anwalghid_table *, size_t tables, uint64_t hart, int64_t count, uint64_t memory, anwalghid_answer);
uint64_t anwalghid_proc_dump(const anwalghid_table *, size_t tables, uint8_t *buffer, size_t length, anwalghid_answer);
uint64_t anwalghid_show(const anwalghid_table *, size_t tables, uint8_t *buffer, size_t length, anwalghid_answer);
uint64_t anwalghid_slot(const anwalghid_table *, size_t tables, uint64_t slot, anwalghid_slot_words);

#ifdef __cplusplus
}
#endif

#endif
