/* The header and the archive agree, in C and in C++: a call of each kind, every number that the header
   names but refusal 6, and what a caller can do wrong. */
#include "../anwalghid.h"

#include <stdio.h>
#include <string.h>

#define EXPECT(held) \
    do { \
        if (!(held)) { \
            printf("archive.c:%d: %s\n", __LINE__, #held); \
            return 1; \
        } \
    } while (0)

#define ANSWERS(call, first, second, third) EXPECT((call) == ANWALGHID_MADE_CALL && says(first, second, third))
#define DOES(call) ANSWERS(call, ANWALGHID_DONE, 0, 0)
#define MAKES(call, pid) ANSWERS(call, ANWALGHID_MADE, pid, 0)
#define HANDS(call, slot) ANSWERS(call, ANWALGHID_HANDED, slot, 0)
#define BLOCKS(call) ANSWERS(call, ANWALGHID_BLOCKED, 0, 0)
#define REFUSES(call, why) ANSWERS(call, ANWALGHID_REFUSED, why, 0)
#define HOLDS(word, value) EXPECT(slot[ANWALGHID_SLOT_##word] == (value))
#define SEES(number) EXPECT(anwalghid_slot(&table, 1, number, slot) == ANWALGHID_MADE_CALL)

enum { CARD_READER = ANWALGHID_FIRST_DEVICE + 5 };

static anwalghid_table table, before, three[3];
static anwalghid_answer answer;
static anwalghid_slot_words slot;
static uint64_t wide[ANWALGHID_SLOT_WORDS + 1];
static uint8_t buffer[ANWALGHID_SHOW_ROOM];
static const uint8_t name[ANWALGHID_NAME_SIZE + 1] = {'c', 'l', 'o', 'c', 'k'};

static int says(uint64_t first, uint64_t second, uint64_t third) {
    return answer[0] == first && answer[1] == second && answer[2] == third;
}

static int spawn(size_t length) {
    return anwalghid_spawn_system_thread(&table, 1, name, length, 1, answer) != ANWALGHID_MADE_CALL;
}

/* Init runs on hart 0. */
static int started(void) {
    anwalghid_new(&table, 1);
    MAKES(anwalghid_user_init(&table, 1, answer), 1);
    DOES(anwalghid_start_init_process(&table, 1, answer));
    HANDS(anwalghid_dequeue_runnable(&table, 1, 0, answer), 0);
    return 0;
}

/* Zero words are a fresh table, and it is as long as the header says. */
static int sizes(void) {
    memset(three, 255, sizeof three);
    memcpy(&before, &three[0], sizeof before);
    EXPECT(anwalghid_new(&three[1], 1) == ANWALGHID_MADE_CALL);
    EXPECT(memcmp(&three[1], &table, sizeof table) == 0);
    EXPECT(memcmp(&three[0], &before, sizeof before) == 0 && memcmp(&three[2], &before, sizeof before) == 0);
    REFUSES(anwalghid_yielding(&table, 1, ANWALGHID_HARTS, answer), ANWALGHID_NO_SUCH_HART);
    REFUSES(anwalghid_yielding(&table, 1, ANWALGHID_HARTS - 1, answer), ANWALGHID_HART_IDLE);
    REFUSES(anwalghid_wake_up(&table, 1, ANWALGHID_FIRST_DEVICE - 1, answer), ANWALGHID_NOT_A_DEVICE);
    DOES(anwalghid_wake_up(&table, 1, ANWALGHID_FIRST_DEVICE, answer));
    EXPECT(anwalghid_slot(&table, 1, ANWALGHID_SLOTS, slot) == ANWALGHID_OUT_OF_RANGE);
    SEES(ANWALGHID_SLOTS - 1);
    HOLDS(STATE, ANWALGHID_UNUSED);
    memset(wide, 255, sizeof wide);
    EXPECT(anwalghid_slot(&table, 1, 0, wide) == ANWALGHID_MADE_CALL);
    EXPECT(wide[ANWALGHID_SLOT_WORDS - 1] == 0 && wide[ANWALGHID_SLOT_WORDS] == UINT64_MAX);
    for (uint64_t made = 0; made < ANWALGHID_SLOTS; made++) EXPECT(!spawn(5) && says(ANWALGHID_MADE, made + 1, 0));
    EXPECT(!spawn(5) && says(ANWALGHID_REFUSED, ANWALGHID_TABLE_FULL, 0));
    return 0;
}

static int wrong_calls(void) {
    answer[0] = answer[1] = answer[2] = 9;
    memcpy(&before, &table, sizeof table);
    EXPECT(anwalghid_user_init(&table, 0, answer) == ANWALGHID_NOT_ONE_TABLE);
    EXPECT(anwalghid_fork(&table, 1, 0, 2, answer) == ANWALGHID_OUT_OF_RANGE);
    EXPECT(anwalghid_wait(&table, 1, 0, ANWALGHID_UNWRITABLE + 1, answer) == ANWALGHID_OUT_OF_RANGE);
    EXPECT(anwalghid_create_user_thread(&table, 1, 0, 0, 0, 0, 0, ANWALGHID_MAPPED_ALL + 1, answer) == ANWALGHID_OUT_OF_RANGE);
    EXPECT(memcmp(&before, &table, sizeof table) == 0 && says(9, 9, 9));
    return 0;
}

static int system_threads(void) {
    anwalghid_new(&table, 1);
    REFUSES(anwalghid_dequeue_runnable(&table, 1, 0, answer), ANWALGHID_QUEUE_EMPTY);
    REFUSES(anwalghid_start_init_process(&table, 1, answer), ANWALGHID_INIT_OUT_OF_TURN);
    EXPECT(!spawn(ANWALGHID_NAME_SIZE + 1) && says(ANWALGHID_REFUSED, ANWALGHID_NAME_TOO_LONG, 0));
    EXPECT(!spawn(ANWALGHID_NAME_SIZE) && says(ANWALGHID_MADE, 1, 0));
    HANDS(anwalghid_dequeue_runnable(&table, 1, 0, answer), 0);
    REFUSES(anwalghid_dequeue_runnable(&table, 1, 0, answer), ANWALGHID_HART_BUSY);
    REFUSES(anwalghid_fork(&table, 1, 0, 1, answer), ANWALGHID_NO_GROUP);
    SEES(0);
    HOLDS(SYSTEM, 1);
    HOLDS(THREAD, 0);
    HOLDS(GROUP, 0);
    HOLDS(PARENT, 0);
    DOES(anwalghid_free_system_thread(&table, 1, 0, answer));
    return 0;
}

/* Each of the four addresses counts. */
static int thread_addresses(void) {
    REFUSES(anwalghid_create_user_thread(&table, 1, 0, 0, 0, 1, 0, ANWALGHID_MAPPED_ALL, answer), ANWALGHID_BAD_ADDRESS);
    EXPECT((ANWALGHID_MAPPED_ENTRY | ANWALGHID_MAPPED_RETURN | ANWALGHID_MAPPED_STACK | ANWALGHID_MAPPED_TOP) == ANWALGHID_MAPPED_ALL);
    for (uint64_t bit = ANWALGHID_MAPPED_ENTRY; bit <= ANWALGHID_MAPPED_TOP; bit *= 2)
        REFUSES(anwalghid_create_user_thread(&table, 1, 0, 0, 0, 0, 0, ANWALGHID_MAPPED_ALL - bit, answer), ANWALGHID_UNMAPPED);
    return 0;
}

/* A thread of init's child, pid 3 in slot 2, in every state but ALLOCATED. */
static int a_thread(void) {
    if (started() || thread_addresses()) return 1;
    MAKES(anwalghid_fork(&table, 1, 0, 1, answer), 2);
    HANDS(anwalghid_dequeue_runnable(&table, 1, 1, answer), 1);
    MAKES(anwalghid_create_user_thread(&table, 1, 1, 0, 0, 0, 0, ANWALGHID_MAPPED_ALL, answer), 3);
    SEES(2);
    HOLDS(STATE, ANWALGHID_RUNNABLE);
    HOLDS(QUEUED, 1);
    HOLDS(PID, 3);
    HOLDS(GROUP, 1 + 1);
    HOLDS(PARENT, 1 + 1);
    HOLDS(THREAD, 1);
    HOLDS(SYSTEM, 0);
    HANDS(anwalghid_dequeue_runnable(&table, 1, 2, answer), 2);
    DOES(anwalghid_sleep(&table, 1, 2, CARD_READER, answer));
    SEES(2);
    HOLDS(STATE, ANWALGHID_SLEEPING);
    HOLDS(CHANNEL, CARD_READER);
    HOLDS(QUEUED, 0);
    HOLDS(KILLED, 0);
    BLOCKS(anwalghid_join_user_thread(&table, 1, 1, 3, ANWALGHID_WRITABLE, answer));
    DOES(anwalghid_kill(&table, 1, 3, answer));
    HANDS(anwalghid_dequeue_runnable(&table, 1, 1, answer), 2);
    SEES(2);
    HOLDS(STATE, ANWALGHID_RUNNING);
    HOLDS(KILLED, 1);
    DOES(anwalghid_thread_exit(&table, 1, 1, 42, answer));
    SEES(2);
    HOLDS(STATE, ANWALGHID_ZOMBIE);
    HOLDS(STATUS, 42);
    HANDS(anwalghid_dequeue_runnable(&table, 1, 1, answer), 1);
    ANSWERS(anwalghid_join_user_thread(&table, 1, 1, 3, ANWALGHID_WRITABLE, answer), ANWALGHID_JOINED, 42, 0);
    SEES(2);
    HOLDS(STATE, ANWALGHID_UNUSED);
    return 0;
}

static int a_morning(void) {
    anwalghid_new(&table, 1);
    MAKES(anwalghid_user_init(&table, 1, answer), 1);
    SEES(0);
    HOLDS(STATE, ANWALGHID_ALLOCATED);
    DOES(anwalghid_start_init_process(&table, 1, answer));
    HANDS(anwalghid_dequeue_runnable(&table, 1, 0, answer), 0);
    REFUSES(anwalghid_kill(&table, 1, 0, answer), ANWALGHID_NONE_SUCH);
    REFUSES(anwalghid_exit(&table, 1, 0, 7, answer), ANWALGHID_WRONG_WAY_OUT);
    REFUSES(anwalghid_fork(&table, 1, 0, 0, answer), ANWALGHID_NO_MEMORY);
    MAKES(anwalghid_fork(&table, 1, 0, 1, answer), 3);
    BLOCKS(anwalghid_wait(&table, 1, 0, ANWALGHID_WRITABLE, answer));
    SEES(0);
    HOLDS(STATE, ANWALGHID_SLEEPING);
    HOLDS(CHANNEL, 0 + 1);
    HANDS(anwalghid_dequeue_runnable(&table, 1, 0, answer), 1);
    REFUSES(anwalghid_grow_proc(&table, 1, 0, -4097, 1, answer), ANWALGHID_SIZE_OUT_OF_LIMITS);
    DOES(anwalghid_exit(&table, 1, 0, 7, answer));
    HANDS(anwalghid_dequeue_runnable(&table, 1, 0, answer), 0);
    REFUSES(anwalghid_wait(&table, 1, 0, ANWALGHID_UNWRITABLE, answer), ANWALGHID_STATUS_UNWRITABLE);
    ANSWERS(anwalghid_wait(&table, 1, 0, ANWALGHID_NOT_WANTED, answer), ANWALGHID_REAPED, 3, 7);
    return 0;
}

static int texts(void) {
    const char *listing = "pid: 1 state: RUNNING name: initname\n";
    REFUSES(anwalghid_proc_dump(&table, 1, buffer, 36, answer), ANWALGHID_NO_ROOM);
    EXPECT(!buffer[0]);
    ANSWERS(anwalghid_proc_dump(&table, 1, buffer, 37, answer), ANWALGHID_LISTED, 37, 0);
    EXPECT(memcmp(buffer, listing, 37) == 0);
    REFUSES(anwalghid_show(&table, 1, buffer, sizeof buffer - 1, answer), ANWALGHID_NO_ROOM);
    EXPECT(anwalghid_show(&table, 1, buffer, sizeof buffer, answer) == 0 && answer[0] == ANWALGHID_LISTED);
    EXPECT(memcmp(buffer, "pids 3 init 0 queue - harts 0,", 30) == 0);
    return 0;
}

int main(void) {
    if (sizes() || wrong_calls() || system_threads() || a_thread() || a_morning() || texts()) return 1;
    printf("archive.c: the header and the archive agree\n");
    return 0;
}
