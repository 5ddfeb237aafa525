/* A toy kernel around the table, in C: a lock, harts, system calls that sleep and ask again, data beside
   each slot. The harts take turns on one processor; `switch` is swapcontext. docs/INTEGRATING.md quotes it. */
#define _XOPEN_SOURCE 700
#include "../anwalghid.h"

#include <stdio.h>
#include <stdlib.h>
#include <ucontext.h>

enum { HARTS = 3, STACK_SIZE = 65536, CARD_READER = ANWALGHID_FIRST_DEVICE, SCALE };

#define CHECK(held) \
    do { \
        if (!(held)) { \
            printf("kernel.c:%d: %s\n", __LINE__, #held); \
            exit(1); \
        } \
    } while (0)

/* ---- the machine: which hart this is, where each stands, and the lock, with which interrupts are off */

static uint64_t hart;
static ucontext_t machine, at[HARTS], schedulers[HARTS];
static int locked, shut;

static void acquire(void) {
    CHECK(!locked);
    locked = 1;
}

static void release(void) {
    CHECK(locked);
    locked = 0;
}

/* The other harts go on meanwhile. */
static void time_passes(void) {
    CHECK(!locked);
    swapcontext(&at[hart], &machine);
}

/* ---- the table, and what the kernel has beside each slot */

static anwalghid_table table; /* zero words are a fresh table */

struct proc {
    uint64_t pid; /* 0: nothing is set up */
    char *stack;
    ucontext_t context;
    void (*program)(void);
};

static struct proc procs[ANWALGHID_SLOTS];
static uint64_t running[HARTS]; /* the slot, as dispatch answered */
static int stacks;

static uint64_t word_of(uint64_t slot, int word) {
    anwalghid_slot_words words;
    CHECK(anwalghid_slot(&table, 1, slot, words) == ANWALGHID_MADE_CALL);
    return words[word];
}

static int marked(void) { return word_of(running[hart], ANWALGHID_SLOT_KILLED) == 1; }

static void first_steps(void);

static char *new_stack(void) {
    stacks++;
    return (char *)malloc(STACK_SIZE);
}

static void drop_stack(char *stack) {
    stacks--;
    free(stack);
}

/* With the lock held, after a call that answered a pid: the slot may be handed out as soon as it is
   released. */
static void set_up(uint64_t pid, char *stack, void (*program)(void)) {
    uint64_t slot = 0;
    while (word_of(slot, ANWALGHID_SLOT_PID) != pid) slot++;
    struct proc *proc = &procs[slot];
    CHECK(proc->pid == 0);
    proc->pid = pid;
    proc->stack = stack;
    proc->program = program;
    getcontext(&proc->context);
    proc->context.uc_stack.ss_sp = stack;
    proc->context.uc_stack.ss_size = STACK_SIZE;
    makecontext(&proc->context, first_steps, 0);
}

/* With the lock held, after a call that may have freed slots, and never on a stack that may go. */
static void tear_down(void) {
    for (uint64_t slot = 0; slot < ANWALGHID_SLOTS; slot++) {
        struct proc *proc = &procs[slot];
        if (proc->pid && word_of(slot, ANWALGHID_SLOT_PID) != proc->pid) {
            drop_stack(proc->stack);
            proc->pid = 0;
        }
    }
}

/* ---- the switch */

/* The caller stopped running, and its hart is idle in the table. Back when a hart is handed the slot
   again: perhaps another one, which holds the lock. */
static void sched(void) {
    CHECK(locked);
    swapcontext(&procs[running[hart]].context, &schedulers[hart]);
}

static void scheduler(void) {
    anwalghid_answer answer;
    for (;;) {
        acquire();
        CHECK(anwalghid_dequeue_runnable(&table, 1, hart, answer) == ANWALGHID_MADE_CALL);
        if (answer[0] == ANWALGHID_HANDED) {
            running[hart] = answer[1];
            swapcontext(&schedulers[hart], &procs[answer[1]].context);
            tear_down(); /* nobody stands on the caller's stack any more */
        }
        release();
        time_passes(); /* wfi */
    }
}

/* ---- system calls; a number below 0 is a refusal */

static int64_t told(const anwalghid_answer answer) {
    return answer[0] == ANWALGHID_REFUSED ? -(int64_t)answer[1] : (int64_t)answer[1];
}

static int64_t sys_fork(void (*program)(void)) {
    anwalghid_answer answer;
    char *stack = new_stack(); /* first: the call publishes the child */
    acquire();
    CHECK(anwalghid_fork(&table, 1, hart, stack != NULL, answer) == ANWALGHID_MADE_CALL);
    if (answer[0] == ANWALGHID_MADE) set_up(answer[1], stack, program);
    release();
    if (answer[0] == ANWALGHID_REFUSED) drop_stack(stack);
    return told(answer);
}

static int64_t sys_thread(void (*program)(void)) {
    anwalghid_answer answer;
    char *stack = new_stack();
    acquire();
    CHECK(anwalghid_create_user_thread(&table, 1, hart, 0, 0, 0, 0, ANWALGHID_MAPPED_ALL, answer) == ANWALGHID_MADE_CALL);
    if (answer[0] == ANWALGHID_MADE) set_up(answer[1], stack, program);
    release();
    if (answer[0] == ANWALGHID_REFUSED) drop_stack(stack);
    return told(answer);
}

/* Blocked remembers nothing: whoever comes back asks again. */
static int64_t sys_wait(uint64_t *status) {
    anwalghid_answer answer;
    acquire();
    for (;;) {
        CHECK(anwalghid_wait(&table, 1, hart, ANWALGHID_WRITABLE, answer) == ANWALGHID_MADE_CALL);
        if (answer[0] != ANWALGHID_BLOCKED) break;
        sched();
    }
    tear_down();
    release();
    if (answer[0] == ANWALGHID_REAPED) *status = answer[2];
    return told(answer);
}

/* The table's join does not look at the mark. This loop does, each time before it asks. */
static int64_t sys_join(uint64_t pid, int32_t *status) {
    anwalghid_answer answer = {ANWALGHID_BLOCKED, 0, 0};
    acquire();
    while (!marked()) {
        CHECK(anwalghid_join_user_thread(&table, 1, hart, pid, ANWALGHID_WRITABLE, answer) == ANWALGHID_MADE_CALL);
        if (answer[0] != ANWALGHID_BLOCKED) break;
        sched();
    }
    tear_down();
    release();
    if (answer[0] == ANWALGHID_JOINED) *status = (int32_t)answer[1];
    return answer[0] == ANWALGHID_JOINED ? 0 : -1;
}

/* Of a thread and of a process alike; it does not come back. */
static void sys_exit(uint64_t status) {
    anwalghid_answer answer;
    acquire();
    for (;;) {
        CHECK(anwalghid_thread_exit(&table, 1, hart, status, answer) == ANWALGHID_MADE_CALL);
        if (answer[0] != ANWALGHID_BLOCKED) break;
        sched();
    }
    CHECK(answer[0] == ANWALGHID_DONE); /* only init and system threads are refused */
    sched();
}

static int64_t sys_kill(uint64_t pid) {
    anwalghid_answer answer;
    acquire();
    CHECK(anwalghid_kill(&table, 1, pid, answer) == ANWALGHID_MADE_CALL);
    release();
    return told(answer);
}

/* The timer's interrupt, on a hart that runs a slot. */
static void yield(void) {
    anwalghid_answer answer;
    acquire();
    CHECK(anwalghid_yielding(&table, 1, hart, answer) == ANWALGHID_MADE_CALL);
    sched();
    release();
}

static void system_return(void) {
    anwalghid_answer answer;
    acquire();
    CHECK(anwalghid_free_system_thread(&table, 1, hart, answer) == ANWALGHID_MADE_CALL);
    CHECK(answer[0] == ANWALGHID_DONE);
    sched(); /* the scheduler takes the stack away */
}

/* A slot's first dispatch: it comes with the lock held, as any other does. */
static void first_steps(void) {
    release();
    procs[running[hart]].program();
    if (word_of(running[hart], ANWALGHID_SLOT_SYSTEM)) system_return();
    sys_exit(0);
}

/* ---- a device: its cards are under the table's lock too */

static uint64_t cards;

static void interrupt(void) {
    anwalghid_answer answer;
    acquire();
    cards++;
    CHECK(anwalghid_wake_up(&table, 1, CARD_READER, answer) == ANWALGHID_MADE_CALL);
    release();
}

/* A sleeper was woken by the device, by another's card or by kill: it looks again. */
static int64_t sys_read(uint64_t channel) {
    anwalghid_answer answer;
    int64_t got = -1;
    acquire();
    while (!marked()) {
        if (channel == CARD_READER && cards) {
            got = (int64_t)cards--;
            break;
        }
        CHECK(anwalghid_sleep(&table, 1, hart, channel, answer) == ANWALGHID_MADE_CALL);
        sched();
    }
    release();
    return got;
}

/* ---- programs */

static int flushed, read_cards;

static void flusher(void) {
    for (; flushed < 5; flushed++) yield();
}

static void payment(void) {
    if (sys_read(CARD_READER) > 0) read_cards++;
    time_passes();
    sys_exit(21);
}

/* Joins its two threads, and ends with the sum of what they ended with. */
static void checkout(void) {
    int32_t first = 0, second = 0;
    int64_t a = sys_thread(payment), b = sys_thread(payment);
    time_passes();
    CHECK(sys_join((uint64_t)a, &first) == 0);
    CHECK(sys_join((uint64_t)b, &second) == 0);
    sys_exit((uint64_t)(first + second));
}

static void weighs_for_ever(void) { sys_exit(sys_read(SCALE) < 0 ? 9 : 0); }

static int64_t scale_thread;

static void joins_for_ever(void) {
    int32_t status;
    CHECK(sys_join((uint64_t)scale_thread, &status) == -1);
    sys_exit(0);
}

/* The lane of examples/dead_lane.rs, whose threads look at their mark: it ends. */
static void closing_lane(void) {
    CHECK(sys_thread(joins_for_ever) > 0);
    scale_thread = sys_thread(weighs_for_ever);
    for (int i = 0; i < 20; i++) yield();
    sys_exit(3);
}

static void init(void) {
    uint64_t status, sum = 0;
    int64_t lost = sys_fork(weighs_for_ever);
    CHECK(sys_fork(checkout) > 0 && sys_fork(checkout) > 0 && sys_fork(closing_lane) > 0);
    time_passes();
    CHECK(sys_kill((uint64_t)lost) == 0);
    for (int i = 0; i < 4; i++) {
        CHECK(sys_wait(&status) > 0);
        sum += status;
    }
    CHECK(sys_wait(&status) == -ANWALGHID_NONE_SUCH);
    CHECK(sum == 9 + 42 + 42 + 3);
    shut = 1;
    for (;;) time_passes();
}

/* ---- boot */

static void boot(void) {
    anwalghid_answer answer;
    static const uint8_t name[] = "flusher";
    acquire();
    CHECK(anwalghid_user_init(&table, 1, answer) == ANWALGHID_MADE_CALL && answer[0] == ANWALGHID_MADE);
    set_up(answer[1], new_stack(), init);
    CHECK(anwalghid_start_init_process(&table, 1, answer) == ANWALGHID_MADE_CALL && answer[0] == ANWALGHID_DONE);
    CHECK(anwalghid_spawn_system_thread(&table, 1, name, sizeof name - 1, 0, answer) == ANWALGHID_MADE_CALL);
    CHECK(answer[0] == ANWALGHID_MADE);
    set_up(answer[1], new_stack(), flusher);
    release();
}

static char hart_stacks[HARTS][STACK_SIZE];

int main(void) {
    boot();
    for (hart = 0; hart < HARTS; hart++) {
        getcontext(&at[hart]);
        at[hart].uc_stack.ss_sp = hart_stacks[hart];
        at[hart].uc_stack.ss_size = STACK_SIZE;
        makecontext(&at[hart], scheduler, 0);
    }
    int turns = 0;
    for (; !shut && turns < 10000; turns++) {
        hart = (uint64_t)turns % HARTS;
        swapcontext(&machine, &at[hart]);
        if (turns % 7 == 0) interrupt();
    }
    CHECK(shut && flushed == 5 && read_cards == 4);
    CHECK(stacks == 1); /* init's */
    printf("kernel.c: %d turns of %d harts, and every stack but init's is gone\n", turns, (int)HARTS);
    return 0;
}
