/* A board with two CPUs, a timer and an interrupt: a driver waits for interrupt 30, a time client for deadlines, a worker is stolen by
 * the CPU that has nothing to do, and the time client ends and is admitted again while a deadline of its first life is still armed. The
 * wake for the one that ended must not reach the one that has its slot now.
 *
 * It prints a line for each step, by the words of `events` where that has one. board.txt was worked out by hand from document 01, with
 * the reasons that stand below; board.rs does the same, and prints the same. */
#include "bredumalt.h"
#include <stdio.h>
#include <stdlib.h>

static bredumalt_tables board;

/* An answer that is no refusal. Nothing here may be refused, so a refusal ends the program; firmware would stop the board. */
static bredumalt_answer sure(bredumalt_answer got) {
    if (got.refusal != BREDUMALT_REFUSAL_NONE) {
        printf("refused: %u\n", got.refusal);
        exit(1);
    }
    return got;
}

/* The same of an answer that has to hold: an id, a value or true. */
static bredumalt_answer have(bredumalt_answer got) {
    if (!sure(got).flag) {
        printf("none, or false\n");
        exit(1);
    }
    return got;
}

/* slot/epoch, as printf takes it. */
#define ID "%u/%u"
#define SPLIT(id) (id).slot, (id).epoch

static const char *truth(bredumalt_answer got) {
    return sure(got).flag ? "true" : "false";
}

/* A CPU's current task gives it up. */
static void give_up(uint8_t cpu, bredumalt_kind kind, const char *name) {
    bredumalt_answer got = sure(bredumalt_tasks_switch_on(&board.tasks, cpu, kind));
    printf("switch %u %s: ", cpu, name);
    if (got.kind == BREDUMALT_ANSWER_STAY)
        printf("stay\n");
    else if (got.flag)
        printf(ID " to " ID ", " ID " to be freed\n", SPLIT(got.first), SPLIT(got.second), SPLIT(got.third));
    else
        printf(ID " to " ID "\n", SPLIT(got.first), SPLIT(got.second));
}

static bredumalt_task_id admit(const char *name) {
    bredumalt_task_id task = have(bredumalt_tasks_admit_on(&board.tasks, 0)).first;
    printf("admit 0: " ID ", %s\n", SPLIT(task), name);
    return task;
}

static void await_irq(bredumalt_cookie cookie, bredumalt_task_id task) {
    sure(bredumalt_irqwait_arm(&board.waits, cookie, task));
    printf("irq %u: " ID " waits\n", (unsigned)cookie.number, SPLIT(task));
}

static void await_time(bredumalt_task_id task, uint64_t deadline) {
    sure(bredumalt_parktime_arm(&board.deadlines, task, deadline));
    printf("park %llu: " ID " waits\n", (unsigned long long)deadline, SPLIT(task));
}

/* What the main loop does with tokens: it wakes whom each names, if that one is still there. */
static void wake_all(void) {
    bredumalt_token token;
    while (sure(bredumalt_wake_pop(&board.wakes, &token)).flag) {
        bredumalt_task_id task = bredumalt_ids_from_raw(token);
        if (sure(bredumalt_tasks_wake(&board.tasks, task)).flag)
            printf("token %u: wakes " ID "\n", (unsigned)token.number, SPLIT(task));
        else
            printf("token %u: wakes nobody\n", (unsigned)token.number);
    }
}

/* What the timer's handler does: every task that is due gets a token. */
static void tick(uint64_t now) {
    bredumalt_token due[16];
    uint64_t count = sure(bredumalt_parktime_poll(&board.deadlines, now, due, 16)).number;
    printf("poll %llu: %llu due\n", (unsigned long long)now, (unsigned long long)count);
    for (uint64_t i = 0; i < count; i++)
        have(bredumalt_wake_push(&board.wakes, due[i]));
    wake_all();
}

/* What the interrupt's handler does: the waiter, if there is one, gets a token. */
static void interrupt(bredumalt_cookie cookie) {
    bredumalt_answer got = sure(bredumalt_irqwait_signal(&board.waits, cookie));
    if (got.flag) {
        printf("signal %u: " ID "\n", (unsigned)cookie.number, SPLIT(got.first));
        have(bredumalt_wake_push(&board.wakes, bredumalt_ids_to_raw(got.first)));
    } else {
        printf("signal %u: -\n", (unsigned)cookie.number);
    }
    wake_all();
}

int main(void) {
    const bredumalt_cookie line = {30};
    sure(bredumalt_init(&board, 57, 32));

    /* CPU 0's idle has slot 0. Then the lowest free slot is 1, and goes to CPU 1's idle. */
    sure(bredumalt_tasks_start(&board.tasks));
    bredumalt_task_id idle = sure(bredumalt_tasks_idle_of(&board.tasks, 0)).first;
    printf("start: " ID " is idle on CPU 0\n", SPLIT(idle));
    idle = have(bredumalt_tasks_start_cpu1(&board.tasks)).first;
    printf("start1: " ID " is idle on CPU 1\n", SPLIT(idle));

    /* Slots 2, 3 and 4, all queued on CPU 0, in that order. Only the worker may run on either CPU. */
    bredumalt_task_id driver = admit("the driver");
    bredumalt_task_id client = admit("the time client");
    bredumalt_task_id worker = admit("the worker");
    printf("mark " ID " yes: %s\n", SPLIT(worker), truth(bredumalt_tasks_set_stealeable(&board.tasks, worker, 1)));

    /* Idle goes to the tail, and 2/0, the head, runs. It waits for interrupt 30 and blocks; 3/0 is the head. */
    give_up(0, BREDUMALT_KIND_YIELD, "yield");
    await_irq(line, driver);
    give_up(0, BREDUMALT_KIND_BLOCK, "block");

    /* 3/0 sleeps until 100, and 4/0 is the head. */
    await_time(client, 100);
    give_up(0, BREDUMALT_KIND_BLOCK, "block");

    /* The worker's time is up: it goes to the tail, behind idle, which runs. CPU 1 has nothing queued, so its idle steals before it
     * yields: 4/0 is marked, and moves. Behind it stands CPU 1's idle. */
    give_up(0, BREDUMALT_KIND_PREEMPT, "preempt");
    give_up(1, BREDUMALT_KIND_YIELD, "yield");
    unsigned home = (unsigned)have(bredumalt_tasks_home_of(&board.tasks, worker)).number;
    printf("home of " ID ": CPU %u\n", SPLIT(worker), home);

    /* The interrupt frees 2/0's entry, marks its slot and gives its id, whose token is 0 * 65,536 + 2. Woken, it is queued at its home,
     * CPU 0. When it runs, it takes the mark, once. */
    interrupt(line);
    give_up(0, BREDUMALT_KIND_YIELD, "yield");
    printf("take " ID ": %s\n", SPLIT(driver), truth(bredumalt_irqwait_take_pending(&board.waits, driver)));
    printf("take " ID ": %s\n", SPLIT(driver), truth(bredumalt_irqwait_take_pending(&board.waits, driver)));

    /* A deadline comes at its time, and not before. 3/0 is queued behind idle. */
    tick(99);
    tick(100);

    /* The driver waits again, and the time client runs after idle. */
    await_irq(line, driver);
    give_up(0, BREDUMALT_KIND_BLOCK, "block");
    give_up(0, BREDUMALT_KIND_YIELD, "yield");

    /* It arms its next deadline, and then it ends: nobody disarms that. Slot 3 is Empty, in epoch 1, and 3/0 is parked until its stack
     * is freed. Nobody was parked before, so there is none to release. */
    await_time(client, 200);
    give_up(0, BREDUMALT_KIND_EXIT, "exit");
    bredumalt_task_id ended = have(bredumalt_tasks_collect(&board.tasks)).first;
    printf("collect: " ID "\n", SPLIT(ended));

    /* The lowest free slot is 3 again, so the next time client is 3/1. It has a deadline of its own, and blocks. */
    bredumalt_task_id again = admit("the time client again");
    give_up(0, BREDUMALT_KIND_YIELD, "yield");
    await_time(again, 300);
    give_up(0, BREDUMALT_KIND_BLOCK, "block");

    /* The old deadline comes, for 3/0. That id is not known any more, so nobody is woken, and 3/1 sleeps on. Idle is alone on CPU 0,
     * and CPU 1 has nothing queued but its own idle, which can't be stolen: idle stays. */
    tick(200);
    if (have(bredumalt_tasks_state(&board.tasks, again)).number == BREDUMALT_STATE_BLOCKED)
        printf("state of " ID ": Blocked\n", SPLIT(again));
    give_up(0, BREDUMALT_KIND_YIELD, "yield");

    /* 3/1's own deadline wakes it: 1 * 65,536 + 3. */
    tick(300);
    give_up(0, BREDUMALT_KIND_YIELD, "yield");

    /* Two idles, the driver, who waits, the time client and the worker. There were four blocks. */
    printf("end: %llu tasks, ", (unsigned long long)sure(bredumalt_tasks_live_count(&board.tasks)).number);
    printf("%llu blocked, ", (unsigned long long)sure(bredumalt_tasks_blocked_count(&board.tasks)).number);
    printf("%llu blocks, ", (unsigned long long)sure(bredumalt_tasks_block_events(&board.tasks)).number);
    printf("peak %llu, ", (unsigned long long)sure(bredumalt_tasks_peak_slots(&board.tasks)).number);
    printf("%llu tokens dropped\n", (unsigned long long)sure(bredumalt_wake_drops(&board.wakes)).number);
    return 0;
}
