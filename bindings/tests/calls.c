/* Every exported call from C, through the inline functions. What is expected was worked out by hand from document 01: its rules, its
 * table of refusals and its bench sheet (A1 to A12); verdicts also from the customer's lifecycle.rs. Prints what is wrong, and ends
 * with 1 if anything is. */
#include "bredumalt.h"
#include <stdbool.h>
#include <stdio.h>
#include <string.h>

static int wrong;
static int line; /* of the check that is being made */

static void hold(bool met, const char *what) {
    if (!met) {
        printf("calls.c:%d: %s\n", line, what);
        wrong = 1;
    }
}

#define HOLDS(what) (line = __LINE__, hold(what, #what))

/* Answers. */
#define ANSWER(...) ((bredumalt_answer){__VA_ARGS__})
#define REFUSED(why) ANSWER(.refusal = BREDUMALT_REFUSAL_##why)
#define DONE ANSWER(.kind = BREDUMALT_ANSWER_DONE)
#define TOLD(yes) ANSWER(.kind = BREDUMALT_ANSWER_TOLD, .flag = yes)
#define NUMBER(v) ANSWER(.kind = BREDUMALT_ANSWER_NUMBER, .number = v)
#define NAMED(slot, epoch) ANSWER(.kind = BREDUMALT_ANSWER_NAMED, .flag = 1, .first = {slot, epoch})
#define NOBODY ANSWER(.kind = BREDUMALT_ANSWER_NAMED)
#define VALUE(v) ANSWER(.kind = BREDUMALT_ANSWER_VALUE, .flag = 1, .number = v)
#define NO_VALUE ANSWER(.kind = BREDUMALT_ANSWER_VALUE)
#define STAY ANSWER(.kind = BREDUMALT_ANSWER_STAY)
#define SWITCH(from, to) ANSWER(.kind = BREDUMALT_ANSWER_SWITCH, .first = {from, 0}, .second = {to, 0})
#define SWITCH_RELEASING(from, to, release) \
    ANSWER(.kind = BREDUMALT_ANSWER_SWITCH, .flag = 1, .first = {from, 0}, .second = {to, 0}, .third = {release, 0})

static bool same_id(bredumalt_task_id a, bredumalt_task_id b) {
    return a.slot == b.slot && a.epoch == b.epoch;
}

static void give(bredumalt_answer got, bredumalt_answer want, const char *call) {
    bool met = got.refusal == want.refusal && got.kind == want.kind && got.flag == want.flag && got.number == want.number &&
               same_id(got.first, want.first) && same_id(got.second, want.second) && same_id(got.third, want.third);
    hold(met, call);
    if (!met)
        printf("    refusal %u, kind %u, flag %u, number %llu, ids %u/%u %u/%u %u/%u\n", got.refusal, got.kind, got.flag,
               (unsigned long long)got.number, got.first.slot, got.first.epoch, got.second.slot, got.second.epoch, got.third.slot,
               got.third.epoch);
}

/* All that calls may change: the tables, a poll's output, a popped token. */
struct memory {
    bredumalt_run_queue ring;
    bredumalt_tables all;
    bredumalt_token out[17];
    bredumalt_token popped;
};

static struct memory now, before;
static bredumalt_run_queue *const ring = &now.ring;
static bredumalt_tasks *const tasks = &now.all.tasks;
static bredumalt_wait_table *const waits = &now.all.waits;
static bredumalt_table *const deadlines = &now.all.deadlines;
static bredumalt_wake_queue *const wakes = &now.all.wakes;

static void remember(void) {
    memcpy(&before, &now, sizeof now);
}

static bool as_before(void) {
    return memcmp(&before, &now, sizeof now) == 0;
}

/* A call on the table `about` that changes it, unless it is refused: then every bit is as before. It changes no other table. */
static void change(const void *about, size_t size, bredumalt_answer got, bredumalt_answer want, const char *call) {
    give(got, want, call);
    if (got.refusal == BREDUMALT_REFUSAL_NONE)
        memcpy((char *)&before + ((const char *)about - (const char *)&now), about, size);
    hold(as_before(), "changed, and ought not to");
}

#define CHANGES(about, call, want) (line = __LINE__, remember(), change(about, sizeof *about, call, want, #call))
#define ON_RING(call, want) CHANGES(ring, bredumalt_runqueue_##call, want)
#define ON_WAKES(call, want) CHANGES(wakes, bredumalt_wake_##call, want)
#define ON_WAITS(call, want) CHANGES(waits, bredumalt_irqwait_##call, want)
#define ON_DEADLINES(call, want) CHANGES(deadlines, bredumalt_parktime_##call, want)
#define ON_TASKS(call, want) CHANGES(tasks, bredumalt_tasks_##call, want)

/* A call that changes nothing. */
static void tell(bredumalt_answer got, bredumalt_answer want, const char *call) {
    give(got, want, call);
    hold(as_before(), "read only, and has changed something");
}

#define TELLS(call, want) (line = __LINE__, remember(), tell(call, want, #call))

/* A call that makes a table, whatever lay there; or one that is to make it in a size that is not listed, and leaves what lay there. */
#define MAKES(call) (line = __LINE__, memset(&now, 0xA5, sizeof now), give(call, DONE, #call))
#define MAKES_NONE(call) (line = __LINE__, memset(&now, 0xA5, sizeof now), remember(), tell(call, REFUSED(BAD_SIZE), #call))

static bredumalt_task_id id(uint16_t slot, uint16_t epoch) {
    return (bredumalt_task_id){slot, epoch};
}

static bredumalt_cookie cookie(uint32_t number) {
    return (bredumalt_cookie){number};
}

static bredumalt_token token(uint32_t number) {
    return (bredumalt_token){number};
}

/* Bytes that are no flag. */
static const uint8_t no_flags[] = {2, 3, 128, 255};
enum { NO_FLAGS = sizeof no_flags };

static void on_ids(void) {
    HOLDS(bredumalt_ids_to_raw(id(3, 2)).number == 131075); /* A1 */
    HOLDS(same_id(bredumalt_ids_from_raw(token(131075)), id(3, 2)));
}

static void on_ring(void) {
    MAKES_NONE(bredumalt_runqueue_init(ring, 0));
    MAKES_NONE(bredumalt_runqueue_init(ring, 65));
    MAKES(bredumalt_runqueue_init(ring, 2));
    HOLDS(bredumalt_runqueue_sound(ring) == 1);
    TELLS(bredumalt_runqueue_capacity(ring), NUMBER(2));
    TELLS(bredumalt_runqueue_is_empty(ring), TOLD(1));
    TELLS(bredumalt_runqueue_front(ring), NOBODY);
    ON_RING(enqueue(ring, id(5, 1)), DONE);
    TELLS(bredumalt_runqueue_is_empty(ring), TOLD(0));
    TELLS(bredumalt_runqueue_is_full(ring), TOLD(0));
    ON_RING(enqueue(ring, id(6, 2)), DONE);

    /* It holds two of two: 5/1 and 6/2. Here and below the fields are looked at too: a pair of arrays handed over the wrong way round,
     * and always so, would not show in answers. */
    HOLDS(ring->slots[ring->span.head] == 5 && ring->epochs[ring->span.head] == 1);
    TELLS(bredumalt_runqueue_is_full(ring), TOLD(1));
    TELLS(bredumalt_runqueue_len(ring), NUMBER(2));
    ON_RING(enqueue(ring, id(7, 3)), REFUSED(FULL));
    ON_RING(after_yield(ring, 1, id(7, 3)), REFUSED(FULL));
    TELLS(bredumalt_runqueue_front(ring), NAMED(5, 1));
    TELLS(bredumalt_runqueue_ready_at(ring, 1), NAMED(6, 2));
    TELLS(bredumalt_runqueue_ready_at(ring, 2), NOBODY);

    /* First in, first out; who is put back stands behind. */
    ON_RING(dequeue(ring), NAMED(5, 1));
    ON_RING(after_yield(ring, 1, id(7, 3)), NAMED(6, 2));
    ON_RING(after_yield(ring, 0, id(9, 9)), NAMED(7, 3));
    ON_RING(dequeue(ring), NOBODY);
    for (int i = 0; i < NO_FLAGS; i++)
        ON_RING(after_yield(ring, no_flags[i], id(7, 3)), REFUSED(BAD_LINE));

    ring->span.head = 2; /* head below N */
    HOLDS(bredumalt_runqueue_sound(ring) == 0);
    ON_RING(enqueue(ring, id(5, 1)), REFUSED(BAD_TABLE));
    ON_RING(dequeue(ring), REFUSED(BAD_TABLE));
    ON_RING(after_yield(ring, 0, id(5, 1)), REFUSED(BAD_TABLE));
    ON_RING(after_yield(ring, 2, id(5, 1)), REFUSED(BAD_LINE)); /* the ring is not looked at */
    TELLS(bredumalt_runqueue_capacity(ring), REFUSED(BAD_TABLE));
    TELLS(bredumalt_runqueue_len(ring), REFUSED(BAD_TABLE));
    TELLS(bredumalt_runqueue_is_empty(ring), REFUSED(BAD_TABLE));
    TELLS(bredumalt_runqueue_is_full(ring), REFUSED(BAD_TABLE));
    TELLS(bredumalt_runqueue_front(ring), REFUSED(BAD_TABLE));
}

static void on_wakes(void) {
    MAKES_NONE(bredumalt_wake_init(wakes, 3));
    MAKES(bredumalt_wake_init(wakes, 4));
    HOLDS(bredumalt_wake_sound(wakes) == 1);
    TELLS(bredumalt_wake_is_empty(wakes), TOLD(1));
    for (uint32_t number = 70; number < 73; number++)
        ON_WAKES(push(wakes, token(number)), TOLD(1));
    HOLDS(wakes->tokens[wakes->ends.tail] == 70);
    ON_WAKES(push(wakes, token(73)), TOLD(0)); /* A8 */
    TELLS(bredumalt_wake_drops(wakes), NUMBER(1));
    TELLS(bredumalt_wake_is_empty(wakes), TOLD(0));

    /* What is popped is a token; where there is none, nothing is written. */
    bredumalt_token popped = {0};
    for (uint32_t number = 70; number < 73; number++) {
        ON_WAKES(pop(wakes, &popped), VALUE(number));
        HOLDS(popped.number == number);
    }
    ON_WAKES(pop(wakes, &now.popped), NO_VALUE);

    wakes->ends.tail = 4; /* both indexes below C */
    HOLDS(bredumalt_wake_sound(wakes) == 0);
    ON_WAKES(push(wakes, token(70)), REFUSED(BAD_TABLE));
    ON_WAKES(pop(wakes, &now.popped), REFUSED(BAD_TABLE));
    TELLS(bredumalt_wake_drops(wakes), REFUSED(BAD_TABLE));
    TELLS(bredumalt_wake_is_empty(wakes), REFUSED(BAD_TABLE));
}

/* Every call refuses the table with 1, and leaves it as it is. */
static void waits_are_refused(void) {
    HOLDS(bredumalt_irqwait_sound(waits) == 0);
    ON_WAITS(arm(waits, cookie(32), id(4, 0)), REFUSED(BAD_TABLE));
    ON_WAITS(disarm_task(waits, id(63, 0)), REFUSED(BAD_TABLE));
    ON_WAITS(signal(waits, cookie(59)), REFUSED(BAD_TABLE));
    ON_WAITS(take_pending(waits, id(2, 0)), REFUSED(BAD_TABLE));
    TELLS(bredumalt_irqwait_is_pending(waits, id(2, 0)), REFUSED(BAD_TABLE));
}

static void on_waits(void) {
    memset(&now, 0xA5, sizeof now);
    bredumalt_irqwait_init(waits);
    HOLDS(bredumalt_irqwait_sound(waits) == 1);
    ON_WAITS(arm(waits, cookie(30), id(2, 0)), DONE);
    ON_WAITS(arm(waits, cookie(31), id(3, 0)), DONE);
    ON_WAITS(arm(waits, cookie(31), id(2, 0)), REFUSED(TASK_BUSY)); /* A9: the first entry decides */
    ON_WAITS(arm(waits, cookie(30), id(3, 0)), REFUSED(COOKIE_BUSY));
    ON_WAITS(arm(waits, cookie(32), id(64, 0)), REFUSED(BAD_TASK)); /* A11 */
    for (uint16_t slot = 58; slot < 64; slot++)
        ON_WAITS(arm(waits, cookie(slot), id(slot, 0)), DONE);
    ON_WAITS(arm(waits, cookie(32), id(4, 0)), REFUSED(FULL)); /* 8 waiters */

    /* A signal frees the entry and marks the slot; only the same id takes the mark, and once. */
    ON_WAITS(signal(waits, cookie(31)), NAMED(3, 0));
    ON_WAITS(signal(waits, cookie(31)), NOBODY);
    HOLDS(waits->pending[3] == 1 && waits->pending_slots[3] == 3 && waits->pending_epochs[3] == 0);
    TELLS(bredumalt_irqwait_is_pending(waits, id(3, 0)), TOLD(1));
    TELLS(bredumalt_irqwait_is_pending(waits, id(3, 1)), TOLD(0));
    ON_WAITS(take_pending(waits, id(3, 1)), TOLD(0));
    ON_WAITS(take_pending(waits, id(3, 0)), TOLD(1));
    ON_WAITS(take_pending(waits, id(3, 0)), TOLD(0));
    ON_WAITS(disarm_task(waits, id(2, 0)), DONE);
    ON_WAITS(signal(waits, cookie(30)), NOBODY);

    /* A flag that is neither 0 nor 1, at a taken entry, a free one, a mark that is set and one that is not. */
    ON_WAITS(signal(waits, cookie(58)), NAMED(58, 0));
    static struct memory sound;
    memcpy(&sound, &now, sizeof now);
    for (int i = 0; i < NO_FLAGS; i++) {
        uint8_t *const flags[] = {&waits->waiters.all[7].live, &waits->waiters.all[0].live, &waits->pending[58], &waits->pending[63]};
        for (int k = 0; k < 4; k++) {
            *flags[k] = no_flags[i];
            waits_are_refused();
            memcpy(&now, &sound, sizeof now);
        }
    }
    HOLDS(bredumalt_irqwait_sound(waits) == 1);

    waits->waiters.all[5].cookie = waits->waiters.all[4].cookie; /* live cookies distinct */
    waits_are_refused();
}

static void deadlines_are_refused(void) {
    HOLDS(bredumalt_parktime_sound(deadlines) == 0);
    ON_DEADLINES(arm(deadlines, id(9, 0), 400), REFUSED(BAD_TABLE));
    ON_DEADLINES(disarm(deadlines, id(5, 0)), REFUSED(BAD_TABLE));
    ON_DEADLINES(poll(deadlines, 1000, now.out, 16), REFUSED(BAD_TABLE));
}

static void on_deadlines(void) {
    bredumalt_token out[17];
    memset(&now, 0xA5, sizeof now);
    bredumalt_parktime_init(deadlines);
    HOLDS(bredumalt_parktime_sound(deadlines) == 1);
    ON_DEADLINES(arm(deadlines, id(3, 2), 100), DONE);
    ON_DEADLINES(poll(deadlines, 99, now.out, 17), NUMBER(0)); /* A10 */
    ON_DEADLINES(poll(deadlines, 100, now.out, 15), REFUSED(SHORT_OUT));
    memcpy(out, now.out, sizeof out);
    ON_DEADLINES(poll(deadlines, 100, out, 16), NUMBER(1));
    HOLDS(out[0].number == 131075 && memcmp(out + 1, now.out + 1, sizeof out - sizeof out[0]) == 0);

    /* Sixteen deadlines; who has one may have another in its place, even then. */
    for (uint16_t slot = 0; slot < 16; slot++)
        ON_DEADLINES(arm(deadlines, id(slot, 0), 200), DONE);
    ON_DEADLINES(arm(deadlines, id(16, 0), 200), REFUSED(FULL));
    ON_DEADLINES(arm(deadlines, id(5, 0), 300), DONE);
    ON_DEADLINES(disarm(deadlines, id(6, 0)), DONE);
    ON_DEADLINES(poll(deadlines, 299, out, 16), NUMBER(14)); /* all but 5 and 6, in entry order */
    HOLDS(out[4].number == 4 && out[5].number == 7 && out[13].number == 15);

    /* A flag that is neither 0 nor 1, at the taken entry and at a free one. */
    for (int i = 0; i < NO_FLAGS; i++) {
        deadlines->entries[5].live = no_flags[i];
        deadlines_are_refused();
        deadlines->entries[5].live = 1;
        deadlines->entries[15].live = no_flags[i];
        deadlines_are_refused();
        deadlines->entries[15].live = 0;
    }
    HOLDS(bredumalt_parktime_sound(deadlines) == 1);

    deadlines->entries[0] = deadlines->entries[5]; /* live ids distinct */
    deadlines_are_refused();
}

static void tasks_are_refused(void) {
    HOLDS(bredumalt_tasks_sound(tasks) == 0);
    ON_TASKS(start(tasks), REFUSED(BAD_TABLE));
    ON_TASKS(start_cpu1(tasks), REFUSED(BAD_TABLE));
    ON_TASKS(admit(tasks), REFUSED(BAD_TABLE));
    ON_TASKS(admit_on(tasks, 2), REFUSED(BAD_TABLE));
    ON_TASKS(set_stealeable(tasks, id(2, 1), 1), REFUSED(BAD_TABLE));
    ON_TASKS(wake(tasks, id(2, 1)), REFUSED(BAD_TABLE));
    ON_TASKS(collect(tasks), REFUSED(BAD_TABLE));
    ON_TASKS(try_steal_into(tasks, 1), REFUSED(BAD_TABLE));
    ON_TASKS(switch(tasks, BREDUMALT_KIND_EXIT), REFUSED(BAD_TABLE));
    ON_TASKS(switch_on(tasks, 1, BREDUMALT_KIND_YIELD), REFUSED(BAD_TABLE));
    TELLS(bredumalt_tasks_current_on(tasks, 2), REFUSED(BAD_TABLE));
    TELLS(bredumalt_tasks_current(tasks), REFUSED(BAD_TABLE));
    TELLS(bredumalt_tasks_idle_of(tasks, 0), REFUSED(BAD_TABLE));
    TELLS(bredumalt_tasks_has_ready_on(tasks, 0), REFUSED(BAD_TABLE));
    TELLS(bredumalt_tasks_has_ready(tasks), REFUSED(BAD_TABLE));
    TELLS(bredumalt_tasks_cpu1_started(tasks), REFUSED(BAD_TABLE));
    TELLS(bredumalt_tasks_state(tasks, id(2, 1)), REFUSED(BAD_TABLE));
    TELLS(bredumalt_tasks_home_of(tasks, id(2, 1)), REFUSED(BAD_TABLE));
    TELLS(bredumalt_tasks_live_id(tasks, 2), REFUSED(BAD_TABLE));
    TELLS(bredumalt_tasks_is_stealeable(tasks, id(2, 1)), REFUSED(BAD_TABLE));
    TELLS(bredumalt_tasks_can_steal_into(tasks, 1), REFUSED(BAD_TABLE));
    TELLS(bredumalt_tasks_overwrites(tasks), REFUSED(BAD_TABLE));
    TELLS(bredumalt_tasks_blocked_count(tasks), REFUSED(BAD_TABLE));
    TELLS(bredumalt_tasks_block_events(tasks), REFUSED(BAD_TABLE));
    TELLS(bredumalt_tasks_live_count(tasks), REFUSED(BAD_TABLE));
    TELLS(bredumalt_tasks_peak_slots(tasks), REFUSED(BAD_TABLE));

    /* An operand that names nothing is 12 all the same: the table is not looked at. */
    ON_TASKS(switch(tasks, BREDUMALT_KIND(4)), REFUSED(BAD_LINE));
    ON_TASKS(set_stealeable(tasks, id(2, 1), 2), REFUSED(BAD_LINE));
}

static void on_tasks(void) {
    MAKES_NONE(bredumalt_tasks_init(tasks, 0));
    MAKES_NONE(bredumalt_tasks_init(tasks, 65));
    MAKES(bredumalt_tasks_init(tasks, 8));
    tasks->states[63] = 200; /* only the first N places count, but what the others hold stays too */
    tasks->marks[8] = 200;
    tasks->ring_slots[127] = 65535;
    HOLDS(bredumalt_tasks_sound(tasks) == 1);

    /* Before start every changing call is 3, whatever its CPU; reads answer. */
    ON_TASKS(start_cpu1(tasks), REFUSED(NOT_STARTED));
    ON_TASKS(admit(tasks), REFUSED(NOT_STARTED));
    ON_TASKS(admit_on(tasks, 2), REFUSED(NOT_STARTED));
    ON_TASKS(set_stealeable(tasks, id(1, 0), 1), REFUSED(NOT_STARTED));
    ON_TASKS(wake(tasks, id(1, 0)), REFUSED(NOT_STARTED));
    ON_TASKS(collect(tasks), REFUSED(NOT_STARTED));
    ON_TASKS(try_steal_into(tasks, 1), REFUSED(NOT_STARTED));
    ON_TASKS(switch(tasks, BREDUMALT_KIND_YIELD), REFUSED(NOT_STARTED));
    ON_TASKS(switch_on(tasks, 1, BREDUMALT_KIND_YIELD), REFUSED(NOT_STARTED));
    TELLS(bredumalt_tasks_live_count(tasks), NUMBER(0));

    ON_TASKS(start(tasks), DONE);
    ON_TASKS(start(tasks), REFUSED(AGAIN));
    ON_TASKS(switch_on(tasks, 1, BREDUMALT_KIND_YIELD), REFUSED(CPU_OFF));
    TELLS(bredumalt_tasks_current_on(tasks, 2), REFUSED(BAD_CPU));
    TELLS(bredumalt_tasks_idle_of(tasks, 2), REFUSED(BAD_CPU));
    TELLS(bredumalt_tasks_has_ready_on(tasks, 2), REFUSED(BAD_CPU));
    ON_TASKS(admit_on(tasks, 2), NOBODY);
    ON_TASKS(switch_on(tasks, 2, BREDUMALT_KIND_YIELD), STAY);
    ON_TASKS(switch(tasks, BREDUMALT_KIND(4)), REFUSED(BAD_LINE));
    ON_TASKS(switch_on(tasks, 0, BREDUMALT_KIND(255)), REFUSED(BAD_LINE));
    for (int i = 0; i < NO_FLAGS; i++)
        ON_TASKS(set_stealeable(tasks, id(1, 0), no_flags[i]), REFUSED(BAD_LINE));

    /* A5: idle's preempt steals, then stays. */
    TELLS(bredumalt_tasks_cpu1_started(tasks), TOLD(0));
    ON_TASKS(start_cpu1(tasks), NAMED(1, 0));
    ON_TASKS(start_cpu1(tasks), NAMED(1, 0));
    TELLS(bredumalt_tasks_cpu1_started(tasks), TOLD(1));
    ON_TASKS(admit(tasks), NAMED(2, 0));
    TELLS(bredumalt_tasks_can_steal_into(tasks, 1), TOLD(0));
    ON_TASKS(set_stealeable(tasks, id(0, 0), 1), TOLD(0)); /* any known id but an idle */
    ON_TASKS(set_stealeable(tasks, id(2, 0), 1), TOLD(1));
    TELLS(bredumalt_tasks_is_stealeable(tasks, id(2, 0)), TOLD(1));
    TELLS(bredumalt_tasks_is_stealeable(tasks, id(1, 0)), TOLD(0));
    TELLS(bredumalt_tasks_can_steal_into(tasks, 1), TOLD(1));
    TELLS(bredumalt_tasks_home_of(tasks, id(2, 0)), VALUE(0));
    ON_TASKS(switch_on(tasks, 1, BREDUMALT_KIND_PREEMPT), STAY);
    TELLS(bredumalt_tasks_home_of(tasks, id(2, 0)), VALUE(1));
    TELLS(bredumalt_tasks_has_ready(tasks), TOLD(0));
    TELLS(bredumalt_tasks_has_ready_on(tasks, 1), TOLD(1));
    ON_TASKS(switch_on(tasks, 1, BREDUMALT_KIND_YIELD), SWITCH(1, 2));
    TELLS(bredumalt_tasks_current_on(tasks, 1), NAMED(2, 0));
    TELLS(bredumalt_tasks_idle_of(tasks, 1), NAMED(1, 0));
    HOLDS(tasks->states[2] == BREDUMALT_STATE_RUNNING && tasks->homes[2] == 1 && tasks->marks[2] == 1);
    HOLDS(tasks->states[1] == BREDUMALT_STATE_READY && tasks->homes[1] == 1 && tasks->marks[1] == 0);
    HOLDS(tasks->states[0] == BREDUMALT_STATE_RUNNING && tasks->homes[0] == 0 && tasks->marks[0] == 0);

    /* CPU 1's queue is 1, 3. Unmarked, nobody may be stolen; marked, 3 is. */
    ON_TASKS(admit_on(tasks, 1), NAMED(3, 0));
    ON_TASKS(try_steal_into(tasks, 0), TOLD(0));
    ON_TASKS(set_stealeable(tasks, id(3, 0), 1), TOLD(1));
    ON_TASKS(try_steal_into(tasks, 0), TOLD(1));

    /* Only a known, Blocked id is woken. */
    ON_TASKS(switch(tasks, BREDUMALT_KIND_YIELD), SWITCH(0, 3));
    TELLS(bredumalt_tasks_current(tasks), NAMED(3, 0));
    ON_TASKS(switch(tasks, BREDUMALT_KIND_BLOCK), SWITCH(3, 0));
    TELLS(bredumalt_tasks_state(tasks, id(3, 0)), VALUE(BREDUMALT_STATE_BLOCKED));
    TELLS(bredumalt_tasks_blocked_count(tasks), NUMBER(1));
    ON_TASKS(wake(tasks, id(3, 1)), TOLD(0));
    ON_TASKS(wake(tasks, id(3, 0)), TOLD(1));
    ON_TASKS(wake(tasks, id(3, 0)), TOLD(0));
    TELLS(bredumalt_tasks_blocked_count(tasks), NUMBER(0));
    TELLS(bredumalt_tasks_block_events(tasks), NUMBER(1));

    /* 3 leaves and is parked; 2 leaves and displaces it, as in A7. Slot 2's next tenant is 2/1, not stealeable, and no wake for 2/0. */
    ON_TASKS(switch(tasks, BREDUMALT_KIND_YIELD), SWITCH(0, 3));
    ON_TASKS(switch(tasks, BREDUMALT_KIND_EXIT), SWITCH(3, 0));
    TELLS(bredumalt_tasks_state(tasks, id(3, 0)), NO_VALUE);
    TELLS(bredumalt_tasks_live_id(tasks, 3), NOBODY);
    TELLS(bredumalt_tasks_live_id(tasks, 2), NAMED(2, 0));
    ON_TASKS(switch_on(tasks, 1, BREDUMALT_KIND_EXIT), SWITCH_RELEASING(2, 1, 3));
    TELLS(bredumalt_tasks_overwrites(tasks), NUMBER(1));
    ON_TASKS(collect(tasks), NAMED(2, 0));
    ON_TASKS(collect(tasks), NOBODY);
    ON_TASKS(admit(tasks), NAMED(2, 1));
    HOLDS(tasks->epochs[2] == 1 && tasks->small.lens[0] == 1);
    HOLDS(tasks->ring_slots[tasks->small.heads[0]] == 2 && tasks->ring_epochs[tasks->small.heads[0]] == 1);
    TELLS(bredumalt_tasks_is_stealeable(tasks, id(2, 1)), TOLD(0));
    ON_TASKS(wake(tasks, id(2, 0)), TOLD(0));
    TELLS(bredumalt_tasks_live_count(tasks), NUMBER(3));
    TELLS(bredumalt_tasks_peak_slots(tasks), NUMBER(4));
    HOLDS(bredumalt_tasks_sound(tasks) == 1);

    /* A flag that is neither 0 nor 1: whether an id is parked, the mark of a task, the mark of an Empty slot. */
    for (int i = 0; i < NO_FLAGS; i++) {
        uint8_t *const flags[] = {&tasks->small.parked, &tasks->marks[2], &tasks->marks[7]};
        for (int k = 0; k < 3; k++) {
            uint8_t sound = *flags[k];
            *flags[k] = no_flags[i];
            tasks_are_refused();
            *flags[k] = sound;
        }
    }
    HOLDS(bredumalt_tasks_sound(tasks) == 1);

    tasks->small.peak = 2; /* peak is at least occupied slots */
    tasks_are_refused();

    MAKES(bredumalt_tasks_init(tasks, 1));
    ON_TASKS(start(tasks), DONE);
    ON_TASKS(start_cpu1(tasks), NOBODY); /* A11 */
}

static bool all_sound(void) {
    return bredumalt_tasks_sound(tasks) && bredumalt_irqwait_sound(waits) && bredumalt_parktime_sound(deadlines) &&
           bredumalt_wake_sound(wakes);
}

/* The four tables side by side, made at once. */
static void on_all(void) {
    MAKES_NONE(bredumalt_init(&now.all, 0, 4));
    MAKES_NONE(bredumalt_init(&now.all, 8, 5));
    MAKES_NONE(bredumalt_init(&now.all, 65, 0));
    MAKES(bredumalt_init(&now.all, 8, 4));
    HOLDS(all_sound());

    ON_TASKS(admit_on(tasks, 0), REFUSED(NOT_STARTED));
    ON_TASKS(start(tasks), DONE);
    ON_TASKS(switch_on(tasks, 1, BREDUMALT_KIND(4)), REFUSED(BAD_LINE));
    ON_TASKS(start_cpu1(tasks), NAMED(1, 0));
    ON_TASKS(admit_on(tasks, 0), NAMED(2, 0));
    TELLS(bredumalt_tasks_live_id(tasks, 3), NOBODY);
    ON_TASKS(set_stealeable(tasks, id(2, 0), 1), TOLD(1));
    ON_TASKS(try_steal_into(tasks, 1), TOLD(1));
    TELLS(bredumalt_tasks_has_ready_on(tasks, 0), TOLD(0));
    ON_TASKS(switch_on(tasks, 1, BREDUMALT_KIND_YIELD), SWITCH(1, 2));
    ON_TASKS(switch_on(tasks, 1, BREDUMALT_KIND_BLOCK), SWITCH(2, 1));
    ON_TASKS(wake(tasks, id(2, 0)), TOLD(1));
    ON_TASKS(switch_on(tasks, 1, BREDUMALT_KIND_YIELD), SWITCH(1, 2));
    ON_TASKS(switch_on(tasks, 1, BREDUMALT_KIND_EXIT), SWITCH(2, 1));
    ON_TASKS(admit_on(tasks, 1), NAMED(3, 0)); /* slot 2 is parked */
    ON_TASKS(switch_on(tasks, 1, BREDUMALT_KIND_YIELD), SWITCH(1, 3));
    TELLS(bredumalt_tasks_overwrites(tasks), NUMBER(0));
    ON_TASKS(switch_on(tasks, 1, BREDUMALT_KIND_EXIT), SWITCH_RELEASING(3, 1, 2));
    TELLS(bredumalt_tasks_overwrites(tasks), NUMBER(1));
    ON_TASKS(collect(tasks), NAMED(3, 0));
    TELLS(bredumalt_tasks_live_count(tasks), NUMBER(2));
    TELLS(bredumalt_tasks_peak_slots(tasks), NUMBER(3));

    ON_WAITS(arm(waits, cookie(30), id(2, 0)), DONE);
    ON_WAITS(arm(waits, cookie(31), id(2, 0)), REFUSED(TASK_BUSY));
    ON_WAITS(arm(waits, cookie(31), id(64, 0)), REFUSED(BAD_TASK));
    TELLS(bredumalt_irqwait_is_pending(waits, id(2, 0)), TOLD(0));
    ON_WAITS(signal(waits, cookie(30)), NAMED(2, 0));
    TELLS(bredumalt_irqwait_is_pending(waits, id(2, 0)), TOLD(1));
    ON_WAITS(arm(waits, cookie(31), id(3, 0)), DONE);
    ON_WAITS(disarm_task(waits, id(3, 0)), DONE);
    ON_WAITS(signal(waits, cookie(31)), NOBODY);

    bredumalt_token out[16];
    ON_DEADLINES(arm(deadlines, id(3, 2), 100), DONE);
    ON_DEADLINES(arm(deadlines, id(4, 0), 100), DONE);
    ON_DEADLINES(disarm(deadlines, id(4, 0)), DONE);
    ON_DEADLINES(poll(deadlines, 100, out, 16), NUMBER(1));
    HOLDS(same_id(bredumalt_ids_from_raw(out[0]), id(3, 2)));
}

#define VERDICT(name) BREDUMALT_VERDICT_##name

static void on_lifecycle(void) {
    static const struct {
        uint8_t state, reap, force, cancel;
    } rows[] = {
        {BREDUMALT_STATE_EMPTY, VERDICT(NOT_BLOCKED), VERDICT(EMPTY), VERDICT(NOTHING)}, /* A12 */
        {BREDUMALT_STATE_READY, VERDICT(NOT_BLOCKED), VERDICT(FLAG_AND_NUDGE), VERDICT(NOTHING)},
        {BREDUMALT_STATE_RUNNING, VERDICT(NOT_BLOCKED), VERDICT(FLAG_AND_NUDGE), VERDICT(NOTHING)},
        {BREDUMALT_STATE_BLOCKED, VERDICT(CANCEL), VERDICT(FLAG_AND_CANCEL), VERDICT(MARK_AND_WAKE)},
        {BREDUMALT_STATE_UNKNOWN, VERDICT(BAD_ID), VERDICT(BAD_ID), VERDICT(NOTHING)},
        {255, VERDICT(BAD_ID), VERDICT(BAD_ID), VERDICT(NOTHING)},
    };
    for (size_t i = 0; i < sizeof rows / sizeof rows[0]; i++) {
        HOLDS(bredumalt_lifecycle_reap(0, rows[i].state) == rows[i].reap);
        HOLDS(bredumalt_lifecycle_force(0, rows[i].state) == rows[i].force);
        HOLDS(bredumalt_lifecycle_cancel(rows[i].state) == rows[i].cancel);
        HOLDS(bredumalt_lifecycle_reap(1, rows[i].state) == VERDICT(IDLE));
        HOLDS(bredumalt_lifecycle_force(1, rows[i].state) == VERDICT(IDLE));
        for (int k = 0; k < NO_FLAGS; k++) {
            HOLDS(bredumalt_lifecycle_reap(no_flags[k], rows[i].state) == VERDICT(BAD_FLAG));
            HOLDS(bredumalt_lifecycle_force(no_flags[k], rows[i].state) == VERDICT(BAD_FLAG));
        }
    }
}

int main(void) {
    on_ids();
    on_ring();
    on_wakes();
    on_waits();
    on_deadlines();
    on_tasks();
    on_all();
    on_lifecycle();
    return wrong;
}
