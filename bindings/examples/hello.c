/* A task is admitted, runs, waits for an interrupt, and is woken by it. hello.rs does the same, and prints the same.
 * Each answer is looked at before anything of it is used: the refusal first, then the flag or the kind. */
#include "bredumalt.h"
#include <stdio.h>

static bredumalt_tables board;

int main(void) {
    bredumalt_answer got = bredumalt_init(&board, 57, 32);
    if (got.refusal != BREDUMALT_REFUSAL_NONE)
        return 1;
    got = bredumalt_tasks_start(&board.tasks);
    if (got.refusal != BREDUMALT_REFUSAL_NONE)
        return 1;

    got = bredumalt_tasks_admit(&board.tasks);
    if (got.refusal != BREDUMALT_REFUSAL_NONE || !got.flag)
        return 1;
    bredumalt_task_id task = got.first;
    printf("admit: %u/%u\n", task.slot, task.epoch);

    got = bredumalt_tasks_switch(&board.tasks, BREDUMALT_KIND_YIELD);
    if (got.refusal != BREDUMALT_REFUSAL_NONE || got.kind != BREDUMALT_ANSWER_SWITCH)
        return 1;
    printf("yield: to %u/%u\n", got.second.slot, got.second.epoch);

    /* The task waits for interrupt 30. */
    bredumalt_cookie cookie = {30};
    got = bredumalt_irqwait_arm(&board.waits, cookie, task);
    if (got.refusal != BREDUMALT_REFUSAL_NONE)
        return 1;
    got = bredumalt_tasks_switch(&board.tasks, BREDUMALT_KIND_BLOCK);
    if (got.refusal != BREDUMALT_REFUSAL_NONE || got.kind != BREDUMALT_ANSWER_SWITCH)
        return 1;
    printf("block: to %u/%u\n", got.second.slot, got.second.epoch);

    /* The interrupt comes: its handler pushes the waiter's token. */
    got = bredumalt_irqwait_signal(&board.waits, cookie);
    if (got.refusal != BREDUMALT_REFUSAL_NONE || !got.flag)
        return 1;
    got = bredumalt_wake_push(&board.wakes, bredumalt_ids_to_raw(got.first));
    if (got.refusal != BREDUMALT_REFUSAL_NONE || !got.flag)
        return 1;

    /* The scheduler wakes whom the token names; nobody is woken twice. */
    bredumalt_token token;
    got = bredumalt_wake_pop(&board.wakes, &token);
    if (got.refusal != BREDUMALT_REFUSAL_NONE || !got.flag)
        return 1;
    printf("token: %u\n", (unsigned)token.number);
    got = bredumalt_tasks_wake(&board.tasks, bredumalt_ids_from_raw(token));
    if (got.refusal != BREDUMALT_REFUSAL_NONE)
        return 1;
    printf("wake: %s\n", got.flag ? "true" : "false");
    got = bredumalt_tasks_wake(&board.tasks, task);
    if (got.refusal != BREDUMALT_REFUSAL_NONE)
        return 1;
    printf("wake again: %s\n", got.flag ? "true" : "false");

    /* 4 is no kind of switch, and nobody writes it by mistake; the table stays as it was, and the task is Ready still. */
    got = bredumalt_tasks_switch(&board.tasks, BREDUMALT_KIND(4));
    if (got.refusal == BREDUMALT_REFUSAL_BAD_LINE)
        printf("kind 4: refused\n");
    got = bredumalt_tasks_state(&board.tasks, task);
    if (got.refusal == BREDUMALT_REFUSAL_NONE && got.flag && got.number == BREDUMALT_STATE_READY)
        printf("state: Ready\n");
    return 0;
}
