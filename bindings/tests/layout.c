/* Prints the size and alignment of every struct of bredumalt.h that crosses the boundary, or of which parts do, and the offset of every
 * field; check.sh compares it with layout.txt, which the test layout.rs holds the Rust structs to. */
#include "bredumalt.h"
#include <stdalign.h>
#include <stdio.h>

#define SIZE(name, type) printf("%s %zu %zu\n", name, sizeof(type), alignof(type))
#define NAMED_FIELD(name, rust, type, field) printf("%s.%s %zu\n", name, rust, offsetof(type, field))
#define FIELD(name, type, field) NAMED_FIELD(name, #field, type, field)

int main(void) {
    SIZE("TaskId", bredumalt_task_id);
    FIELD("TaskId", bredumalt_task_id, slot);
    FIELD("TaskId", bredumalt_task_id, epoch);
    SIZE("Cookie", bredumalt_cookie);
    NAMED_FIELD("Cookie", "0", bredumalt_cookie, number);
    SIZE("Token", bredumalt_token);
    NAMED_FIELD("Token", "0", bredumalt_token, number);
    SIZE("Answer", bredumalt_answer);
    FIELD("Answer", bredumalt_answer, refusal);
    FIELD("Answer", bredumalt_answer, kind);
    FIELD("Answer", bredumalt_answer, flag);
    FIELD("Answer", bredumalt_answer, number);
    FIELD("Answer", bredumalt_answer, first);
    FIELD("Answer", bredumalt_answer, second);
    FIELD("Answer", bredumalt_answer, third);
    SIZE("Span", bredumalt_span);
    FIELD("Span", bredumalt_span, n);
    FIELD("Span", bredumalt_span, head);
    FIELD("Span", bredumalt_span, len);
    SIZE("RunQueue", bredumalt_run_queue);
    FIELD("RunQueue", bredumalt_run_queue, span);
    FIELD("RunQueue", bredumalt_run_queue, slots);
    FIELD("RunQueue", bredumalt_run_queue, epochs);
    SIZE("Ends", bredumalt_ends);
    FIELD("Ends", bredumalt_ends, c);
    FIELD("Ends", bredumalt_ends, head);
    FIELD("Ends", bredumalt_ends, tail);
    FIELD("Ends", bredumalt_ends, drops);
    SIZE("WakeQueue", bredumalt_wake_queue);
    FIELD("WakeQueue", bredumalt_wake_queue, ends);
    FIELD("WakeQueue", bredumalt_wake_queue, tokens);
    SIZE("Waiter", bredumalt_waiter);
    FIELD("Waiter", bredumalt_waiter, live);
    FIELD("Waiter", bredumalt_waiter, cookie);
    FIELD("Waiter", bredumalt_waiter, task);
    SIZE("Waiters", bredumalt_waiters);
    FIELD("Waiters", bredumalt_waiters, all);
    SIZE("WaitTable", bredumalt_wait_table);
    FIELD("WaitTable", bredumalt_wait_table, waiters);
    FIELD("WaitTable", bredumalt_wait_table, pending);
    FIELD("WaitTable", bredumalt_wait_table, pending_slots);
    FIELD("WaitTable", bredumalt_wait_table, pending_epochs);
    SIZE("Entry", bredumalt_entry);
    FIELD("Entry", bredumalt_entry, live);
    FIELD("Entry", bredumalt_entry, task);
    FIELD("Entry", bredumalt_entry, deadline);
    SIZE("Table", bredumalt_table);
    FIELD("Table", bredumalt_table, entries);
    SIZE("Small", bredumalt_small);
    FIELD("Small", bredumalt_small, n);
    FIELD("Small", bredumalt_small, heads);
    FIELD("Small", bredumalt_small, lens);
    FIELD("Small", bredumalt_small, currents);
    FIELD("Small", bredumalt_small, idles);
    FIELD("Small", bredumalt_small, parked);
    FIELD("Small", bredumalt_small, parked_id);
    FIELD("Small", bredumalt_small, overwrites);
    FIELD("Small", bredumalt_small, block_events);
    FIELD("Small", bredumalt_small, peak);
    SIZE("Tasks", bredumalt_tasks);
    FIELD("Tasks", bredumalt_tasks, small);
    FIELD("Tasks", bredumalt_tasks, states);
    FIELD("Tasks", bredumalt_tasks, epochs);
    FIELD("Tasks", bredumalt_tasks, homes);
    FIELD("Tasks", bredumalt_tasks, marks);
    FIELD("Tasks", bredumalt_tasks, ring_slots);
    FIELD("Tasks", bredumalt_tasks, ring_epochs);
    SIZE("SpanAnswer", bredumalt_span_answer);
    FIELD("SpanAnswer", bredumalt_span_answer, span);
    FIELD("SpanAnswer", bredumalt_span_answer, answer);
    SIZE("EndsAnswer", bredumalt_ends_answer);
    FIELD("EndsAnswer", bredumalt_ends_answer, ends);
    FIELD("EndsAnswer", bredumalt_ends_answer, answer);
    SIZE("WaitersAnswer", bredumalt_waiters_answer);
    FIELD("WaitersAnswer", bredumalt_waiters_answer, waiters);
    FIELD("WaitersAnswer", bredumalt_waiters_answer, answer);
    SIZE("DeadlinesAnswer", bredumalt_deadlines_answer);
    FIELD("DeadlinesAnswer", bredumalt_deadlines_answer, table);
    FIELD("DeadlinesAnswer", bredumalt_deadlines_answer, answer);
    SIZE("SmallAnswer", bredumalt_small_answer);
    FIELD("SmallAnswer", bredumalt_small_answer, small);
    FIELD("SmallAnswer", bredumalt_small_answer, answer);
    return 0;
}
