/* Bredumalt over the C boundary: the scheduling core of a managed Ethernet switch, proved in Rattle.
 *
 * Link libbredumalt.a of crates/bredumalt/out (rt lib in crates/bredumalt writes it). It is for x86-64 with the System V calling convention,
 * and needs of the firmware:
 *   - of its C library memcpy, and nothing else; that is all that nm -u shows;
 *   - SSE registers, switched on, and saved by whoever interrupts;
 *   - the red zone: interrupts leave the 128 bytes below the stack pointer alone, or have a stack of their own;
 *   - stack: a call takes at most 1536 bytes, counted from the machine code over every path, with the red zone and with what goes in and
 *     comes back by value. What memcpy takes comes on top, and some tens of bytes for an inline function that is not inlined.
 * It keeps no data of its own. bindings/check.sh holds the archive to this.
 *
 * A table is a struct that the firmware keeps. Its arrays go to a call as pointers and are changed where they lie; its small part goes
 * in and comes back by value. The deadlines are all small part. Nobody has to write that out: for each call there is a static inline
 * function that takes the whole table by pointer (bredumalt_tasks_wake for bredumalt_tasks_wake_at). It is not proved. It hands over
 * the fields of one table and stores the small part back (bredumalt_wake_pop the token too), and that is all it is trusted for.
 *
 * Every call takes any bits whatever in tables and numbers. A flag is a byte, 0 or 1. In a table any other byte is damage, and a table
 * that is not sound is refused with 1. As an operand it names nothing and is refused with 12, like a number that is no kind of switch;
 * the table is not looked at then. A call that refuses leaves every table and every lent buffer as it was given; so does a maker that
 * is asked for a size which is not listed.
 *
 * A pointer must point to what it says. What lies there overlaps with nothing else that the call is given, and nobody else, no
 * interrupt either, makes use of it until the inline function has returned: that is the firmware's lock. Nothing is kept behind it.
 *
 * The layouts below are those of x86-64; the number after a field is its offset. */
#ifndef BREDUMALT_H
#define BREDUMALT_H

#if !defined(__x86_64__) || defined(__ILP32__) || defined(_WIN32)
#error "the archive of bredumalt is for x86-64 with the System V calling convention"
#endif

#include <stddef.h>
#include <stdint.h>

#ifdef __cplusplus
extern "C" {
#endif

/* Whoever drops an answer drops a refusal with it, so the compiler warns. */
#if defined(__GNUC__)
#define BREDUMALT_MUST_USE __attribute__((warn_unused_result))
#else
#define BREDUMALT_MUST_USE
#endif

/* NUMBERS */

/* Kinds of switch. A struct and not an enum, because C takes any number for an enum: so a state, or a bare 3, in the place of a kind is
 * an error with every compiler. A kind is only ever handed in, so that nobody needs it as a case label. 1 byte. */
typedef struct {
    uint8_t number; /* 0 */
} bredumalt_kind;

#ifdef __cplusplus
#define BREDUMALT_KIND(number) (bredumalt_kind{number})
#else
#define BREDUMALT_KIND(number) ((bredumalt_kind){number})
#endif

#define BREDUMALT_KIND_YIELD BREDUMALT_KIND(0)
#define BREDUMALT_KIND_PREEMPT BREDUMALT_KIND(1)
#define BREDUMALT_KIND_BLOCK BREDUMALT_KIND(2)
#define BREDUMALT_KIND_EXIT BREDUMALT_KIND(3)

/* Codes of states, and a number for an id that is not known. */
typedef enum {
    BREDUMALT_STATE_EMPTY = 0,
    BREDUMALT_STATE_READY = 1,
    BREDUMALT_STATE_RUNNING = 2,
    BREDUMALT_STATE_BLOCKED = 3,
    BREDUMALT_STATE_UNKNOWN = 4,
} bredumalt_state;

/* Why a call is refused: document 01's numbers and names. */
typedef enum {
    BREDUMALT_REFUSAL_NONE = 0,
    BREDUMALT_REFUSAL_BAD_TABLE = 1, /* a table handed in is not sound */
    BREDUMALT_REFUSAL_BAD_SIZE = 2, /* a table is to be made in a size that is not listed */
    BREDUMALT_REFUSAL_NOT_STARTED = 3, /* a changing call other than start before start */
    BREDUMALT_REFUSAL_AGAIN = 4, /* a second start */
    BREDUMALT_REFUSAL_BAD_CPU = 5, /* current_on, idle_of or has_ready_on with a CPU above 1 */
    BREDUMALT_REFUSAL_CPU_OFF = 6, /* a switch on CPU 1 before start_cpu1 */
    BREDUMALT_REFUSAL_SHORT_OUT = 7, /* a poll's output has under 16 places */
    BREDUMALT_REFUSAL_BAD_TASK = 8, /* a slot of 64 or more is to wait for an interrupt */
    BREDUMALT_REFUSAL_COOKIE_BUSY = 9, /* a task waits for the interrupt already */
    BREDUMALT_REFUSAL_TASK_BUSY = 10, /* the task waits for an interrupt already */
    BREDUMALT_REFUSAL_FULL = 11, /* no entry of the table, or no place of the ring, is free */
    BREDUMALT_REFUSAL_BAD_LINE = 12, /* a number that names nothing: a kind of switch, a flag */
    BREDUMALT_REFUSAL_TOO_LONG = 13, /* only the program events gives this */
} bredumalt_refusal;

/* Kinds of answer: what of an answer that is no refusal may be read. Refused: kind 0. */
typedef enum {
    BREDUMALT_ANSWER_DONE = 0, /* nothing to tell */
    BREDUMALT_ANSWER_TOLD = 1, /* true or false: flag */
    BREDUMALT_ANSWER_NUMBER = 2, /* number */
    BREDUMALT_ANSWER_NAMED = 3, /* an id: first; or none: flag is 0 */
    BREDUMALT_ANSWER_VALUE = 4, /* number; or none: flag is 0 */
    BREDUMALT_ANSWER_STAY = 5, /* the current task stays */
    BREDUMALT_ANSWER_SWITCH = 6, /* from first to second, with third to release, or none to release: flag is 0 */
} bredumalt_answer_kind;

/* What is to be done to a task, and from IDLE on why nothing may be. */
typedef enum {
    BREDUMALT_VERDICT_NOTHING = 0,
    BREDUMALT_VERDICT_CANCEL = 1, /* cancel its wait */
    BREDUMALT_VERDICT_FLAG_AND_CANCEL = 2, /* flag it to end, and cancel its wait */
    BREDUMALT_VERDICT_FLAG_AND_NUDGE = 3, /* flag it to end, and tell its CPU */
    BREDUMALT_VERDICT_MARK_AND_WAKE = 4, /* mark its wait as cancelled, and wake it */
    BREDUMALT_VERDICT_IDLE = 5, /* it is an idle task */
    BREDUMALT_VERDICT_BAD_ID = 6, /* its id is not known */
    BREDUMALT_VERDICT_NOT_BLOCKED = 7, /* it waits for nothing */
    BREDUMALT_VERDICT_EMPTY = 8, /* its slot is Empty */
    BREDUMALT_VERDICT_BAD_FLAG = 12, /* whether it is an idle task was neither 0 nor 1 */
} bredumalt_verdict;

/* TYPES */

/* A task: a slot, and which of its tenants. 4 bytes, aligned at 2. */
typedef struct {
    uint16_t slot; /* 0 */
    uint16_t epoch; /* 2 */
} bredumalt_task_id;

/* The name of an interrupt, and a packed id, epoch x 65536 + slot: two types, so that neither is taken for the other. 4 bytes each,
 * aligned at 4. */
typedef struct {
    uint32_t number; /* 0 */
} bredumalt_cookie;

typedef struct {
    uint32_t number; /* 0 */
} bredumalt_token;

/* What a call answers: the refusal first, then the kind of answer, then its values; what a kind does not use is 0. The flag is 0 or 1.
 * 32 bytes, aligned at 8. */
typedef struct {
    uint8_t refusal; /* 0 */
    uint8_t kind; /* 1 */
    uint8_t flag; /* 2 */
    uint64_t number; /* 8 */
    bredumalt_task_id first; /* 16 */
    bredumalt_task_id second; /* 20 */
    bredumalt_task_id third; /* 24 */
} bredumalt_answer;

/* A ring without its entries: how many places count, where the head is, how many are queued. 24 bytes, aligned at 8. */
typedef struct {
    size_t n; /* 0 */
    size_t head; /* 8 */
    size_t len; /* 16 */
} bredumalt_span;

/* A ring of ready tasks. Of the 64 places the first span.n count. 280 bytes, aligned at 8. */
typedef struct {
    bredumalt_span span; /* 0 */
    uint16_t slots[64]; /* 24 */
    uint16_t epochs[64]; /* 152 */
} bredumalt_run_queue;

/* A wake queue without its tokens: its size, where the next token is written (head) and where the next is read (tail). 32 bytes,
 * aligned at 8. */
typedef struct {
    size_t c; /* 0 */
    size_t head; /* 8 */
    size_t tail; /* 16 */
    uint32_t drops; /* 24 */
} bredumalt_ends;

/* The queue of wake tokens. Of the 64 places the first ends.c count. 288 bytes, aligned at 8. */
typedef struct {
    bredumalt_ends ends; /* 0 */
    uint32_t tokens[64]; /* 32 */
} bredumalt_wake_queue;

/* One task that waits for an interrupt. 12 bytes, aligned at 4. */
typedef struct {
    uint8_t live; /* 0 */
    bredumalt_cookie cookie; /* 4 */
    bredumalt_task_id task; /* 8 */
} bredumalt_waiter;

/* All that wait. 96 bytes, aligned at 4. */
typedef struct {
    bredumalt_waiter all[8]; /* 0 */
} bredumalt_waiters;

/* Interrupt waits, and by slot whether an interrupt has come for a task of it, and for which. 416 bytes, aligned at 4. */
typedef struct {
    bredumalt_waiters waiters; /* 0 */
    uint8_t pending[64]; /* 96 */
    uint16_t pending_slots[64]; /* 160 */
    uint16_t pending_epochs[64]; /* 288 */
} bredumalt_wait_table;

/* One deadline. 16 bytes, aligned at 8. */
typedef struct {
    uint8_t live; /* 0 */
    bredumalt_task_id task; /* 2 */
    uint64_t deadline; /* 8 */
} bredumalt_entry;

/* The sixteen deadlines. 256 bytes, aligned at 8. */
typedef struct {
    bredumalt_entry entries[16]; /* 0 */
} bredumalt_table;

/* A task table without its arrays. 80 bytes, aligned at 8. */
typedef struct {
    size_t n; /* 0 */
    size_t heads[2]; /* 8 */
    size_t lens[2]; /* 24 */
    bredumalt_task_id currents[2]; /* 40 */
    bredumalt_task_id idles[2]; /* 48 */
    uint8_t parked; /* 56 */
    bredumalt_task_id parked_id; /* 58 */
    uint32_t overwrites; /* 64 */
    uint32_t block_events; /* 68 */
    uint32_t peak; /* 72 */
} bredumalt_small;

/* A task table. Of the 64 places for slots the first small.n count; the ring of CPU c stands at c * 64. 912 bytes, aligned at 8. */
typedef struct {
    bredumalt_small small; /* 0 */
    uint8_t states[64]; /* 80 */
    uint16_t epochs[64]; /* 144 */
    uint8_t homes[64]; /* 272 */
    uint8_t marks[64]; /* 336 */
    uint16_t ring_slots[128]; /* 400 */
    uint16_t ring_epochs[128]; /* 656 */
} bredumalt_tasks;

/* The four tables of a board; none of them knows of the others. 1872 bytes, aligned at 8. */
typedef struct {
    bredumalt_tasks tasks; /* 0 */
    bredumalt_wait_table waits; /* 912 */
    bredumalt_table deadlines; /* 1328 */
    bredumalt_wake_queue wakes; /* 1584 */
} bredumalt_tables;

/* What an exported call hands back: the small part, beside what it answers. All are aligned at 8. */

/* 56 bytes. */
typedef struct {
    bredumalt_span span; /* 0 */
    bredumalt_answer answer; /* 24 */
} bredumalt_span_answer;

/* 64 bytes. */
typedef struct {
    bredumalt_ends ends; /* 0 */
    bredumalt_answer answer; /* 32 */
} bredumalt_ends_answer;

/* 128 bytes. */
typedef struct {
    bredumalt_waiters waiters; /* 0 */
    bredumalt_answer answer; /* 96 */
} bredumalt_waiters_answer;

/* 288 bytes. */
typedef struct {
    bredumalt_table table; /* 0 */
    bredumalt_answer answer; /* 256 */
} bredumalt_deadlines_answer;

/* 112 bytes. */
typedef struct {
    bredumalt_small small; /* 0 */
    bredumalt_answer answer; /* 80 */
} bredumalt_small_answer;

/* THE EXPORTED CALLS
 *
 * What each does stands at the inline function of its name below, but for those that take no table. */

/* Task ids and their packed form: the packed id, and the id that a packed one stands for. */
BREDUMALT_MUST_USE bredumalt_token bredumalt_ids_to_raw(bredumalt_task_id id);
BREDUMALT_MUST_USE bredumalt_task_id bredumalt_ids_from_raw(bredumalt_token raw);

/* What a supervisor may do to a task, by whether it is an idle, 0 or 1, and by its state's code, 0 to 3, or any other number where its
 * id is not known. The answers are verdicts. reap ends a task that waits: CANCEL, IDLE, BAD_ID or NOT_BLOCKED. force ends a task
 * whatever it does: FLAG_AND_CANCEL, FLAG_AND_NUDGE, IDLE, BAD_ID or EMPTY. Both give BAD_FLAG where is_idle is neither 0 nor 1. cancel
 * ends a wait, but not the task: MARK_AND_WAKE or NOTHING. */
BREDUMALT_MUST_USE uint8_t bredumalt_lifecycle_reap(uint8_t is_idle, uint8_t state);
BREDUMALT_MUST_USE uint8_t bredumalt_lifecycle_force(uint8_t is_idle, uint8_t state);
BREDUMALT_MUST_USE uint8_t bredumalt_lifecycle_cancel(uint8_t state);

/* A ring: its entries, 64 each, and its span. */
BREDUMALT_MUST_USE bredumalt_span_answer bredumalt_runqueue_new_at(uint16_t *slots, uint16_t *epochs, bredumalt_span span,
    size_t n);
BREDUMALT_MUST_USE uint8_t bredumalt_runqueue_sound_at(bredumalt_span span);
BREDUMALT_MUST_USE bredumalt_answer bredumalt_runqueue_capacity_at(bredumalt_span span);
BREDUMALT_MUST_USE bredumalt_answer bredumalt_runqueue_len_at(bredumalt_span span);
BREDUMALT_MUST_USE bredumalt_answer bredumalt_runqueue_is_empty_at(bredumalt_span span);
BREDUMALT_MUST_USE bredumalt_answer bredumalt_runqueue_is_full_at(bredumalt_span span);
BREDUMALT_MUST_USE bredumalt_answer bredumalt_runqueue_ready_at_at(const uint16_t *slots, const uint16_t *epochs,
    bredumalt_span span, size_t index);
BREDUMALT_MUST_USE bredumalt_span_answer bredumalt_runqueue_enqueue_at(uint16_t *slots, uint16_t *epochs, bredumalt_span span,
    bredumalt_task_id id);
BREDUMALT_MUST_USE bredumalt_span_answer bredumalt_runqueue_dequeue_at(uint16_t *slots, uint16_t *epochs, bredumalt_span span);
BREDUMALT_MUST_USE bredumalt_span_answer bredumalt_runqueue_after_yield_at(uint16_t *slots, uint16_t *epochs, bredumalt_span span,
    uint8_t requeue, bredumalt_task_id id);

/* The wake queue: its 64 tokens, and its ends. */
BREDUMALT_MUST_USE bredumalt_ends_answer bredumalt_wake_new_at(uint32_t *tokens, bredumalt_ends ends, size_t c);
BREDUMALT_MUST_USE uint8_t bredumalt_wake_sound_at(bredumalt_ends ends);
BREDUMALT_MUST_USE bredumalt_answer bredumalt_wake_drops_at(bredumalt_ends ends);
BREDUMALT_MUST_USE bredumalt_answer bredumalt_wake_is_empty_at(bredumalt_ends ends);
BREDUMALT_MUST_USE bredumalt_ends_answer bredumalt_wake_push_at(uint32_t *tokens, bredumalt_ends ends, bredumalt_token token);
BREDUMALT_MUST_USE bredumalt_ends_answer bredumalt_wake_pop_at(uint32_t *tokens, bredumalt_ends ends);

/* The interrupt waits: the marks, 64 of each array, and the waiters. */
BREDUMALT_MUST_USE bredumalt_waiters bredumalt_irqwait_new_at(uint8_t *pending, uint16_t *slots, uint16_t *epochs);
BREDUMALT_MUST_USE uint8_t bredumalt_irqwait_sound_at(const uint8_t *pending, const uint16_t *slots, const uint16_t *epochs,
    bredumalt_waiters waiters);
BREDUMALT_MUST_USE bredumalt_waiters_answer bredumalt_irqwait_arm_at(uint8_t *pending, uint16_t *slots, uint16_t *epochs,
    bredumalt_waiters waiters, bredumalt_cookie cookie, bredumalt_task_id task);
BREDUMALT_MUST_USE bredumalt_waiters_answer bredumalt_irqwait_disarm_task_at(uint8_t *pending, uint16_t *slots, uint16_t *epochs,
    bredumalt_waiters waiters, bredumalt_task_id task);
BREDUMALT_MUST_USE bredumalt_waiters_answer bredumalt_irqwait_signal_at(uint8_t *pending, uint16_t *slots, uint16_t *epochs,
    bredumalt_waiters waiters, bredumalt_cookie cookie);
BREDUMALT_MUST_USE bredumalt_waiters_answer bredumalt_irqwait_take_pending_at(uint8_t *pending, uint16_t *slots, uint16_t *epochs,
    bredumalt_waiters waiters, bredumalt_task_id task);
BREDUMALT_MUST_USE bredumalt_answer bredumalt_irqwait_is_pending_at(const uint8_t *pending, const uint16_t *slots,
    const uint16_t *epochs, bredumalt_waiters waiters, bredumalt_task_id task);

/* The deadlines, which are one value; a poll writes to out, of len places. */
BREDUMALT_MUST_USE bredumalt_table bredumalt_parktime_new_at(void);
BREDUMALT_MUST_USE uint8_t bredumalt_parktime_sound_at(bredumalt_table table);
BREDUMALT_MUST_USE bredumalt_deadlines_answer bredumalt_parktime_arm_at(bredumalt_table table, bredumalt_task_id task,
    uint64_t deadline);
BREDUMALT_MUST_USE bredumalt_deadlines_answer bredumalt_parktime_disarm_at(bredumalt_table table, bredumalt_task_id task);
BREDUMALT_MUST_USE bredumalt_deadlines_answer bredumalt_parktime_poll_at(bredumalt_table table, uint64_t now, uint32_t *out,
    size_t len);

/* The task table: states, epochs, homes and marks, 64 each, the two rings, 128 each, and the small part. */
BREDUMALT_MUST_USE bredumalt_small_answer bredumalt_tasks_new_at(uint8_t *states, uint16_t *epochs, uint8_t *homes, uint8_t *marks,
    uint16_t *ring_slots, uint16_t *ring_epochs, bredumalt_small small, size_t n);
BREDUMALT_MUST_USE uint8_t bredumalt_tasks_sound_at(const uint8_t *states, const uint16_t *epochs, const uint8_t *homes,
    const uint8_t *marks, const uint16_t *ring_slots, const uint16_t *ring_epochs, bredumalt_small small);
BREDUMALT_MUST_USE bredumalt_small_answer bredumalt_tasks_start_at(uint8_t *states, uint16_t *epochs, uint8_t *homes,
    uint8_t *marks, uint16_t *ring_slots, uint16_t *ring_epochs, bredumalt_small small);
BREDUMALT_MUST_USE bredumalt_small_answer bredumalt_tasks_start_cpu1_at(uint8_t *states, uint16_t *epochs, uint8_t *homes,
    uint8_t *marks, uint16_t *ring_slots, uint16_t *ring_epochs, bredumalt_small small);
BREDUMALT_MUST_USE bredumalt_small_answer bredumalt_tasks_admit_on_at(uint8_t *states, uint16_t *epochs, uint8_t *homes,
    uint8_t *marks, uint16_t *ring_slots, uint16_t *ring_epochs, bredumalt_small small, uint8_t cpu);
BREDUMALT_MUST_USE bredumalt_small_answer bredumalt_tasks_wake_at(uint8_t *states, uint16_t *epochs, uint8_t *homes, uint8_t *marks,
    uint16_t *ring_slots, uint16_t *ring_epochs, bredumalt_small small, bredumalt_task_id id);
BREDUMALT_MUST_USE bredumalt_small_answer bredumalt_tasks_collect_at(uint8_t *states, uint16_t *epochs, uint8_t *homes,
    uint8_t *marks, uint16_t *ring_slots, uint16_t *ring_epochs, bredumalt_small small);
BREDUMALT_MUST_USE bredumalt_small_answer bredumalt_tasks_try_steal_into_at(uint8_t *states, uint16_t *epochs, uint8_t *homes,
    uint8_t *marks, uint16_t *ring_slots, uint16_t *ring_epochs, bredumalt_small small, uint8_t thief);
BREDUMALT_MUST_USE bredumalt_small_answer bredumalt_tasks_set_stealeable_at(uint8_t *states, uint16_t *epochs, uint8_t *homes,
    uint8_t *marks, uint16_t *ring_slots, uint16_t *ring_epochs, bredumalt_small small, bredumalt_task_id id, uint8_t mark);
BREDUMALT_MUST_USE bredumalt_small_answer bredumalt_tasks_switch_on_at(uint8_t *states, uint16_t *epochs, uint8_t *homes,
    uint8_t *marks, uint16_t *ring_slots, uint16_t *ring_epochs, bredumalt_small small, uint8_t cpu, uint8_t kind);
BREDUMALT_MUST_USE bredumalt_answer bredumalt_tasks_current_on_at(const uint8_t *states, const uint16_t *epochs,
    const uint8_t *homes, const uint8_t *marks, const uint16_t *ring_slots, const uint16_t *ring_epochs, bredumalt_small small,
    uint8_t cpu);
BREDUMALT_MUST_USE bredumalt_answer bredumalt_tasks_idle_of_at(const uint8_t *states, const uint16_t *epochs, const uint8_t *homes,
    const uint8_t *marks, const uint16_t *ring_slots, const uint16_t *ring_epochs, bredumalt_small small, uint8_t cpu);
BREDUMALT_MUST_USE bredumalt_answer bredumalt_tasks_has_ready_on_at(const uint8_t *states, const uint16_t *epochs,
    const uint8_t *homes, const uint8_t *marks, const uint16_t *ring_slots, const uint16_t *ring_epochs, bredumalt_small small,
    uint8_t cpu);
BREDUMALT_MUST_USE bredumalt_answer bredumalt_tasks_cpu1_started_at(const uint8_t *states, const uint16_t *epochs,
    const uint8_t *homes, const uint8_t *marks, const uint16_t *ring_slots, const uint16_t *ring_epochs, bredumalt_small small);
BREDUMALT_MUST_USE bredumalt_answer bredumalt_tasks_state_at(const uint8_t *states, const uint16_t *epochs, const uint8_t *homes,
    const uint8_t *marks, const uint16_t *ring_slots, const uint16_t *ring_epochs, bredumalt_small small, bredumalt_task_id id);
BREDUMALT_MUST_USE bredumalt_answer bredumalt_tasks_home_of_at(const uint8_t *states, const uint16_t *epochs, const uint8_t *homes,
    const uint8_t *marks, const uint16_t *ring_slots, const uint16_t *ring_epochs, bredumalt_small small, bredumalt_task_id id);
BREDUMALT_MUST_USE bredumalt_answer bredumalt_tasks_live_id_at(const uint8_t *states, const uint16_t *epochs, const uint8_t *homes,
    const uint8_t *marks, const uint16_t *ring_slots, const uint16_t *ring_epochs, bredumalt_small small, size_t slot);
BREDUMALT_MUST_USE bredumalt_answer bredumalt_tasks_is_stealeable_at(const uint8_t *states, const uint16_t *epochs,
    const uint8_t *homes, const uint8_t *marks, const uint16_t *ring_slots, const uint16_t *ring_epochs, bredumalt_small small,
    bredumalt_task_id id);
BREDUMALT_MUST_USE bredumalt_answer bredumalt_tasks_can_steal_into_at(const uint8_t *states, const uint16_t *epochs,
    const uint8_t *homes, const uint8_t *marks, const uint16_t *ring_slots, const uint16_t *ring_epochs, bredumalt_small small,
    uint8_t thief);
BREDUMALT_MUST_USE bredumalt_answer bredumalt_tasks_overwrites_at(const uint8_t *states, const uint16_t *epochs,
    const uint8_t *homes, const uint8_t *marks, const uint16_t *ring_slots, const uint16_t *ring_epochs, bredumalt_small small);
BREDUMALT_MUST_USE bredumalt_answer bredumalt_tasks_blocked_count_at(const uint8_t *states, const uint16_t *epochs,
    const uint8_t *homes, const uint8_t *marks, const uint16_t *ring_slots, const uint16_t *ring_epochs, bredumalt_small small);
BREDUMALT_MUST_USE bredumalt_answer bredumalt_tasks_block_events_at(const uint8_t *states, const uint16_t *epochs,
    const uint8_t *homes, const uint8_t *marks, const uint16_t *ring_slots, const uint16_t *ring_epochs, bredumalt_small small);
BREDUMALT_MUST_USE bredumalt_answer bredumalt_tasks_live_count_at(const uint8_t *states, const uint16_t *epochs,
    const uint8_t *homes, const uint8_t *marks, const uint16_t *ring_slots, const uint16_t *ring_epochs, bredumalt_small small);
BREDUMALT_MUST_USE bredumalt_answer bredumalt_tasks_peak_slots_at(const uint8_t *states, const uint16_t *epochs,
    const uint8_t *homes, const uint8_t *marks, const uint16_t *ring_slots, const uint16_t *ring_epochs, bredumalt_small small);

/* THE CALLS ON WHOLE TABLES */

/* The only lines that say which array of a table goes where; they do so for all calls. (A wake queue has one array, its tokens.) */
#define BREDUMALT_ARRAYS_OF(t) (t)->states, (t)->epochs, (t)->homes, (t)->marks, (t)->ring_slots, (t)->ring_epochs
#define BREDUMALT_MARKS_OF(t) (t)->pending, (t)->pending_slots, (t)->pending_epochs
#define BREDUMALT_ENTRIES_OF(q) (q)->slots, (q)->epochs

/* Nothing of a place is read before a table is made there, since it may hold nothing yet: a maker is handed a small part of zeros, and
 * what it hands back is stored unless it refuses. */
#ifdef __cplusplus
#define BREDUMALT_ZERO {}
#else
#define BREDUMALT_ZERO {0}
#endif

/* The FIFO ring of ready tasks. Refuses with 1 a ring that is not sound. */

/* Makes an empty ring of n places, 1 to 64, whatever was there; 2 for another n. */
BREDUMALT_MUST_USE static inline bredumalt_answer bredumalt_runqueue_init(bredumalt_run_queue *q, size_t n) {
    bredumalt_span zero = BREDUMALT_ZERO;
    bredumalt_span_answer got = bredumalt_runqueue_new_at(BREDUMALT_ENTRIES_OF(q), zero, n);
    if (got.answer.refusal == BREDUMALT_REFUSAL_NONE)
        q->span = got.span;
    return got.answer;
}

/* 1 where the ring is sound: 1 to 64 places, head below their number, length at most their number; else 0. */
BREDUMALT_MUST_USE static inline uint8_t bredumalt_runqueue_sound(const bredumalt_run_queue *q) {
    return bredumalt_runqueue_sound_at(q->span);
}

/* How many places the ring has: a number. */
BREDUMALT_MUST_USE static inline bredumalt_answer bredumalt_runqueue_capacity(const bredumalt_run_queue *q) {
    return bredumalt_runqueue_capacity_at(q->span);
}

/* How many tasks are queued: a number. */
BREDUMALT_MUST_USE static inline bredumalt_answer bredumalt_runqueue_len(const bredumalt_run_queue *q) {
    return bredumalt_runqueue_len_at(q->span);
}

/* Whether none is queued: true or false. */
BREDUMALT_MUST_USE static inline bredumalt_answer bredumalt_runqueue_is_empty(const bredumalt_run_queue *q) {
    return bredumalt_runqueue_is_empty_at(q->span);
}

/* Whether every place is taken: true or false. */
BREDUMALT_MUST_USE static inline bredumalt_answer bredumalt_runqueue_is_full(const bredumalt_run_queue *q) {
    return bredumalt_runqueue_is_full_at(q->span);
}

/* The task at a place counted from the head: an id or none. */
BREDUMALT_MUST_USE static inline bredumalt_answer bredumalt_runqueue_ready_at(const bredumalt_run_queue *q, size_t index) {
    return bredumalt_runqueue_ready_at_at(BREDUMALT_ENTRIES_OF(q), q->span, index);
}

/* The head, left where it is: an id or none. */
BREDUMALT_MUST_USE static inline bredumalt_answer bredumalt_runqueue_front(const bredumalt_run_queue *q) {
    return bredumalt_runqueue_ready_at(q, 0);
}

/* Puts a task at the tail; 11 where the ring is full. */
BREDUMALT_MUST_USE static inline bredumalt_answer bredumalt_runqueue_enqueue(bredumalt_run_queue *q, bredumalt_task_id id) {
    bredumalt_span_answer got = bredumalt_runqueue_enqueue_at(BREDUMALT_ENTRIES_OF(q), q->span, id);
    q->span = got.span;
    return got.answer;
}

/* Takes the head: an id or none. */
BREDUMALT_MUST_USE static inline bredumalt_answer bredumalt_runqueue_dequeue(bredumalt_run_queue *q) {
    bredumalt_span_answer got = bredumalt_runqueue_dequeue_at(BREDUMALT_ENTRIES_OF(q), q->span);
    q->span = got.span;
    return got.answer;
}

/* Puts id at the tail if requeue is 1, then takes the head: an id or none; 11 where it must go to a full ring, 12 where requeue is
 * neither 0 nor 1. */
BREDUMALT_MUST_USE static inline bredumalt_answer bredumalt_runqueue_after_yield(bredumalt_run_queue *q, uint8_t requeue,
    bredumalt_task_id id) {
    bredumalt_span_answer got = bredumalt_runqueue_after_yield_at(BREDUMALT_ENTRIES_OF(q), q->span, requeue, id);
    q->span = got.span;
    return got.answer;
}

/* The queue of wake tokens. Refuses with 1 a queue that is not sound. */

/* Makes an empty queue of c places: 2, 4, 8, 16, 32 or 64, of which one stays free, whatever was there; 2 for another c. */
BREDUMALT_MUST_USE static inline bredumalt_answer bredumalt_wake_init(bredumalt_wake_queue *q, size_t c) {
    bredumalt_ends zero = BREDUMALT_ZERO;
    bredumalt_ends_answer got = bredumalt_wake_new_at(q->tokens, zero, c);
    if (got.answer.refusal == BREDUMALT_REFUSAL_NONE)
        q->ends = got.ends;
    return got.answer;
}

/* 1 where the queue is sound: a listed size, both indexes below it; else 0. */
BREDUMALT_MUST_USE static inline uint8_t bredumalt_wake_sound(const bredumalt_wake_queue *q) {
    return bredumalt_wake_sound_at(q->ends);
}

/* How many pushes found the queue full: a number. */
BREDUMALT_MUST_USE static inline bredumalt_answer bredumalt_wake_drops(const bredumalt_wake_queue *q) {
    return bredumalt_wake_drops_at(q->ends);
}

/* Whether no token is held: true or false. */
BREDUMALT_MUST_USE static inline bredumalt_answer bredumalt_wake_is_empty(const bredumalt_wake_queue *q) {
    return bredumalt_wake_is_empty_at(q->ends);
}

/* Puts a token behind the others: true, or false where the queue is full and the drop is counted. */
BREDUMALT_MUST_USE static inline bredumalt_answer bredumalt_wake_push(bredumalt_wake_queue *q, bredumalt_token token) {
    bredumalt_ends_answer got = bredumalt_wake_push_at(q->tokens, q->ends, token);
    q->ends = got.ends;
    return got.answer;
}

/* Takes the oldest token: a value or none. *out is the token, and is written only where there is one (flag is 1). */
BREDUMALT_MUST_USE static inline bredumalt_answer bredumalt_wake_pop(bredumalt_wake_queue *q, bredumalt_token *out) {
    bredumalt_ends_answer got = bredumalt_wake_pop_at(q->tokens, q->ends);
    q->ends = got.ends;
    if (got.answer.flag)
        out->number = (uint32_t)got.answer.number;
    return got.answer;
}

/* Interrupt waits and pending marks. Refuses with 1 a table that is not sound. */

/* A table in which nobody waits and nothing is pending. Whatever was there is overwritten. */
static inline void bredumalt_irqwait_init(bredumalt_wait_table *t) {
    t->waiters = bredumalt_irqwait_new_at(BREDUMALT_MARKS_OF(t));
}

/* 1 where the table is sound: flags 0 or 1, cookies distinct, ids distinct with slots below 64, marks under their own slots; else 0. */
BREDUMALT_MUST_USE static inline uint8_t bredumalt_irqwait_sound(const bredumalt_wait_table *t) {
    return bredumalt_irqwait_sound_at(BREDUMALT_MARKS_OF(t), t->waiters);
}

/* The task waits for the interrupt; 8 for a slot of 64 or more, 9 or 10 where the cookie or the task is busy, 11 with no free entry. */
BREDUMALT_MUST_USE static inline bredumalt_answer bredumalt_irqwait_arm(bredumalt_wait_table *t, bredumalt_cookie cookie,
    bredumalt_task_id task) {
    bredumalt_waiters_answer got = bredumalt_irqwait_arm_at(BREDUMALT_MARKS_OF(t), t->waiters, cookie, task);
    t->waiters = got.waiters;
    return got.answer;
}

/* The task waits for nothing any more. */
BREDUMALT_MUST_USE static inline bredumalt_answer bredumalt_irqwait_disarm_task(bredumalt_wait_table *t, bredumalt_task_id task) {
    bredumalt_waiters_answer got = bredumalt_irqwait_disarm_task_at(BREDUMALT_MARKS_OF(t), t->waiters, task);
    t->waiters = got.waiters;
    return got.answer;
}

/* The interrupt has come: its waiter's id or none; the waiter's entry is freed and its slot marked. */
BREDUMALT_MUST_USE static inline bredumalt_answer bredumalt_irqwait_signal(bredumalt_wait_table *t, bredumalt_cookie cookie) {
    bredumalt_waiters_answer got = bredumalt_irqwait_signal_at(BREDUMALT_MARKS_OF(t), t->waiters, cookie);
    t->waiters = got.waiters;
    return got.answer;
}

/* Takes the task's mark: true, or false where it has none. */
BREDUMALT_MUST_USE static inline bredumalt_answer bredumalt_irqwait_take_pending(bredumalt_wait_table *t, bredumalt_task_id task) {
    bredumalt_waiters_answer got = bredumalt_irqwait_take_pending_at(BREDUMALT_MARKS_OF(t), t->waiters, task);
    t->waiters = got.waiters;
    return got.answer;
}

/* Whether the task has a mark to take: true or false. */
BREDUMALT_MUST_USE static inline bredumalt_answer bredumalt_irqwait_is_pending(const bredumalt_wait_table *t, bredumalt_task_id task) {
    return bredumalt_irqwait_is_pending_at(BREDUMALT_MARKS_OF(t), t->waiters, task);
}

/* Deadlines of parked tasks. Refuses with 1 a table that is not sound. */

/* No deadlines. Whatever was there is overwritten. */
static inline void bredumalt_parktime_init(bredumalt_table *t) {
    *t = bredumalt_parktime_new_at();
}

/* 1 where the table is sound: flags 0 or 1, and no task has two deadlines; else 0. */
BREDUMALT_MUST_USE static inline uint8_t bredumalt_parktime_sound(const bredumalt_table *t) {
    return bredumalt_parktime_sound_at(*t);
}

/* Sets the task's deadline, in the place of the one that it has; 11 with no free entry. */
BREDUMALT_MUST_USE static inline bredumalt_answer bredumalt_parktime_arm(bredumalt_table *t, bredumalt_task_id task,
    uint64_t deadline) {
    bredumalt_deadlines_answer got = bredumalt_parktime_arm_at(*t, task, deadline);
    *t = got.table;
    return got.answer;
}

/* Drops the task's deadline, if it has one. */
BREDUMALT_MUST_USE static inline bredumalt_answer bredumalt_parktime_disarm(bredumalt_table *t, bredumalt_task_id task) {
    bredumalt_deadlines_answer got = bredumalt_parktime_disarm_at(*t, task);
    *t = got.table;
    return got.answer;
}

/* Drops every deadline that is at most now and writes the tokens of its tasks to the start of out, in entry order: how many,
 * a number; 7 where out has under 16 places (len). */
BREDUMALT_MUST_USE static inline bredumalt_answer bredumalt_parktime_poll(bredumalt_table *t, uint64_t now, bredumalt_token *out,
    size_t len) {
    bredumalt_deadlines_answer got = bredumalt_parktime_poll_at(*t, now, (uint32_t *)out, len);
    *t = got.table;
    return got.answer;
}

/* The task table. Refuses with 1 a table that is not sound, and a changing call other than start before start with 3. */

/* Makes a table of n slots, 1 to 64, not started, whatever was there; 2 for another n. */
BREDUMALT_MUST_USE static inline bredumalt_answer bredumalt_tasks_init(bredumalt_tasks *t, size_t n) {
    bredumalt_small zero = BREDUMALT_ZERO;
    bredumalt_small_answer got = bredumalt_tasks_new_at(BREDUMALT_ARRAYS_OF(t), zero, n);
    if (got.answer.refusal == BREDUMALT_REFUSAL_NONE)
        t->small = got.small;
    return got.answer;
}

/* 1 where the table is sound, as document 01 says, with flags 0 or 1; else 0. */
BREDUMALT_MUST_USE static inline uint8_t bredumalt_tasks_sound(const bredumalt_tasks *t) {
    return bredumalt_tasks_sound_at(BREDUMALT_ARRAYS_OF(t), t->small);
}

/* Slot 0 becomes the idle task of CPU 0, and runs; 4 the second time. */
BREDUMALT_MUST_USE static inline bredumalt_answer bredumalt_tasks_start(bredumalt_tasks *t) {
    bredumalt_small_answer got = bredumalt_tasks_start_at(BREDUMALT_ARRAYS_OF(t), t->small);
    t->small = got.small;
    return got.answer;
}

/* The lowest free slot becomes the idle task of CPU 1: its id, or none; called again the same id. */
BREDUMALT_MUST_USE static inline bredumalt_answer bredumalt_tasks_start_cpu1(bredumalt_tasks *t) {
    bredumalt_small_answer got = bredumalt_tasks_start_cpu1_at(BREDUMALT_ARRAYS_OF(t), t->small);
    t->small = got.small;
    return got.answer;
}

/* A new task at the tail of a CPU's queue: its id or none; none for a CPU above 1. */
BREDUMALT_MUST_USE static inline bredumalt_answer bredumalt_tasks_admit_on(bredumalt_tasks *t, uint8_t cpu) {
    bredumalt_small_answer got = bredumalt_tasks_admit_on_at(BREDUMALT_ARRAYS_OF(t), t->small, cpu);
    t->small = got.small;
    return got.answer;
}

/* admit_on for CPU 0. */
BREDUMALT_MUST_USE static inline bredumalt_answer bredumalt_tasks_admit(bredumalt_tasks *t) {
    return bredumalt_tasks_admit_on(t, 0);
}

/* A Blocked task is Ready again, at the tail at its home: true; false for any other id. */
BREDUMALT_MUST_USE static inline bredumalt_answer bredumalt_tasks_wake(bredumalt_tasks *t, bredumalt_task_id id) {
    bredumalt_small_answer got = bredumalt_tasks_wake_at(BREDUMALT_ARRAYS_OF(t), t->small, id);
    t->small = got.small;
    return got.answer;
}

/* Takes the parked id, whose stack may now be freed: an id or none. */
BREDUMALT_MUST_USE static inline bredumalt_answer bredumalt_tasks_collect(bredumalt_tasks *t) {
    bredumalt_small_answer got = bredumalt_tasks_collect_at(BREDUMALT_ARRAYS_OF(t), t->small);
    t->small = got.small;
    return got.answer;
}

/* A CPU whose queue is empty takes the first stealeable task of its peer's: true or false. */
BREDUMALT_MUST_USE static inline bredumalt_answer bredumalt_tasks_try_steal_into(bredumalt_tasks *t, uint8_t thief) {
    bredumalt_small_answer got = bredumalt_tasks_try_steal_into_at(BREDUMALT_ARRAYS_OF(t), t->small, thief);
    t->small = got.small;
    return got.answer;
}

/* Whether other CPUs may steal the task, 1 or 0: true, or false where the id is not known or names an idle. 12 for any other mark. */
BREDUMALT_MUST_USE static inline bredumalt_answer bredumalt_tasks_set_stealeable(bredumalt_tasks *t, bredumalt_task_id id,
    uint8_t mark) {
    bredumalt_small_answer got = bredumalt_tasks_set_stealeable_at(BREDUMALT_ARRAYS_OF(t), t->small, id, mark);
    t->small = got.small;
    return got.answer;
}

/* The current task of a CPU gives it up: stay, or a switch. 12 for a kind that is none of the four, 6 for CPU 1 before start_cpu1; stay
 * for a CPU above 1. */
BREDUMALT_MUST_USE static inline bredumalt_answer bredumalt_tasks_switch_on(bredumalt_tasks *t, uint8_t cpu, bredumalt_kind kind) {
    bredumalt_small_answer got = bredumalt_tasks_switch_on_at(BREDUMALT_ARRAYS_OF(t), t->small, cpu, kind.number);
    t->small = got.small;
    return got.answer;
}

/* switch_on for CPU 0. */
BREDUMALT_MUST_USE static inline bredumalt_answer bredumalt_tasks_switch(bredumalt_tasks *t, bredumalt_kind kind) {
    return bredumalt_tasks_switch_on(t, 0, kind);
}

/* The current task of a CPU: an id; 5 for a CPU above 1. */
BREDUMALT_MUST_USE static inline bredumalt_answer bredumalt_tasks_current_on(const bredumalt_tasks *t, uint8_t cpu) {
    return bredumalt_tasks_current_on_at(BREDUMALT_ARRAYS_OF(t), t->small, cpu);
}

/* current_on for CPU 0. */
BREDUMALT_MUST_USE static inline bredumalt_answer bredumalt_tasks_current(const bredumalt_tasks *t) {
    return bredumalt_tasks_current_on(t, 0);
}

/* The idle task of a CPU: an id; 5 for a CPU above 1. */
BREDUMALT_MUST_USE static inline bredumalt_answer bredumalt_tasks_idle_of(const bredumalt_tasks *t, uint8_t cpu) {
    return bredumalt_tasks_idle_of_at(BREDUMALT_ARRAYS_OF(t), t->small, cpu);
}

/* Whether a task waits for the CPU: true or false; 5 for a CPU above 1. */
BREDUMALT_MUST_USE static inline bredumalt_answer bredumalt_tasks_has_ready_on(const bredumalt_tasks *t, uint8_t cpu) {
    return bredumalt_tasks_has_ready_on_at(BREDUMALT_ARRAYS_OF(t), t->small, cpu);
}

/* has_ready_on for CPU 0. */
BREDUMALT_MUST_USE static inline bredumalt_answer bredumalt_tasks_has_ready(const bredumalt_tasks *t) {
    return bredumalt_tasks_has_ready_on(t, 0);
}

/* Whether CPU 1 is started: true or false. */
BREDUMALT_MUST_USE static inline bredumalt_answer bredumalt_tasks_cpu1_started(const bredumalt_tasks *t) {
    return bredumalt_tasks_cpu1_started_at(BREDUMALT_ARRAYS_OF(t), t->small);
}

/* The state of the task: a value, one of bredumalt_state, or none for an id that is not known. */
BREDUMALT_MUST_USE static inline bredumalt_answer bredumalt_tasks_state(const bredumalt_tasks *t, bredumalt_task_id id) {
    return bredumalt_tasks_state_at(BREDUMALT_ARRAYS_OF(t), t->small, id);
}

/* The CPU at which the task is at home: a value, or none for an id that is not known. */
BREDUMALT_MUST_USE static inline bredumalt_answer bredumalt_tasks_home_of(const bredumalt_tasks *t, bredumalt_task_id id) {
    return bredumalt_tasks_home_of_at(BREDUMALT_ARRAYS_OF(t), t->small, id);
}

/* The task that a slot has: an id or none. */
BREDUMALT_MUST_USE static inline bredumalt_answer bredumalt_tasks_live_id(const bredumalt_tasks *t, size_t slot) {
    return bredumalt_tasks_live_id_at(BREDUMALT_ARRAYS_OF(t), t->small, slot);
}

/* Whether other CPUs may steal the task: true or false. */
BREDUMALT_MUST_USE static inline bredumalt_answer bredumalt_tasks_is_stealeable(const bredumalt_tasks *t, bredumalt_task_id id) {
    return bredumalt_tasks_is_stealeable_at(BREDUMALT_ARRAYS_OF(t), t->small, id);
}

/* Whether try_steal_into would move a task: true or false. */
BREDUMALT_MUST_USE static inline bredumalt_answer bredumalt_tasks_can_steal_into(const bredumalt_tasks *t, uint8_t thief) {
    return bredumalt_tasks_can_steal_into_at(BREDUMALT_ARRAYS_OF(t), t->small, thief);
}

/* How many exits displaced a parked task: a number. */
BREDUMALT_MUST_USE static inline bredumalt_answer bredumalt_tasks_overwrites(const bredumalt_tasks *t) {
    return bredumalt_tasks_overwrites_at(BREDUMALT_ARRAYS_OF(t), t->small);
}

/* How many tasks are Blocked: a number. */
BREDUMALT_MUST_USE static inline bredumalt_answer bredumalt_tasks_blocked_count(const bredumalt_tasks *t) {
    return bredumalt_tasks_blocked_count_at(BREDUMALT_ARRAYS_OF(t), t->small);
}

/* How often a task was blocked: a number. */
BREDUMALT_MUST_USE static inline bredumalt_answer bredumalt_tasks_block_events(const bredumalt_tasks *t) {
    return bredumalt_tasks_block_events_at(BREDUMALT_ARRAYS_OF(t), t->small);
}

/* How many slots have a task: a number. */
BREDUMALT_MUST_USE static inline bredumalt_answer bredumalt_tasks_live_count(const bredumalt_tasks *t) {
    return bredumalt_tasks_live_count_at(BREDUMALT_ARRAYS_OF(t), t->small);
}

/* The most slots that had a task at a time: a number. */
BREDUMALT_MUST_USE static inline bredumalt_answer bredumalt_tasks_peak_slots(const bredumalt_tasks *t) {
    return bredumalt_tasks_peak_slots_at(BREDUMALT_ARRAYS_OF(t), t->small);
}

/* Makes all four tables, whatever was there: n slots, and a wake queue of c places. 2 where either size is not listed, and then all
 * four are as they were: so the queue is made beside them first. */
BREDUMALT_MUST_USE static inline bredumalt_answer bredumalt_init(bredumalt_tables *all, size_t n, size_t c) {
    bredumalt_wake_queue wakes;
    bredumalt_answer answer = bredumalt_wake_init(&wakes, c);
    if (answer.refusal == BREDUMALT_REFUSAL_NONE)
        answer = bredumalt_tasks_init(&all->tasks, n);
    if (answer.refusal == BREDUMALT_REFUSAL_NONE) {
        all->wakes = wakes;
        bredumalt_irqwait_init(&all->waits);
        bredumalt_parktime_init(&all->deadlines);
    }
    return answer;
}

#undef BREDUMALT_ARRAYS_OF
#undef BREDUMALT_MARKS_OF
#undef BREDUMALT_ENTRIES_OF
#undef BREDUMALT_ZERO

#ifdef __cplusplus
}
#endif

#endif
