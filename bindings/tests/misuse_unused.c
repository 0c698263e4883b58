/* An answer that nobody looks at, and with it a refusal. check.sh compiles this twice: as it is the compiler has to complain, and with
 * -D RIGHT it may not. */
#include "bredumalt.h"

void wake(bredumalt_tasks *t, bredumalt_task_id id);

#ifdef RIGHT
void wake(bredumalt_tasks *t, bredumalt_task_id id) {
    bredumalt_answer got = bredumalt_tasks_wake(t, id);
    if (got.refusal != BREDUMALT_REFUSAL_NONE)
        __builtin_trap();
}
#else
void wake(bredumalt_tasks *t, bredumalt_task_id id) {
    bredumalt_tasks_wake(t, id);
}
#endif
