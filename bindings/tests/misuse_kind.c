/* A state where a kind of switch is asked. check.sh compiles this twice: as it is no compiler may take it, and with -D RIGHT it has to,
 * so that what is refused is the mistake and nothing else. */
#include "bredumalt.h"

#ifdef RIGHT
#define GIVEN BREDUMALT_KIND_EXIT
#else
#define GIVEN BREDUMALT_STATE_BLOCKED
#endif

bredumalt_answer leave(bredumalt_tasks *t);

bredumalt_answer leave(bredumalt_tasks *t) {
    return bredumalt_tasks_switch(t, GIVEN);
}
