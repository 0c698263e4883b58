/* A token where a cookie is asked: both are 32 bits wide, and neither may be taken for the other. check.sh compiles this twice, as it
 * does misuse_kind.c. */
#include "bredumalt.h"

#ifdef RIGHT
#define GIVEN cookie
#else
#define GIVEN token
#endif

bredumalt_answer come(bredumalt_wait_table *t, bredumalt_cookie cookie, bredumalt_token token);

bredumalt_answer come(bredumalt_wait_table *t, bredumalt_cookie cookie, bredumalt_token token) {
    (void)cookie;
    (void)token;
    return bredumalt_irqwait_signal(t, GIVEN);
}
