/* Prints every number, state, flag and mark that has a name in include/sumpheron.h, in the format of bindings/rust/examples/names.rs. The
 * source is C11 and C++17. */
#include "sumpheron.h"

#include <inttypes.h>
#include <stdio.h>
#include <string.h>

static void print(const char *kind, const char *(*name)(uint32_t))
{
    for (uint32_t number = 0; number < 1000; number++)
        if (strcmp(name(number), "unknown") != 0)
            printf("%s %" PRIu32 " %s\n", kind, number, name(number));
}

int main(void)
{
    print("number", sumpheron_number_name);
    print("state", sumpheron_state_name);
    print("flag", sumpheron_flag_name);
    print("mark", sumpheron_mark_name);
    return 0;
}
