/* What a call takes of the stack: everything below is painted before it and looked at after it. */
#include "boot.h"

extern uint64_t stack_bottom[], stack_top[];
static const uint64_t paint = 0x5AFE57AC5AFE57AC;
static uint64_t *painted_to;

static inline uint64_t *stack_pointer(void)
{
    uint64_t *here;

    __asm__ volatile("movq %%rsp, %0" : "=r"(here));
    return here;
}

__attribute__((noinline)) void stack_paint(void)
{
    uint64_t *word;

    painted_to = stack_pointer();
    for (word = stack_bottom; word < painted_to - 8; word++)
        *(volatile uint64_t *)word = paint;
}

__attribute__((noinline)) void stack_hold(const char *call, size_t limit)
{
    uint64_t *word = stack_bottom;
    unsigned used;

    while (word < painted_to && *(volatile uint64_t *)word == paint)
        word++;
    used = (unsigned)((painted_to - word) * 8);
    print("stack: %s %u of %u bytes\n", call, used, (unsigned)limit);
    if (used > limit)
        fail("%s takes more stack than its header says", call);
}
