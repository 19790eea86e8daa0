/* What compare.c times of a version: each call by its name, and a function that makes so many of them. The last entry has no name. */
#include <stdint.h>

struct timed_call {
    const char *name;
    void (*make)(uint32_t calls);
};
