/* Each function of bitpacking.h chooses the level of the processor. scripts/build/choosing.py adds a line FUNCTION(..) for each function
   that the header declares. */
#include <cpuid.h>

#define BITPACKING_NO_INLINE
#include "bitpacking.h"

/* What the levels add, as bits of the registers of the instruction cpuid. */
enum {
    V2_IN_ECX_1 = 1 << 0 /* SSE3 */ | 1 << 9 /* SSSE3 */ | 1 << 13 /* CMPXCHG16B */ | 1 << 19 /* SSE4.1 */ | 1 << 20 /* SSE4.2 */
                  | 1 << 23 /* POPCNT */,
    V2_IN_ECX_EXTENDED = 1 << 0 /* LAHF */,
    V3_IN_ECX_1 = 1 << 12 /* FMA */ | 1 << 22 /* MOVBE */ | 1 << 27 /* OSXSAVE */ | 1 << 28 /* AVX */ | 1 << 29 /* F16C */,
    V3_IN_EBX_7 = 1 << 3 /* BMI1 */ | 1 << 5 /* AVX2 */ | 1 << 8 /* BMI2 */,
    V3_IN_ECX_EXTENDED = 1 << 5 /* LZCNT */,
    SAVED_BY_THE_SYSTEM = 1 << 1 | 1 << 2 /* the registers of SSE and AVX, in the register XCR0 */
};

/* The level; 0 before the first call. Any thread finds the same one, and nothing else is read by it. */
static unsigned level;

static unsigned best(void)
{
    unsigned eax, ebx, ecx, edx, more_ebx, more_ecx, extended_ecx, saved, high;

    if (!__get_cpuid(1, &eax, &ebx, &ecx, &edx) || (ecx & V2_IN_ECX_1) != V2_IN_ECX_1)
        return 1;
    if (!__get_cpuid(0x80000001, &eax, &ebx, &extended_ecx, &edx) || !(extended_ecx & V2_IN_ECX_EXTENDED))
        return 1;
    if ((ecx & V3_IN_ECX_1) != V3_IN_ECX_1 || !(extended_ecx & V3_IN_ECX_EXTENDED))
        return 2;
    if (!__get_cpuid_count(7, 0, &eax, &more_ebx, &more_ecx, &edx) || (more_ebx & V3_IN_EBX_7) != V3_IN_EBX_7)
        return 2;
    __asm__("xgetbv" : "=a"(saved), "=d"(high) : "c"(0));
    return (saved & SAVED_BY_THE_SYSTEM) == SAVED_BY_THE_SYSTEM ? 3 : 2;
}

static unsigned choose(void)
{
    unsigned found = best();

    __atomic_store_n(&level, found, __ATOMIC_RELAXED);
    return found;
}

/* A function of the header: the one of each level, the one before the first call, their table, and the call. `gives` is `return`, or
   nothing for a function that returns nothing. */
#define FUNCTION(returned, gives, name, given, passed)                                             \
    returned v1_##name given;                                                                      \
    returned v2_##name given;                                                                      \
    returned v3_##name given;                                                                      \
    static returned first_##name given;                                                            \
    static returned (*const name##_at[4]) given = {first_##name, v1_##name, v2_##name, v3_##name}; \
                                                                                                   \
    static returned first_##name given                                                             \
    {                                                                                              \
        gives name##_at[choose()] passed;                                                          \
    }                                                                                              \
                                                                                                   \
    returned name given                                                                            \
    {                                                                                              \
        gives name##_at[__atomic_load_n(&level, __ATOMIC_RELAXED)] passed;                         \
    }

