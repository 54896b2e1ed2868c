/* What the kit's C asks of glibc, for a program that is linked to musl. */
#include <cpuid.h>

/* glibc hands the words of the program to the functions that run before `main`; musl hands them nothing. */
typedef void begins(int, char **, char **);
extern begins *const __init_array_start[], *const __init_array_end[];
int __real_main(int, char **, char **);

int __wrap_main(int count, char **words, char **variables)
{
    for (begins *const *each = __init_array_start; each != __init_array_end; each++)
        (*each)(count, words, variables);
    return __real_main(count, words, variables);
}

/* Which instructions the processor has: the program asks before it takes any that not all have. */
struct leaf {
    unsigned int has[4], active[4];
};

const struct leaf *__x86_get_cpuid_feature_leaf(unsigned int number)
{
    static const unsigned int asked[] = {1, 7, 0x80000001};
    static struct leaf found;
    unsigned int *r = found.has;
    if (number > 2 || !__get_cpuid_count(asked[number], 0, &r[0], &r[1], &r[2], &r[3]))
        r[0] = r[1] = r[2] = r[3] = 0;
    for (int i = 0; i < 4; i++)
        found.active[i] = r[i];
    return &found;
}
