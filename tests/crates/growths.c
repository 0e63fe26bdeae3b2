/* What stands for the kit's own heap under the tests, so that a test can have one growth of memory refused: the
 * kit's three functions, as it declares them, and two that `growths.test` calls. */
#include <stdatomic.h>
#include <stdint.h>
#include <stdlib.h>

struct tried {
    uint64_t is_there;
    void *memory;
};

static atomic_ulong asked, refused;

static struct tried tried(void *memory)
{
    static char none;
    return memory ? (struct tried){1, memory} : (struct tried){0, &none};
}

static int is_refused(void)
{
    return atomic_fetch_add(&asked, 1) + 1 == atomic_load(&refused);
}

struct tried rattle_alloc(size_t size, size_t align)
{
    return tried(is_refused() ? NULL : malloc(size ? size : align));
}

struct tried rattle_realloc(void *memory, size_t old, size_t size, size_t align)
{
    (void)old;
    return tried(is_refused() ? NULL : realloc(memory, size ? size : align));
}

void rattle_dealloc(void *memory)
{
    free(memory);
}

/* From now on the growth of this number is refused, from 1; with 0 none. */
void refuse_growth(uint64_t number)
{
    atomic_store(&asked, 0);
    atomic_store(&refused, number);
}

/* How many growths were asked for since then. */
uint64_t growths_asked(void)
{
    return atomic_load(&asked);
}
