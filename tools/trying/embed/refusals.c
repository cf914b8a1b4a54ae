/* refusals FILE..: refuses each request for memory of each call in turn, by malloc and realloc in their places. Each time the call gives
   its whole answer, or status 3 with `out` as it was and the length 0; it leaves no memory, and the same call after it is right. Prints
   what was otherwise, and how many were refused. */
#include "calls.h"

void *__real_malloc(size_t);
void *__real_realloc(void *, size_t);
void __real_free(void *);
static long refused_at = -1, seen, held;

static int is_refused(void) { return refused_at >= 0 && seen++ == refused_at; }

void *__wrap_malloc(size_t size) {
    void *block = is_refused() ? NULL : __real_malloc(size);
    held += block != NULL;
    return block;
}

void *__wrap_realloc(void *block, size_t size) {
    if (is_refused()) return NULL;
    void *now = __real_realloc(block, size);
    held += !block && now;
    return now;
}

void __wrap_free(void *block) {
    held -= block != NULL;
    __real_free(block);
}

enum { ROOM = 1 << 20 };
static uint8_t wanted[ROOM], out[ROOM];
static long points, wrong;

static int is_right(uint8_t status, uint8_t wanted_status, size_t length, size_t wanted_length) {
    return status == wanted_status && length == wanted_length && !memcmp(out, wanted, length < ROOM ? length : ROOM);
}

static void refuse_each(const char *name, int call, const uint8_t *text, size_t size) {
    size_t wanted_length, length;
    refused_at = -1;
    uint8_t wanted_status = called(call, text, size, wanted, ROOM, &wanted_length);
    for (long number = 0, is_reached = 1; is_reached; number++) {
        memset(out, 7, 64);
        refused_at = number, seen = 0, held = 0;
        uint8_t status = called(call, text, size, out, ROOM, &length);
        is_reached = seen > number, refused_at = -1, points += is_reached;
        int is_untouched = status == 3 && length == 0 && out[0] == 7 && out[63] == 7;
        int fails = held || (!is_untouched && !is_right(status, wanted_status, length, wanted_length));
        status = called(call, text, size, out, ROOM, &length);
        if (!fails && is_right(status, wanted_status, length, wanted_length)) continue;
        wrong++;
        printf("%s %s request %ld\n", name, call_names[call], number);
    }
}

int main(int count, char **names) {
    for (int number = 1; number < count; number++) {
        size_t size;
        uint8_t *text = text_of(names[number], &size);
        for (int call = 0; call < CALLS; call++) refuse_each(names[number], call, text, size);
        free(text);
    }
    printf("%ld refused, %ld wrong\n", points, wrong);
    return wrong != 0;
}
