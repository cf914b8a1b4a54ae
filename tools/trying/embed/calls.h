/* What the clients of C share: each call on a text, and what it gave as the checks compare it. */
#include "jslit.h"
#include <stdio.h>
#include <stdlib.h>
#include <string.h>

enum { CALLS = 8, SCHEDULE = 3 };
static const char *const call_names[CALLS] = {"check", "quick", "schedule", "why", "unmet", "race", "json", "text"};

static inline uint8_t called(int call, const uint8_t *text, size_t size, uint8_t *out, size_t room, size_t *length) {
    const uint8_t *turns = (const uint8_t *)"A,B";
    switch (call) {
    case 0: return jslit_check(text, size, out, room, length);
    case 1: return jslit_quick(text, size, out, room, length);
    case 2: return jslit_schedule(text, size, turns, SCHEDULE, out, room, length);
    case 7: return jslit_text(text, size, out, room, length);
    }
    uint8_t question = call == 4 ? JSLIT_UNMET : call == 5 ? JSLIT_RACE : JSLIT_MET;
    return jslit_why(text, size, question, 0, turns, 0, turns, 0, 0, call == 6, out, room, length);
}

/* The same with as much room as the answer needs, first with little. */
static inline uint8_t answered(int call, const uint8_t *text, size_t size, uint8_t **out, size_t *length) {
    size_t room = 64;
    for (;;) {
        *out = (uint8_t *)malloc(room);
        uint8_t status = called(call, text, size, *out, room, length);
        if (*length <= room) return status;
        free(*out);
        room = *length;
    }
}

static inline uint8_t *text_of(const char *name, size_t *size) {
    static const size_t most = 1 << 17;
    uint8_t *text = (uint8_t *)malloc(most);
    FILE *file = fopen(name, "rb");
    if (!file) exit(4);
    *size = fread(text, 1, most, file);
    fclose(file);
    return text;
}
