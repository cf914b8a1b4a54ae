/* each FILE..: prints what each call gives for each text. */
#include "calls.h"

int main(int count, char **names) {
    for (int number = 1; number < count; number++) {
        size_t size, length;
        uint8_t *text = text_of(names[number], &size), *out;
        for (int call = 0; call < CALLS; call++) {
            uint8_t status = answered(call, text, size, &out, &length);
            printf("%s %s %d %zu\n", names[number], call_names[call], status, length);
            fwrite(out, 1, length, stdout);
            free(out);
        }
        free(text);
    }
    return 0;
}
