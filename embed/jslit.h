/* jslit in a program: what a litmus text may do under the memory model of ECMAScript.

   Link with libjslit (pkg-config jslit). docs/COMMANDS.md says what each answer means: it is, to the byte, what the command prints.

   Arguments. A text, a schedule, words and a condition are bytes with their number; they need no zero at their end. `out` is room for
   `room` bytes. No pointer is null, even where the number beside it is 0. What a call writes, `out` and `*length`, overlaps nothing
   else that it is given. Nobody checks this: where it isn't so, nothing is promised.

   Answers. The beginning of the answer goes to `out`, as far as it fits; what stands behind it there stays. Its whole length goes to
   `*length`. Where that is more than `room`, call again with as much room; the answer is then computed once more.

   Status.
     0  an answer
     1  a refusal: the line that the command prints for it is the answer. For jslit_why also where the question has no such answer
     2  jslit_why alone: there is no such question, or the words, the condition or the number are none
     3  memory ran out. `out` stays as it was
   With 2 and 3 `*length` is 0.

   Threads. A call runs on the thread that calls, starts no other, and shares nothing with another call: so calls may run side by side.
   It can't be stopped. Nothing is promised of its time: a test of few lines may take long.

   Memory comes from malloc and realloc and goes back by free before the call ends; each may fail, and then the status is 3. A call opens no
   file, prints nothing, and reads no environment. It needs 2 MiB of stack; past the end of the stack the system ends the program.

   What is proved, and under which assumptions: README.md, "What is proved". */
#ifndef JSLIT_H
#define JSLIT_H

#include <stddef.h>
#include <stdint.h>

#ifdef __cplusplus
extern "C" {
#endif

/* The whole report of a text, as `jslit` prints it. */
uint8_t jslit_check(const uint8_t *text, size_t text_length, uint8_t *out, size_t room, size_t *length);

/* The quick report, as `jslit --quick`. */
uint8_t jslit_quick(const uint8_t *text, size_t text_length, uint8_t *out, size_t room, size_t *length);

/* The outcome of one schedule, as `jslit --schedule SCHEDULE`: names of agents, with commas between them. */
uint8_t jslit_schedule(const uint8_t *text, size_t text_length, const uint8_t *schedule, size_t schedule_length, uint8_t *out,
                       size_t room, size_t *length);

/* What jslit_why is asked. */
enum { JSLIT_MET = 0, JSLIT_UNMET = 1, JSLIT_RACE = 2, JSLIT_CHOICE = 3, JSLIT_FROM = 4 };

/* Why no execution meets the condition, as `jslit-why`; JSLIT_UNMET, JSLIT_RACE, JSLIT_CHOICE (of the number `choice`) and JSLIT_FROM
   (with its words) as with the options of these names. A condition stands in place of the text's, as with --condition; of length 0
   it is none. `most` is how many attempts are looked at, 1 to 1000000, as with --most; 0 is 1000. The answer is text where `json` is
   0, and else JSON. */
uint8_t jslit_why(const uint8_t *text, size_t text_length, uint8_t question, uint64_t choice, const uint8_t *words, size_t words_length,
                  const uint8_t *condition, size_t condition_length, size_t most, uint8_t json, uint8_t *out, size_t room, size_t *length);

/* What a text says, as JSON, as `jslit-text` prints it. */
uint8_t jslit_text(const uint8_t *text, size_t text_length, uint8_t *out, size_t room, size_t *length);

#ifdef __cplusplus
}
#endif

#endif
