/* The interface of abc to C, in out/libabc_c.a of crates/abc_c: one call opens a file, runs its last script, and calls functions that
   the script exports, one after the other on one heap. docs/EMBEDDING.md says what each part means.

   Nothing checks a C caller. It owes what the types say: each pointer leads to so many values, which stay as they are during the
   call; `answers` and `out` are written and overlap nothing else; `bounds` is not null. Each pointer leads somewhere, also where the
   length is 0. malloc, realloc and free are those of one allocator. */
#ifndef ABC_C_H
#define ABC_C_H

#include <stddef.h>
#include <stdint.h>

#ifdef __cplusplus
extern "C" {
#endif

/* How much the code may hold, and how many steps the run of the script may take. */
struct abc_bounds {
    uint32_t objects, cells, text, frames, stack, fuel;
};

/* A call: where the name of the function stands among the names, how many steps it may take, and how many of the four numbers it is
   given, each from -2147483648 to 4294967295. */
struct abc_call {
    uint32_t name_start, name_length, fuel, count;
    int64_t a, b, c, d;
};

/* The statuses of the program: how a file was opened and its script ended, and what came of a call. */
enum abc_status {
    ABC_DONE = 0,        /* all went well; of a call: it gave a value */
    ABC_REFUSED = 1,     /* the file is refused, by the part and at the place that `refusal` tells, and the name of the reason
                            stands in `out`; of a call: the file exports nothing under this name */
    ABC_USAGE = 2,       /* of a call: no such place among the names, more than four numbers, or one out of range */
    ABC_UNCAUGHT = 3,    /* it threw, and nothing caught it */
    ABC_PROFILE = 4,     /* it asked for what this profile leaves out */
    ABC_FUEL = 5,        /* the steps were used up */
    ABC_LIMIT = 6,       /* a bound was reached */
    ABC_WRITE_FAULT = 8, /* `out` was full; once that was so while the code wrote, no other function is entered */
    ABC_NO_MEMORY = 9    /* memory ran out */
};

enum abc_kind { ABC_UNDEFINED, ABC_NULL, ABC_BOOL, ABC_NUMBER, ABC_TEXT, ABC_OTHER };

/* What came of a call: a status; where that is ABC_DONE the kind of the value; a number's value, or 1 for true; and where a text
   stands in `out`. */
struct abc_answer {
    uint32_t status, kind;
    int64_t number;
    size_t text_start, text_length;
};

enum abc_part { ABC_UNREFUSED, ABC_READER, ABC_LINKER, ABC_VERIFIER };

/* Where a file was refused. By the reader: the byte. By a rule of linking: the index of a part of the file, whose kind is the offset (0
   the file, 1 a method, 2 a class, 3 a script, 4 a body). By a rule of verifying: a method, and the offset in its code. */
struct abc_refusal {
    uint32_t by, place, offset;
};

/* How the file was opened and its last script ended; where it was refused, if it was; how many calls were answered; how many bytes
   stand in `out`. */
struct abc_outcome {
    uint32_t status;
    struct abc_refusal refusal;
    size_t answered, written;
};

/* Opens a file within bounds, runs its last script, and makes the calls, as far as there is room for their answers. No call is made
   where the status is another than ABC_DONE. What the script and the calls write and the texts that they give stand in `out`, one
   after the other. Code finds the formulas `twice`, which doubles a number, and `plus`, which adds two. */
struct abc_outcome abc_c_run(const unsigned char *file, size_t file_length, const struct abc_bounds *bounds, const unsigned char *names,
                             size_t names_length, const struct abc_call *calls, size_t call_count, struct abc_answer *answers,
                             size_t answer_room, unsigned char *out, size_t out_room);

#ifdef __cplusplus
}
#endif

#endif
