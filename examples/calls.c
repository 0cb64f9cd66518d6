/* Calls abc from C: reads a file from standard input, makes the calls that its words name, and writes what came of each.
   A word is NAME or NAME:NUMBER,NUMBER.. */
#include "../include/abc_c.h"
#include <stdio.h>
#include <stdlib.h>
#include <string.h>

enum { MOST = 64, ROOM = 1 << 16, FILE_ROOM = 1 << 24 };

static unsigned char file[FILE_ROOM + 1];
static unsigned char names[ROOM];
static size_t names_length;

/* The call of a word. Its name goes behind the names before it. */
static struct abc_call call_of(const char *word) {
    const char *end = strchr(word, ':');
    size_t length = end ? (size_t)(end - word) : strlen(word);
    struct abc_call call = {(uint32_t)names_length, (uint32_t)length, 10000, 0, 0, 0, 0, 0};
    int64_t *numbers[] = {&call.a, &call.b, &call.c, &call.d};
    memcpy(names + names_length, word, length);
    names_length += length;
    while (end && *end && call.count < 4) {
        char *next;
        *numbers[call.count++] = strtoll(end + 1, &next, 10);
        end = next;
    }
    return call;
}

static void print(const struct abc_answer *answer, const unsigned char *out) {
    static const char *const kinds[] = {"undefined", "null", "bool", "number", "text", "other"};
    if (answer->status != ABC_DONE)
        printf("status %u\n", answer->status);
    else if (answer->kind == ABC_TEXT)
        printf("text %.*s\n", (int)answer->text_length, (const char *)out + answer->text_start);
    else
        printf("%s %lld\n", kinds[answer->kind], (long long)answer->number);
}

int main(int count, char **words) {
    static struct abc_call calls[MOST];
    static struct abc_answer answers[MOST];
    static unsigned char out[ROOM];
    struct abc_bounds bounds = {1000, 10000, 10000, 100, 1000, 10000};
    size_t length = fread(file, 1, FILE_ROOM + 1, stdin);
    size_t made = 0;
    for (int i = 1; i < count && made < MOST && names_length + strlen(words[i]) <= ROOM; i++)
        calls[made++] = call_of(words[i]);
    struct abc_outcome outcome = abc_c_run(file, length, &bounds, names, names_length, calls, made, answers, MOST, out, ROOM);
    printf("status %u, %zu answers, %zu bytes\n", outcome.status, outcome.answered, outcome.written);
    if (outcome.status == ABC_REFUSED)
        printf("refused by %u at %u, %u: %.*s\n", outcome.refusal.by, outcome.refusal.place, outcome.refusal.offset, (int)outcome.written, (const char *)out);
    for (size_t i = 0; i < outcome.answered; i++)
        print(&answers[i], out);
    return (int)outcome.status;
}
