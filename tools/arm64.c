/* Plays a list on a store and writes answers, store and state to the standard output.
 *   usage: STORE LIST HOW     how: w whole, p each event as a portion, 1 both, 0 neither */
#include "nekahuiro.h"

#include <stdio.h>
#include <string.h>

static uint8_t start[NEKAHUIRO_STORE_BYTES], store[NEKAHUIRO_STORE_BYTES], work[NEKAHUIRO_WORK_BYTES];
static uint8_t events[NEKAHUIRO_EVENTS * NEKAHUIRO_EVENT_BYTES], answers[NEKAHUIRO_EVENTS * NEKAHUIRO_ANSWER_BYTES];
static nekahuiro_state state;

static size_t take(const char *path, uint8_t *buffer, size_t size)
{
    FILE *file = fopen(path, "rb");
    size_t got = file ? fread(buffer, 1, size, file) : 0;

    if (file)
        fclose(file);
    return got;
}

static void tell(uint8_t number)
{
    putchar(number);
    fwrite(store, 1, sizeof store, stdout);
    fwrite(answers, 1, sizeof answers, stdout);
}

int main(int count, char **words)
{
    size_t length;
    uint8_t number = 0;

    if (count != 4 || take(words[1], start, sizeof start) != sizeof start)
        return 2;
    length = take(words[2], events, sizeof events);
    if (strchr("w1", words[3][0])) {
        memcpy(store, start, sizeof store);
        number = nekahuiro_run(store, sizeof store, events, length, work, sizeof work, answers, sizeof answers);
        if (words[3][0] == '1')
            tell(number);
    }
    if (strchr("p1", words[3][0])) {
        memcpy(store, start, sizeof store);
        memset(answers, 0, sizeof answers);
        for (size_t at = 0; at + NEKAHUIRO_EVENT_BYTES <= length && number == 0; at += NEKAHUIRO_EVENT_BYTES)
            number = nekahuiro_portion(&state, store, sizeof store, events + at, NEKAHUIRO_EVENT_BYTES, work, sizeof work,
                                       answers + at / NEKAHUIRO_EVENT_BYTES * NEKAHUIRO_ANSWER_BYTES, NEKAHUIRO_ANSWER_BYTES);
        if (words[3][0] == '1') {
            tell(number);
            fwrite(&state, 1, sizeof state, stdout);
        }
    }
    return 0;
}
