/* The stack that a call of the entry takes: stack FILE... prints the most bytes over the files' first registers and the
 * three questions, and where it was. Each call runs in a thread whose stack was filled with a pattern; what an empty
 * thread changes of it is taken off. */
#include <pthread.h>
#include <stdio.h>
#include <stdlib.h>
#include <string.h>

#include "valgrist.h"

enum { SIZE = 1 << 20, PATTERN = 0xA5, LONGEST = 1025 * 36, REGISTER_AT = 4 };

static uint8_t bytes[LONGEST];
static size_t length;
static uint64_t register_number, question;
static volatile uint64_t code;

static void *mark(void *unused)
{
    code = valgrist_mark(bytes, length, register_number, question);
    return unused;
}

static void *nothing(void *unused)
{
    return unused;
}

static size_t changed(void *(*run)(void *), unsigned char *stack)
{
    pthread_attr_t attributes;
    pthread_t thread;
    size_t kept = 0;
    memset(stack, PATTERN, SIZE);
    if (pthread_attr_init(&attributes) || pthread_attr_setstack(&attributes, stack, SIZE) ||
        pthread_create(&thread, &attributes, run, NULL) || pthread_join(thread, NULL)) {
        fputs("stack: no thread can be run\n", stderr);
        exit(1);
    }
    while (kept < SIZE && stack[kept] == PATTERN)
        kept++;
    return SIZE - kept;
}

static void load(const char *path)
{
    FILE *file = fopen(path, "rb");
    if (file == NULL) {
        fprintf(stderr, "stack: %s cannot be read\n", path);
        exit(1);
    }
    length = fread(bytes, 1, sizeof bytes, file);
    fclose(file);
    memcpy(&register_number, bytes + REGISTER_AT, sizeof register_number);
}

int main(int count, char **words)
{
    unsigned char *stack = aligned_alloc(4096, SIZE);
    size_t most = 0;
    const char *where = "";
    uint64_t by = 0;
    size_t empty = changed(nothing, stack);
    for (int i = 1; i < count; i++) {
        load(words[i]);
        for (question = VALGRIST_ZONES; question <= VALGRIST_FZF; question++) {
            size_t used = changed(mark, stack) - empty;
            if (most < used) {
                most = used;
                where = words[i];
                by = question;
            }
        }
    }
    if (strrchr(where, '/'))
        where = strrchr(where, '/') + 1;
    printf("%zu bytes at the most, in question %d of %s\n", most, (int)by, where);
    free(stack);
    return most <= VALGRIST_STACK ? 0 : 1;
}
