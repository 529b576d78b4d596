/* The exam desk's marking, in C: desk FILE REGISTER prints the register's code by each question. */
#include <errno.h>
#include <stdio.h>
#include <stdlib.h>
#include <string.h>

#include "valgrist.h"

/* No record is longer than 36 bytes: so many hold a whole 1,025th one, which is enough to refuse a longer file. */
enum { LONGEST = 1025 * 36 };

static const char *word(uint64_t code)
{
    switch (code) {
    case VALGRIST_FRESH: return "fresh";
    case VALGRIST_OVERFULL: return "overfull";
    case VALGRIST_NO_SUCH_QUESTION: return "no such question";
    case VALGRIST_BAD_SPAN: return "bad span";
    case VALGRIST_TWIN_WRITE: return "twin write";
    case VALGRIST_ORPHAN_READ: return "orphan read";
    case VALGRIST_EARLY_READ: return "early read";
    case VALGRIST_STALE: return "stale";
    case VALGRIST_CUT_RECORD: return "cut record";
    case VALGRIST_STRANGE_RECORD: return "strange record";
    case VALGRIST_SECOND_OPENING: return "second opening";
    default: return "unknown code";
    }
}

/* A decimal number of 64 bits; 0 where the text is none. */
static int number(const char *text, uint64_t *value)
{
    char *end;
    if (text[0] < '0' || '9' < text[0])
        return 0;
    errno = 0;
    *value = strtoull(text, &end, 10);
    return errno == 0 && *end == '\0';
}

int main(int count, char **words)
{
    static uint8_t bytes[LONGEST];
    uint64_t reg;
    if (count != 3 || !number(words[2], &reg)) {
        fprintf(stderr, "usage: desk FILE REGISTER\n");
        return 2;
    }
    FILE *file = fopen(words[1], "rb");
    if (file == NULL) {
        fprintf(stderr, "desk: %s: %s\n", words[1], strerror(errno));
        return 2;
    }
    size_t length = fread(bytes, 1, sizeof bytes, file);
    if (ferror(file)) {
        fprintf(stderr, "desk: %s cannot be read\n", words[1]);
        fclose(file);
        return 2;
    }
    fclose(file);
    for (uint64_t question = VALGRIST_ZONES; question <= VALGRIST_FZF; question++) {
        uint64_t code = valgrist_mark(bytes, length, reg, question);
        printf("question %llu: %llu %s\n", (unsigned long long)question, (unsigned long long)code, word(code));
    }
    return 0;
}
