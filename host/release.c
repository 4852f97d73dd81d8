/* What a station's host does with the two calls of include/station.h.

     release key CHECKSUM CHECKSUM [CHECKSUM CHECKSUM]
                         releases a key where the two checksums of each pair, in hexadecimal, match: the one seen and its reference,
                         one pair for a picture of one field, two for an interlaced one, the first field's before the second's
     release field TAG   shows one field of the sheet on standard input; TAG as 33 or 0x21

   Exit status: 0 the key was released, or the field shown; 1 it was not; 2 the words given make no sense. */
#include "station.h"

#include <stdio.h>
#include <string.h>

enum { DONE = 0, REFUSED = 1, USAGE = 2 };

/* More than a checksum has, so that one that is too long still reaches the call and gets its refusal. */
enum { CHECKSUM_ROOM = 32 };

/* The most that a picture has: an interlaced one has two. */
enum { FIELDS = 2 };

/* One byte more than a sheet has: enough to see that bytes are left over. */
enum { SHEET_ROOM = 71 };

static int digit(char c) {
    if (c >= '0' && c <= '9') return c - '0';
    if (c >= 'a' && c <= 'f') return c - 'a' + 10;
    if (c >= 'A' && c <= 'F') return c - 'A' + 10;
    return -1;
}

/* Reads pairs of hexadecimal digits. Answers how many bytes there are, or -1 after an error line. */
static int bytes_of(const char *text, uint8_t *bytes) {
    size_t digits = strlen(text);
    if (digits % 2 != 0 || digits / 2 > CHECKSUM_ROOM) {
        fprintf(stderr, "release: a checksum is pairs of hexadecimal digits, at most %d: %s\n", CHECKSUM_ROOM, text);
        return -1;
    }
    for (size_t i = 0; i < digits / 2; i++) {
        int high = digit(text[2 * i]), low = digit(text[2 * i + 1]);
        if (high < 0 || low < 0) {
            fprintf(stderr, "release: not hexadecimal: %s\n", text);
            return -1;
        }
        bytes[i] = (uint8_t)(16 * high + low);
    }
    return (int)(digits / 2);
}

/* Reads a tag, in decimal, or in hexadecimal after 0x. Answers 0 after an error line. */
static int tag_of(const char *text, uint32_t *tag) {
    int base = text[0] == '0' && text[1] == 'x' ? 16 : 10;
    const char *at = base == 16 ? text + 2 : text;
    uint64_t value = 0;
    int good = *at != 0;
    for (; good && *at != 0; at++) {
        int next = digit(*at);
        good = next >= 0 && next < base;
        if (good) value = value * (uint64_t)base + (uint64_t)next;
        good = good && value <= 0xffffffff;
    }
    if (!good) fprintf(stderr, "release: not a tag: %s\n", text);
    *tag = (uint32_t)value;
    return good;
}

struct checksum {
    uint8_t bytes[CHECKSUM_ROOM];
    int len;
};

/* Says why the key is kept. The field is named where there are two. */
static void say_kept(uint64_t answer, int field, int fields) {
    const char *name = field == 0 ? "first" : "second";
    unsigned refusal = (unsigned)(answer >> 32);
    if (answer == 0 && fields == 1) {
        printf("key kept: the checksums differ\n");
    } else if (answer == 0) {
        printf("key kept: the checksums of the %s field differ\n", name);
    } else if (fields == 1) {
        printf("key kept: refused %u\n", refusal);
    } else {
        printf("key kept: refused %u for the %s field\n", refusal, name);
    }
}

/* A field's sums cover its own lines alone, so one field's match says nothing of the other's: every pair must match. */
static int release_key(char **words, int fields) {
    struct checksum given[2 * FIELDS];
    for (int i = 0; i < 2 * fields; i++) {
        given[i].len = bytes_of(words[i], given[i].bytes);
        if (given[i].len < 0) return USAGE;
    }
    for (int field = 0; field < fields; field++) {
        const struct checksum *a = &given[2 * field], *b = a + 1;
        uint64_t answer = station_compare_checksums(a->bytes, (size_t)a->len, b->bytes, (size_t)b->len);
        if (answer != 1) {
            say_kept(answer, field, fields);
            return REFUSED;
        }
    }
    printf("key released\n");
    return DONE;
}

static int show_field(const char *word) {
    uint32_t tag;
    if (!tag_of(word, &tag)) return USAGE;
    uint8_t sheet[SHEET_ROOM];
    size_t len = fread(sheet, 1, sizeof sheet, stdin);
    if (ferror(stdin)) {
        fprintf(stderr, "release: the sheet cannot be read\n");
        return USAGE;
    }
    uint64_t answer = station_sheet_field(sheet, len, tag);
    if (answer >> 32 != 0) {
        printf("refused %u\n", (unsigned)(answer >> 32));
        return REFUSED;
    }
    printf("field 0x%x is %u\n", (unsigned)tag, (unsigned)answer);
    return DONE;
}

int main(int count, char **words) {
    if ((count == 4 || count == 6) && strcmp(words[1], "key") == 0) return release_key(words + 2, (count - 2) / 2);
    if (count == 3 && strcmp(words[1], "field") == 0) return show_field(words[2]);
    fprintf(stderr, "usage: release key CHECKSUM CHECKSUM [CHECKSUM CHECKSUM], or release field TAG with the sheet on standard input\n");
    return USAGE;
}
