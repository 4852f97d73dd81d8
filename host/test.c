/* Tests the two calls of include/station.h against a second reading of the rules, written here on its own.
   Prints how many answers were compared; the exit status is 1 if one was wrong. */
#include "station.h"

#include <stdio.h>
#include <string.h>

enum { SHEET = 70, NINE = 9, ROOM = 96 };

static unsigned long asked, wrong;

static void expect(const char *what, uint64_t got, uint64_t want) {
    asked++;
    if (got == want) return;
    wrong++;
    if (wrong > 20) return;
    printf("%s: refusal %u, value %u is answered, and refusal %u, value %u is right\n", what, (unsigned)(got >> 32), (unsigned)got,
           (unsigned)(want >> 32), (unsigned)want);
}

/* A generator with a fixed seed (xorshift), so that every run asks the same questions. */
static uint64_t state = 0x243f6a8885a308d3;

static uint32_t any(uint32_t below) {
    state ^= state << 13;
    state ^= state >> 7;
    state ^= state << 17;
    return (uint32_t)((state >> 16) % below);
}

/* ---- the second reading: a cursor that runs over the bytes, where the proved code goes by field number */
struct cursor {
    const uint8_t *at;
    const uint8_t *end;
};

static int left(const struct cursor *c) { return (int)(c->end - c->at); }

static unsigned word(struct cursor *c) {
    unsigned high = *c->at++;
    return high << 8 | *c->at++;
}

static uint64_t field_again(const uint8_t *sheet, size_t len, uint32_t tag) {
    struct cursor c = {sheet, sheet + len};
    uint64_t value = 0;
    if (tag < 0x21 || tag > 0x2e) return (uint64_t)31 << 32;
    for (unsigned due = 0x21; due <= 0x2e; due++) {
        if (left(&c) < 3) return (uint64_t)30 << 32;
        if (*c.at++ != due) return (uint64_t)31 << 32;
        if (word(&c) != 2) return (uint64_t)32 << 32;
        if (left(&c) < 2) return (uint64_t)30 << 32;
        unsigned here = word(&c);
        if (due == tag) value = here;
    }
    return left(&c) > 0 ? (uint64_t)33 << 32 : value;
}

static uint64_t compare_again(const uint8_t *a, size_t a_len, const uint8_t *b, size_t b_len) {
    unsigned differs = 0;
    if (a_len != NINE || b_len != NINE) return (uint64_t)24 << 32;
    for (int i = NINE; i-- > 0;) differs |= (unsigned)(a[i] ^ b[i]);
    return differs == 0;
}

/* ---- the questions */
static void ask_field(const char *what, const uint8_t *sheet, size_t len, uint32_t tag) {
    expect(what, station_sheet_field(sheet, len, tag), field_again(sheet, len, tag));
}

static const uint32_t odd_tags[] = {0, 1, 0x1f, 0x20, 0x2f, 0x30, 0x80, 0xff, 0x100, 0x121, 0x12e, 0x10021, 0x80000021, 0xffffffff};
enum { ODD_TAGS = sizeof odd_tags / sizeof odd_tags[0] };

static void ask_tags(const char *what, const uint8_t *sheet, size_t len) {
    for (uint32_t tag = 0x21; tag <= 0x2e; tag++) ask_field(what, sheet, len, tag);
    for (int i = 0; i < ODD_TAGS; i++) ask_field(what, sheet, len, odd_tags[i]);
}

static void good_sheet(uint8_t *sheet) {
    for (int i = 0; i < ROOM; i++) sheet[i] = (uint8_t)any(256);
    for (int i = 0; i < 14; i++) {
        sheet[5 * i] = (uint8_t)(0x21 + i);
        sheet[5 * i + 1] = 0;
        sheet[5 * i + 2] = 2;
        if (any(4) == 0) sheet[5 * i + 3 + any(2)] = (uint8_t)(any(2) * 255);
    }
}

static void test_sheets(void) {
    uint8_t sheet[ROOM];
    good_sheet(sheet);
    /* these two do not rest on the second reading */
    sheet[5 * 10 + 3] = 0x12;
    sheet[5 * 10 + 4] = 0x34;
    expect("LineTime", station_sheet_field(sheet, SHEET, 0x2b), 0x1234);
    expect("an empty sheet", station_sheet_field(sheet, 0, 0x2b), (uint64_t)30 << 32);
    for (size_t len = 0; len <= ROOM; len++) ask_tags("every length", sheet, len);
    for (int at = 0; at < SHEET; at++) {
        uint8_t was = sheet[at];
        for (int value = 0; value < 256; value++) {
            sheet[at] = (uint8_t)value;
            ask_field("one byte damaged", sheet, SHEET, 0x21 + any(14));
        }
        sheet[at] = was;
    }
    for (int turn = 0; turn < 20000; turn++) {
        good_sheet(sheet);
        for (uint32_t hits = any(4); hits > 0; hits--) sheet[any(SHEET)] = (uint8_t)any(256);
        size_t len = any(3) == 0 ? any(ROOM + 1) : SHEET;
        ask_tags("any sheet", sheet, len);
        ask_field("any tag", sheet, len, any(0xffffffff));
    }
}

static void ask_compare(const char *what, const uint8_t *a, size_t a_len, const uint8_t *b, size_t b_len) {
    expect(what, station_compare_checksums(a, a_len, b, b_len), compare_again(a, a_len, b, b_len));
}

static void test_checksums(void) {
    uint8_t a[16] = {0}, b[16] = {0};
    expect("nine zeros", station_compare_checksums(a, NINE, b, NINE), 1);
    b[8] = 1;
    expect("a byte after eight zeros", station_compare_checksums(a, NINE, b, NINE), 0);
    b[8] = 0;
    for (int at = 0; at < NINE; at++) {
        for (int value = 0; value < 256; value++) {
            b[at] = (uint8_t)value;
            ask_compare("one place, the others 0", a, NINE, b, NINE);
            ask_compare("the same, the other way", b, NINE, a, NINE);
        }
        b[at] = 0;
    }
    for (size_t m = 0; m <= 16; m++) {
        for (size_t n = 0; n <= 16; n++) ask_compare("every pair of lengths", a, m, b, n);
    }
    for (int turn = 0; turn < 20000; turn++) {
        for (int i = 0; i < 16; i++) a[i] = (uint8_t)(any(3) == 0 ? 0 : any(256));
        memcpy(b, a, sizeof b);
        for (uint32_t hits = any(3); hits > 0; hits--) b[any(NINE)] ^= (uint8_t)(1u << any(8));
        ask_compare("any two", a, any(8) == 0 ? any(17) : NINE, b, any(8) == 0 ? any(17) : NINE);
    }
}

int main(void) {
    test_sheets();
    test_checksums();
    printf("station: %lu answers compared, %lu wrong\n", asked, wrong);
    return wrong != 0;
}
