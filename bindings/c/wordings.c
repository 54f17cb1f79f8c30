/* Tests both wordings, calls that name none and wordings that are none, in both models, on a load by baload and on cases that are
 * broken or too long. Prints what is wrong; ends with 1 where anything is. */
#include <inttypes.h>
#include <stdio.h>
#include <string.h>

#include "korsepal.h"

#define CELLS 4
#define BYTES 80

/* aload_0, iconst_0, baload; the same without its last byte; and one byte more than a case may have. */
static const uint8_t mask[9] = {0x08, 0x02, 0x03, 0x2a, 0x03, 0x33, 0x00, 0x00, 0x00};
static const uint8_t too_long[1048577];

static const char *const messages[2] = {
    "Cannot load from byte array because \"<local0>\" is null",
    "Cannot load from byte/boolean array because \"<local0>\" is null",
};

static int wrong = 0;

/* The spaces that are lent; they hold other things before each call. */
static uint64_t stack[CELLS];
static uint8_t output[BYTES];

static void lend(void) {
    memset(stack, 7, sizeof stack);
    memset(output, 9, sizeof output);
}

/* The numbers are these, the stack is all zero, and the output has the text and what it had before. */
static void expect(const char *what, uint32_t wording, size_t room, korsepal_report_result r, korsepal_report_result e,
                   const char *text) {
    int same = r.answer == e.answer && r.kind == e.kind && r.scan == e.scan && r.block == e.block && r.value == e.value;
    for (size_t i = 0; i < CELLS; i++) {
        same = same && stack[i] == 0;
    }
    for (size_t i = 0; i < BYTES; i++) {
        same = same && output[i] == (i < strlen(text) ? (uint8_t)text[i] : 9);
    }
    if (!same) {
        printf("%s, wording %" PRIu32 ", room %zu: %" PRIu32 " %" PRIu32 " %" PRIu32 " %" PRIu32 " %" PRIu64 "\n", what, wording,
               room, r.answer, r.kind, r.scan, r.block, r.value);
        wrong = 1;
    }
}

/* What the load gives in a wording with so much room. */
static void expect_load(const char *what, uint32_t wording, size_t room, korsepal_report_result r) {
    const char *text = messages[wording - 1];
    size_t length = strlen(text);
    if (room < length) {
        expect(what, wording, room, r, (korsepal_report_result){4, 0, 0, 0, length}, "");
    } else {
        expect(what, wording, room, r, (korsepal_report_result){0, 2, 3, 2, length}, text);
    }
}

int main(void) {
    static const uint32_t models[3] = {0, 1, UINT32_MAX};
    static const uint32_t others[5] = {0, 3, 9, 11, UINT32_MAX};
    const korsepal_report_result none = {11, 0, 0, 0, 0};
    for (size_t room = 0; room <= 64; room++) {
        lend();
        expect_load("no name", 2, room, korsepal_report(mask, sizeof mask, stack, CELLS, output, room));
        lend();
        expect_load("no name, full", 2, room, korsepal_report_full(mask, sizeof mask, stack, CELLS, output, room));
        for (size_t m = 0; m < 3; m++) {
            for (uint32_t wording = 1; wording <= 2; wording++) {
                lend();
                expect_load("load", wording, room,
                            korsepal_report_in(models[m], wording, mask, sizeof mask, stack, CELLS, output, room));
            }
        }
    }
    for (size_t m = 0; m < 3; m++) {
        for (uint32_t wording = 1; wording <= 2; wording++) {
            lend();
            expect("broken", wording, BYTES,
                   korsepal_report_in(models[m], wording, mask, sizeof mask - 1, stack, CELLS, output, BYTES),
                   (korsepal_report_result){2, 0, 0, 0, 8}, "");
            lend();
            expect("too long", wording, BYTES,
                   korsepal_report_in(models[m], wording, too_long, sizeof too_long, stack, CELLS, output, BYTES),
                   (korsepal_report_result){5, 0, 0, 0, 0}, "");
        }
        for (size_t w = 0; w < 5; w++) {
            const struct {
                const char *what;
                const uint8_t *bytes;
                size_t count;
            } cases[4] = {
                {"load", mask, sizeof mask},
                {"broken", mask, sizeof mask - 1},
                {"empty", mask, 0},
                {"too long", too_long, sizeof too_long},
            };
            for (size_t c = 0; c < 4; c++) {
                lend();
                expect(cases[c].what, others[w], BYTES,
                       korsepal_report_in(models[m], others[w], cases[c].bytes, cases[c].count, stack, CELLS, output, BYTES),
                       none, "");
            }
        }
    }
    return wrong;
}
