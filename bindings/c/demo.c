/* Prints document 01's example, a static method whose parameter is null; then a load of z[i + 1] with z null, in document 01's
 * model, which gives up at the addition, and in the full one, which names z; then a load by baload, by a call that names no
 * wording, in wording 1, and in wording 9, which is none. */
#include <inttypes.h>
#include <stdio.h>

#include "korsepal.h"

static const uint8_t example[65] = {
    0x08, 0x01, 0x06, 0x2a, 0xb6, 0x00, 0x01, 0x57, 0xb1, 0x17, 0x6d, 0x3a, 0x28, 0x4c, 0x6a, 0x61, 0x76,
    0x61, 0x2f, 0x6c, 0x61, 0x6e, 0x67, 0x2f, 0x53, 0x74, 0x72, 0x69, 0x6e, 0x67, 0x3b, 0x29, 0x56, 0x01,
    0x01, 0x01, 0x10, 0x6a, 0x61, 0x76, 0x61, 0x2f, 0x6c, 0x61, 0x6e, 0x67, 0x2f, 0x53, 0x74, 0x72, 0x69,
    0x6e, 0x67, 0x06, 0x6c, 0x65, 0x6e, 0x67, 0x74, 0x68, 0x03, 0x28, 0x29, 0x49, 0x00,
};

/* examples/arithmetic.case */
static const uint8_t arithmetic[33] = {
    0x08, 0x04, 0x06, 0x2a, 0x1b, 0x04, 0x60, 0x31, 0xaf, 0x0b, 0x6e, 0x65, 0x78, 0x74, 0x3a, 0x28, 0x5b,
    0x44, 0x49, 0x29, 0x44, 0x00, 0x02, 0x00, 0x06, 0x00, 0x01, 0x7a, 0x00, 0x06, 0x01, 0x01, 0x69,
};

/* aload_0, iconst_0, baload */
static const uint8_t mask[9] = {0x08, 0x02, 0x03, 0x2a, 0x03, 0x33, 0x00, 0x00, 0x00};

static void print_report(korsepal_report_result r, const uint8_t *output) {
    printf("%" PRIu32 " %" PRIu32 " %" PRIu32 " %" PRIu32, r.answer, r.kind, r.scan, r.block);
    if (r.answer == 0) {
        printf(" %.*s", (int)r.value, (const char *)output);
    } else if (r.answer >= 2 && r.answer <= 4) {
        printf(" %" PRIu64, r.value);
    }
    printf("\n");
}

int main(void) {
    uint64_t stack[16] = {0};
    uint8_t output[256] = {0};
    print_report(korsepal_report(example, sizeof example, stack, 16, output, sizeof output), output);
    print_report(korsepal_report(arithmetic, sizeof arithmetic, stack, 16, output, sizeof output), output);
    print_report(korsepal_report_full(arithmetic, sizeof arithmetic, stack, 16, output, sizeof output), output);
    print_report(korsepal_report(mask, sizeof mask, stack, 16, output, sizeof output), output);
    print_report(korsepal_report_in(0, 1, mask, sizeof mask, stack, 16, output, sizeof output), output);
    print_report(korsepal_report_in(0, 9, mask, sizeof mask, stack, 16, output, sizeof output), output);
    return 0;
}
