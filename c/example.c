/* Sends an outline's polygons and reads one back. tools/c_example.sh builds and runs it. */

#include "polygon.h"

#include <stdio.h>

/* The outline L: from (5, 5) two steps right and two down. */
static const uint8_t L[] = {0x09, 0x00, 0x04, 0x00, 0x05, 0x00, 0x05, 0x00, 0x04, 0x03, 0x60};

static void print_record(const char *title, int32_t answer, const uint8_t *record, const struct polygon_written *written)
{
    printf("%s:", title);
    if (answer != 0) {
        printf(" refused %d\n", (int)-answer);
        return;
    }
    for (size_t i = 0; i < written->bytes; i++) {
        printf(" %02X", record[i]);
    }
    printf(" (%u code bits)\n", (unsigned)written->bits);
}

int main(void)
{
    uint8_t record[POLYGON_MOST_BYTES] = {0};
    struct polygon_written written = {0, 0};
    struct polygon_point vertices[POLYGON_MOST_VERTICES] = {{0, 0}};
    struct polygon_reading reading = {0, 0, 0};
    int32_t answer;

    answer = polygon_cheapest(L, sizeof L, 2, false, 2, 1, record, sizeof record, &written);
    print_record("cheapest within 2/1", answer, record, &written);

    answer = polygon_cheapest(L, sizeof L, 2, true, 1, 1, record, sizeof record, &written);
    print_record("cheapest within 1/1 by pace", answer, record, &written);

    answer = polygon_closest(L, sizeof L, 2, false, 12, record, sizeof record, &written);
    print_record("closest within 12 bits", answer, record, &written);

    answer = polygon_read(record, written.bytes, vertices, POLYGON_MOST_VERTICES, &reading);
    printf("read back: answer %d, kind %u, %u bytes, vertices", (int)answer, (unsigned)reading.kind, (unsigned)reading.bytes);
    for (size_t i = 0; i < reading.vertices; i++) {
        printf(" (%u, %u)", (unsigned)vertices[i].col, (unsigned)vertices[i].row);
    }
    printf("\n");

    /* Refusals, after which record and written still hold the last answer. */
    answer = polygon_closest(L, sizeof L, 2, false, 5, record, sizeof record, &written);
    print_record("closest within 5 bits", answer, record, &written);
    answer = polygon_cheapest(L, sizeof L, 6, false, 2, 1, record, sizeof record, &written);
    print_record("cheapest in kind 6", answer, record, &written);
    answer = polygon_cheapest(L, sizeof L, 2, false, 2, 1, record, 9, &written);
    print_record("cheapest in 9 bytes", answer, record, &written);
    print_record("still there", 0, record, &written);
    return 0;
}
