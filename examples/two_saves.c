/* Two saves in one second: written, checked, counted and read back from C. Both are there. `make examples` builds and runs it. */
#include <inttypes.h>
#include <stdio.h>

#include "moortangle.h"

enum { DELTA = 2, INSTANTS = 1, MOST_VALUES = 4096 };

static int refused(const char *call, uint32_t answer, uint64_t told) {
    fprintf(stderr, "%s was refused: answer %" PRIu32 ", told %" PRIu64 "\n", call, answer, told);
    return 1;
}

int main(void) {
    const uint32_t second = 1789430401;
    const uint32_t saves[] = {second, second};
    uint8_t buffer[64] = {0};

    moortangle_written record = moortangle_write(buffer, sizeof buffer, 0, DELTA, 0, INSTANTS, saves, 2);
    if (record.answer != 0)
        return refused("write", record.answer, record.told);
    /* The next record would start at record.told; here the stream ends. */
    moortangle_written end = moortangle_write_end(buffer, sizeof buffer, record.told);
    if (end.answer != 0)
        return refused("write_end", end.answer, end.told);

    size_t bytes = end.told / 8;
    moortangle_stream stream = moortangle_check(buffer, bytes);
    if (stream.answer != 0)
        return refused("check", stream.answer, stream.told);
    printf("%zu bytes, %" PRIu64 " record, %" PRIu64 " values\n", bytes, stream.records, stream.values);

    /* So many are below the next second, less those below this one. */
    moortangle_place next = moortangle_search(buffer, bytes, 0, end.told, second + 1);
    moortangle_place this = moortangle_search(buffer, bytes, 0, end.told, second);
    if (next.answer != 0 || this.answer != 0)
        return refused("search", next.answer, next.told);
    printf("%" PRIu64 " saves in second %" PRIu32 "\n", next.below - this.below, second);

    uint32_t list[MOST_VALUES];
    moortangle_record read = moortangle_read(buffer, bytes, 0, end.told, INSTANTS, list, MOST_VALUES);
    if (read.answer != 0)
        return refused("read", read.answer, read.told);
    for (uint32_t i = 0; i < read.count; i++)
        printf("save %" PRIu32 ": second %" PRIu32 "\n", i, list[i]);
    return 0;
}
