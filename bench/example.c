/* The library from C99 or C++: a mesh from its string, its walk from another gate, its record, and three refusals. */
#include "last.h"

#include <stdio.h>
#include <string.h>

static int wrong = 0;

static void expect(const char *what, int right) {
    if (!right) {
        printf("wrong: %s\n", what);
        wrong = 1;
    }
}

static int is(struct last_answer a, enum last_number number, uint32_t place) {
    return a.number == (uint32_t)number && a.place == place && (number == LAST_DONE || (a.t == 0 && a.v == 0));
}

int main(void) {
    enum { T = 4 };
    static const uint32_t expected_vs[3 * T] = {2, 0, 1, 3, 2, 1, 0, 3, 1, 2, 3, 0};
    static const uint32_t expected_os[3 * T] = {7, 3, 10, 1, 6, 11, 4, 0, 9, 8, 2, 5};
    static const uint32_t expected_walk[T] = {7, 9, 2, 3};
    const char *record = "form=1\ntri=4\ngate=7\nsym=CCRE\n";
    uint32_t vs[LAST_TABLE_LEN(T)], os[LAST_TABLE_LEN(T)], walk[LAST_WALK_LEN(T)], work[LAST_WORK_LEN(T)];
    uint8_t letters[LAST_STRING_LEN(T)], text[LAST_TEXT_LEN(T)];
    const size_t n = LAST_TABLE_LEN(T), room = LAST_WORK_LEN(T);
    struct last_answer a;

    a = last_read_string((const uint8_t *)"CCRE", T, vs, n, os, n, work, room);
    expect("counts of CCRE", is(a, LAST_DONE, 0) && a.t == T && a.v == LAST_VERTEX_COUNT(T));
    expect("V of CCRE", memcmp(vs, expected_vs, sizeof vs) == 0);
    expect("O of CCRE", memcmp(os, expected_os, sizeof os) == 0);

    a = last_check_mesh(vs, n, os, n, 4, 7, work, room);
    expect("check", is(a, LAST_DONE, 0) && a.t == T && a.v == 4 && a.gate == 0 && a.length == 0);

    a = last_write_string(vs, n, os, n, 4, 7, letters, sizeof letters, walk, T, work, room);
    expect("string from gate 7", is(a, LAST_DONE, 0) && memcmp(letters, "CCRE", T) == 0);
    expect("walk from gate 7", memcmp(walk, expected_walk, sizeof walk) == 0);

    a = last_write_record(letters, sizeof letters, 7, text, sizeof text, work, room);
    expect("record", is(a, LAST_DONE, 0) && a.length == strlen(record) && memcmp(text, record, a.length) == 0);

    a = last_read_record(text, a.length, vs, n, os, n, work, room);
    expect("opened", is(a, LAST_DONE, 0) && a.t == T && a.v == 4 && a.gate == 7 && a.length == 0);

    expect("CCCE", is(last_read_string((const uint8_t *)"CCCE", T, vs, n, os, n, work, room), LAST_PINCH, 1));
    expect("v = 5", is(last_check_mesh(vs, n, os, n, 5, 0, work, room), LAST_RING, 4));
    expect("gate = 12", is(last_write_record(letters, T, 12, text, sizeof text, work, room), LAST_GATE, 0));

    printf(wrong ? "example: failed\n" : "example: as it should be\n");
    return wrong;
}
