/* For Arm alone. The proved module takes the place of a call's answer as its first argument, which is how C returns a
 * struct of six numbers on x86-64; on Arm the place stands in a register of its own. bench/native gives the module's
 * functions the ending _placed, and here each is called as include/last.h declares it. */
#include "last.h"

void *last_check_mesh_placed(struct last_answer *, const uint32_t *, size_t, const uint32_t *, size_t, uint32_t,
                             uint32_t, uint32_t *, size_t);
void *last_write_string_placed(struct last_answer *, const uint32_t *, size_t, const uint32_t *, size_t, uint32_t,
                               uint32_t, uint8_t *, size_t, uint32_t *, size_t, uint32_t *, size_t);
void *last_read_string_placed(struct last_answer *, const uint8_t *, size_t, uint32_t *, size_t, uint32_t *, size_t,
                              uint32_t *, size_t);
void *last_read_record_placed(struct last_answer *, const uint8_t *, size_t, uint32_t *, size_t, uint32_t *, size_t,
                              uint32_t *, size_t);
void *last_write_record_placed(struct last_answer *, const uint8_t *, size_t, uint32_t, uint8_t *, size_t, uint32_t *,
                               size_t);

struct last_answer last_check_mesh(const uint32_t *vs, size_t vs_len, const uint32_t *os, size_t os_len, uint32_t v,
                                   uint32_t gate, uint32_t *work, size_t work_len)
{
    struct last_answer a;
    last_check_mesh_placed(&a, vs, vs_len, os, os_len, v, gate, work, work_len);
    return a;
}

struct last_answer last_write_string(const uint32_t *vs, size_t vs_len, const uint32_t *os, size_t os_len, uint32_t v,
                                     uint32_t gate, uint8_t *letters, size_t letters_len, uint32_t *walk,
                                     size_t walk_len, uint32_t *work, size_t work_len)
{
    struct last_answer a;
    last_write_string_placed(&a, vs, vs_len, os, os_len, v, gate, letters, letters_len, walk, walk_len, work, work_len);
    return a;
}

struct last_answer last_read_string(const uint8_t *letters, size_t letters_len, uint32_t *vs, size_t vs_len,
                                    uint32_t *os, size_t os_len, uint32_t *work, size_t work_len)
{
    struct last_answer a;
    last_read_string_placed(&a, letters, letters_len, vs, vs_len, os, os_len, work, work_len);
    return a;
}

struct last_answer last_read_record(const uint8_t *record, size_t record_len, uint32_t *vs, size_t vs_len, uint32_t *os,
                                    size_t os_len, uint32_t *work, size_t work_len)
{
    struct last_answer a;
    last_read_record_placed(&a, record, record_len, vs, vs_len, os, os_len, work, work_len);
    return a;
}

struct last_answer last_write_record(const uint8_t *letters, size_t letters_len, uint32_t gate, uint8_t *text,
                                     size_t text_len, uint32_t *work, size_t work_len)
{
    struct last_answer a;
    last_write_record_placed(&a, letters, letters_len, gate, text, text_len, work, work_len);
    return a;
}
