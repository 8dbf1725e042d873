/* The baseline: every call of the library in plain C, with the same refusals and the same answers. */
#ifndef BASELINE_H
#define BASELINE_H

#include "sarvundole.h"

sarvundole_tally baseline_recode(uint8_t form, sarvundole_set set, uint8_t order, const uint8_t *scalar, size_t bytes, int8_t *digits, size_t places,
                                 uint64_t *marks, size_t words);
sarvundole_tally baseline_recode_below(uint8_t form, sarvundole_set set, uint8_t order, const uint8_t *scalar, size_t bytes, const uint8_t *group, size_t group_bytes,
                                       int8_t *digits, size_t places, uint64_t *marks, size_t words);
sarvundole_tally baseline_check(sarvundole_set set, uint8_t order, const uint8_t *scalar, size_t bytes, const int8_t *digits, size_t places);
sarvundole_tally baseline_check_nonadjacent(sarvundole_set set, uint8_t order, const uint8_t *scalar, size_t bytes, const int8_t *digits, size_t places);
sarvundole_taped baseline_tape(sarvundole_set set, const int8_t *digits, size_t places, uint16_t *words, size_t room);
sarvundole_ran baseline_run(sarvundole_set set, const uint16_t *tape, size_t words, uint32_t modulus, uint32_t base, uint32_t *multiples,
                            size_t room);
sarvundole_ran baseline_run_powers(sarvundole_set set, const uint16_t *tape, size_t words, uint32_t modulus, uint32_t base, uint32_t inverse, uint32_t *powers,
                                   size_t room, uint32_t *inverse_powers, size_t inverse_room);
sarvundole_translated baseline_translate(sarvundole_set set, const uint16_t *tape, size_t count, uint16_t *words, size_t room);
sarvundole_ran baseline_run_second(sarvundole_set set, const uint16_t *tape, size_t words, uint32_t modulus, uint32_t base, uint32_t *multiples,
                                   size_t room);
sarvundole_joined baseline_joint(uint8_t order, const uint8_t *a, size_t a_bytes, const uint8_t *b, size_t b_bytes, int8_t *first, size_t first_places, int8_t *second,
                                 size_t second_places, uint16_t *words, size_t room);
sarvundole_ran baseline_run_joint(const uint16_t *tape, size_t words, uint32_t modulus, uint32_t first, uint32_t second, uint32_t *entries, size_t room);
sarvundole_reader baseline_reader_start(uint8_t width, uint8_t order, const uint8_t *scalar, size_t bytes);
sarvundole_stepped baseline_reader_next(const uint8_t *scalar, size_t bytes, sarvundole_reader reader);
sarvundole_reading baseline_read_at(uint8_t width, uint8_t order, const uint8_t *scalar, size_t bytes, uint16_t calls);
sarvundole_searched baseline_search(uint32_t number, uint8_t width);
sarvundole_chosen baseline_choose(uint8_t order, const uint8_t *scalar, size_t bytes, uint32_t entries);
sarvundole_picked baseline_lighter(uint8_t width, uint8_t order, const uint8_t *scalar, size_t bytes, const int8_t *first, size_t first_places, const int8_t *second,
                                   size_t second_places);
sarvundole_framed baseline_write(uint8_t version, const int8_t *digits, size_t places, uint8_t *line, size_t room);
sarvundole_parsed baseline_read(const uint8_t *line, size_t characters, int8_t *digits, size_t places);

#endif
