/* From a check number to its digits, its tape and a residue, each step printed.
 *
 *     check_number [WIDTH HEX [GROUP]]        13 at width 2, if nothing is given
 *
 * With GROUP, the order of the curve's group in hexadecimal, the number has to lie below it, as a board's has to. Without, any number is taken, as for a test.
 * Ends with 0; with 1 where a call refuses; with 2 where what is given is no width and number. Both are told on standard error. */
#include "sarvundole.h"

#include <stdio.h>
#include <stdlib.h>
#include <string.h>

static const uint32_t MODULUS = 1000, BASE = 7;

/* All memory is the caller's: these always suffice. */
static uint8_t scalar[SARVUNDOLE_MOST_BYTES], group[SARVUNDOLE_MOST_BYTES];
static int8_t digits[SARVUNDOLE_MOST_PLACES];
static uint64_t marks[SARVUNDOLE_MARK_WORDS];
static uint16_t words[SARVUNDOLE_MOST_WORDS];
static uint32_t multiples[SARVUNDOLE_MOST_MULTIPLES];

static void wrong(const char *why, const char *given) {
    fprintf(stderr, "check_number: %s: %s\nusage: check_number [WIDTH HEX [GROUP]]\n", why, given);
    exit(2);
}

static void ended(const char *call, unsigned refusal, unsigned place) {
    if (refusal == SARVUNDOLE_ACCEPTED) return;
    fprintf(stderr, "check_number: %s: refused with %u at place %u: %s\n", call, refusal, place, sarvundole_refusal_words(refusal));
    exit(1);
}

static uint8_t width_of(const char *given) {
    if (strlen(given) != 1 || given[0] < '0' + SARVUNDOLE_LEAST_WIDTH || given[0] > '0' + SARVUNDOLE_MOST_WIDTH) wrong("no width from 2 to 8", given);
    return (uint8_t)(given[0] - '0');
}

static unsigned value_of(char c, const char *hex) {
    static const char values[] = "0123456789abcdef0123456789ABCDEF";
    const char *at = c == '\0' ? NULL : strchr(values, c);
    if (at == NULL) wrong("no hexadecimal number", hex);
    return (unsigned)(at - values) % 16;
}

/* Reads pairs of hexadecimal digits to `to`, which has room for 66; gives the count of bytes. */
static size_t bytes_of(const char *hex, uint8_t *to) {
    size_t count = strlen(hex) / 2;
    if (strlen(hex) % 2 != 0) wrong("an odd number of hexadecimal digits", hex);
    if (count > SARVUNDOLE_MOST_BYTES) wrong("over 66 bytes", hex);
    for (size_t i = 0; i < count; i++) to[i] = (uint8_t)(16 * value_of(hex[2 * i], hex) + value_of(hex[2 * i + 1], hex));
    return count;
}

static void print_word(uint16_t word) {
    static const char *const names[] = {"double", "load", "load minus", "add", "subtract"};
    unsigned code = word >> 12, multiple = 2 * (word & 0xFFFu) + 1;
    if (code == 0) printf("  %s\n", names[code]);
    else printf("  %s %u\n", names[code], multiple);
}

int main(int count, char **given) {
    if (count != 1 && count != 3 && count != 4) wrong("a width and a number are wanted", count == 2 ? given[1] : "more is given");
    const uint8_t width = width_of(count > 1 ? given[1] : "2");
    const size_t bytes = bytes_of(count > 1 ? given[2] : "0D", scalar), places = 8 * bytes + 1;

    sarvundole_tally recoded =
        count == 4 ? sarvundole_recode_below(SARVUNDOLE_WNAF, sarvundole_whole(width), SARVUNDOLE_HIGHEST_FIRST, scalar, bytes, group, bytes_of(given[3], group), digits, places, marks, SARVUNDOLE_MARK_WORDS)
                   : sarvundole_recode(SARVUNDOLE_WNAF, sarvundole_whole(width), SARVUNDOLE_HIGHEST_FIRST, scalar, bytes, digits, places, marks, SARVUNDOLE_MARK_WORDS);
    ended(count == 4 ? "recode_below" : "recode", recoded.refusal, recoded.place);
    printf("digits, highest place first:");
    for (size_t j = recoded.top; j-- > 0;) printf(" %d", digits[j]);
    printf("\nweight %u, top %u\n", recoded.weight, recoded.top);

    sarvundole_tally checked = sarvundole_check_nonadjacent(sarvundole_whole(width), SARVUNDOLE_HIGHEST_FIRST, scalar, bytes, digits, places);
    ended("check_nonadjacent", checked.refusal, checked.place);
    printf("checked: worth the number, and nonzero digits at least %u places apart\n", width);

    sarvundole_taped taped = sarvundole_tape(sarvundole_whole(width), digits, places, words, SARVUNDOLE_MOST_WORDS);
    ended("tape", taped.refusal, taped.place);
    printf("tape of %u words:\n", taped.words);
    for (size_t i = 0; i < taped.words; i++) print_word(words[i]);

    sarvundole_ran ran = sarvundole_run(sarvundole_whole(width), words, taped.words, MODULUS, BASE, multiples, SARVUNDOLE_MOST_MULTIPLES);
    ended("run", ran.refusal, ran.place);
    printf("doublings %u, additions %u; of the multiples: doublings %u, additions %u\n", ran.doublings, ran.additions, ran.cost.doublings, ran.cost.additions);
    printf("residue %lu of the number times %lu modulo %lu\n", (unsigned long)ran.residue, (unsigned long)BASE, (unsigned long)MODULUS);
    if (fflush(stdout) != 0) {
        perror("check_number: standard output");
        return 1;
    }
    return 0;
}
