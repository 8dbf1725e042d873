/* From two numbers a and b to their rows, one tape and the residue of a g + b h, each step printed: what a signature check needs.
 *
 *     two_numbers [A B]        in hexadecimal, equally long; 57 and 22, if nothing is given
 *
 * Ends with 0; with 1 where a call refuses; with 2 where what is given are no two numbers. Both are told on standard error. */
#include "sarvundole.h"

#include <stdio.h>
#include <stdlib.h>
#include <string.h>

static const uint32_t MODULUS = 1000, G = 7, H = 11;

/* All memory is the caller's: these always suffice. One byte more is read than a call takes, so that the call tells that it is too much. */
static uint8_t a[SARVUNDOLE_MOST_BYTES + 1], b[SARVUNDOLE_MOST_BYTES + 1];
static int8_t first[SARVUNDOLE_MOST_PLACES], second[SARVUNDOLE_MOST_PLACES];
static uint16_t words[SARVUNDOLE_MOST_WORDS];
static uint32_t entries[SARVUNDOLE_JOINT_ENTRIES];

static void wrong(const char *why, const char *given) {
    fprintf(stderr, "two_numbers: %s: %s\nusage: two_numbers [A B]\n", why, given);
    exit(2);
}

static void ended(const char *call, unsigned refusal, unsigned place) {
    if (refusal == SARVUNDOLE_ACCEPTED) return;
    fprintf(stderr, "two_numbers: %s: refused with %u at place %u: %s\n", call, refusal, place, sarvundole_refusal_words(refusal));
    exit(1);
}

static unsigned value_of(char c, const char *hex) {
    static const char values[] = "0123456789abcdef0123456789ABCDEF";
    const char *at = c == '\0' ? NULL : strchr(values, c);
    if (at == NULL) wrong("no hexadecimal number", hex);
    return (unsigned)(at - values) % 16;
}

/* Reads pairs of hexadecimal digits; gives the count of bytes. */
static size_t bytes_of(const char *hex, uint8_t *to) {
    size_t count = strlen(hex) / 2;
    if (strlen(hex) % 2 != 0) wrong("an odd number of hexadecimal digits", hex);
    if (count > SARVUNDOLE_MOST_BYTES + 1) wrong("over 67 bytes", hex);
    for (size_t i = 0; i < count; i++) to[i] = (uint8_t)(16 * value_of(hex[2 * i], hex) + value_of(hex[2 * i + 1], hex));
    return count;
}

static void print_row(const char *name, const int8_t *row, size_t top) {
    printf("%s, highest place first:", name);
    for (size_t j = top; j-- > 0;) printf(" %d", row[j]);
    putchar('\n');
}

static void print_word(uint16_t word) {
    static const char *const names[] = {"double", "load", "load minus", "add", "subtract"}, *const of[] = {"g", "h", "(g + h)", "(g - h)"};
    unsigned code = word >> 12;
    if (code == 0) printf("  %s\n", names[code]);
    else printf("  %s %s\n", names[code], of[word & 0xFFFu]);
}

int main(int count, char **given) {
    if (count != 1 && count != 3) wrong("two numbers are wanted", count == 2 ? given[1] : "more is given");
    const size_t bytes = bytes_of(count > 1 ? given[1] : "39", a), other_bytes = bytes_of(count > 1 ? given[2] : "16", b);

    sarvundole_joined made = sarvundole_joint(SARVUNDOLE_HIGHEST_FIRST, a, bytes, b, other_bytes, first, SARVUNDOLE_MOST_PLACES, second, SARVUNDOLE_MOST_PLACES, words, SARVUNDOLE_MOST_WORDS);
    ended("joint", made.refusal, made.place);
    print_row("row of a", first, made.top);
    print_row("row of b", second, made.top);
    printf("nonzero columns %u, top %u\n", made.columns, made.top);
    printf("tape of %u words:\n", made.words);
    for (size_t i = 0; i < made.words; i++) print_word(words[i]);

    sarvundole_ran ran = sarvundole_run_joint(words, made.words, MODULUS, G, H, entries, SARVUNDOLE_JOINT_ENTRIES);
    ended("run_joint", ran.refusal, ran.place);
    printf("doublings %u, additions %u; of the entries: doublings %u, additions %u\n", ran.doublings, ran.additions, ran.cost.doublings, ran.cost.additions);
    printf("residue %lu of a times %lu plus b times %lu modulo %lu\n", (unsigned long)ran.residue, (unsigned long)G, (unsigned long)H, (unsigned long)MODULUS);
    if (fflush(stdout) != 0) {
        perror("two_numbers: standard output");
        return 1;
    }
    return 0;
}
