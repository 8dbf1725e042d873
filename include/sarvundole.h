/* Sarvundole: recodes a public check number to signed digits, checks digits made elsewhere, makes a step tape of a string and runs
 * a tape over residues or over powers; recodes and runs for two scalars together; translates a tape to the chip without subtraction and runs its words; writes a string as a line of hexadecimal and reads such a line. C99 and C++.
 *
 * Scalars come as bytes, 0 to 66 of them, in either order: each call on a scalar is told which byte comes first, 0 for the highest, anything
 * else for the lowest. L bytes have n = 8L bits. A width w is 2 to 8. The digits of width w are 0 and
 * the odd numbers of absolute value below 2^(w-1). A digit set has a width w, by which nonzero digits stand apart, and a largest digit
 * m: its digits are 0 and the odd numbers of absolute value up to m. m is odd, from 2^(w-1) - 1, the largest digit of width w, to
 * 2^w - 1; at width 8 it is 127. A string has place 0 first in its buffer, place j is worth 2^j, and each place is
 * a signed byte. A recoded string has exactly n + 1 places, at most 529. A tape has at most 1,057 words.
 *
 * Every call takes every input. It answers with `refusal` 0, or with the number of the first rule that the input breaks, tried in
 * the order in which each call here lists them. A refusal has its number, the place where the rule names one and otherwise 0, and 0 in every other field; lent
 * memory then stays as lent. Places of a buffer beyond those named are never touched.
 *
 * What is lent is a pointer and a count of elements. No value of any argument is outside what a call takes; what C cannot let a call look
 * at is the memory itself, so that is the caller's part: as many elements as the count says have to be there, aligned for their type, to
 * be read, or to be read and written where they are lent for writing. A count may be 0; its pointer is then not used, and may be null.
 *
 * What is lent for writing may share no byte with anything else that is lent in the same call. Nothing is promised where it does, not even that
 * the call stays inside what was lent: run, for one, judges its words first and stores multiples after. What is lent for reading alone may
 * overlap freely.
 *
 * No call keeps a pointer, allocates, or calls back; calls on separate memory may run at the same time. The archive asks for one symbol,
 * memset. The steps depend on the digits: only public numbers belong here. */
#ifndef SARVUNDOLE_H
#define SARVUNDOLE_H

#include <stddef.h>
#include <stdint.h>

/* This header's version. */
#define SARVUNDOLE_VERSION "3.2.0"

#ifdef __cplusplus
extern "C" {
#endif

/* The orders of a scalar's bytes. */
enum sarvundole_order {
    SARVUNDOLE_HIGHEST_FIRST = 0,
    SARVUNDOLE_LOWEST_FIRST = 1 /* and every other byte */
};

/* The forms. */
enum sarvundole_form {
    SARVUNDOLE_MOF = 1,    /* the digit at place j is d_(j-1) - d_j; its width is 2 */
    SARVUNDOLE_WNAF = 2,   /* any w consecutive places hold at most one nonzero */
    SARVUNDOLE_WMOF = 3,   /* windows of w places from the top down */
    SARVUNDOLE_CLOSEST = 4, /* the closest u * 2^i is taken off, on a tie the one of larger absolute value */
    SARVUNDOLE_CLOSEST_SMALLER = 5 /* the same, on a tie the one of smaller absolute value */
};

/* The refusals. 6 was struck, since n + 1 places always suffice, and is not used again. */
enum sarvundole_refusal {
    SARVUNDOLE_ACCEPTED = 0,
    SARVUNDOLE_BAD_FORM = 1,         /* form is not 1..5 */
    SARVUNDOLE_BAD_WIDTH = 2,        /* width outside 2..8, or not 2 with form 1; in the search, width not 2 or 3 */
    SARVUNDOLE_LONG_SCALAR = 3,      /* scalar over 66 bytes; in the search, number over 127 */
    SARVUNDOLE_FEW_PLACES = 4,       /* digit buffer under n + 1 places; in read, under the place count */
    SARVUNDOLE_FEW_MARKS = 5,        /* marks buffer under 9 words */
    SARVUNDOLE_LONG_STRING = 7,      /* digit string over 529 places */
    SARVUNDOLE_BAD_DIGIT = 8,        /* a digit not of the set; place is the lowest such */
    SARVUNDOLE_OTHER_WORTH = 9,      /* string not worth the scalar */
    SARVUNDOLE_NEAR_DIGITS = 10,     /* two nonzero digits fewer than w places apart; place is the lower of the lowest such pair */
    SARVUNDOLE_SHORT_TAPE = 11,      /* tape buffer too short for all its words; in translate, under the words of its source */
    SARVUNDOLE_ZERO_MODULUS = 12,    /* modulus 0 */
    SARVUNDOLE_LONG_TAPE = 13,       /* tape over 1,057 words */
    SARVUNDOLE_FEW_MULTIPLES = 14,   /* multiples buffer under (m + 1) / 2 entries, which are 2^(w-2) at a whole width; in run_powers, either buffer; in run_second, under twice as many; in run_joint, under 4 */
    SARVUNDOLE_BAD_WORD = 15,        /* a bad word; place is the first such; in run_second, by the other chip's codes */
    SARVUNDOLE_MALFORMED = 16,       /* line not all hexadecimal, not opening with 00 or A2, or lacking a field or part of one */
    SARVUNDOLE_NO_INVERSE = 17,      /* product of base and inverse not 1 modulo m */
    SARVUNDOLE_UNEQUAL_SCALARS = 18, /* scalars of unequal lengths */
    SARVUNDOLE_BAD_GROUP = 19,       /* group order empty, worth zero or over 66 bytes */
    SARVUNDOLE_NOT_BELOW = 20,       /* scalar not below the group order, as numbers */
    SARVUNDOLE_UNFIT_FRAME = 21,     /* places not rising, a zero digit, a place not below the count, or weight or top that does not fit */
    SARVUNDOLE_BAD_SET = 22,         /* directly after 2: no digit set has this width and largest digit, or not the whole width's where the form is not 2 */
    SARVUNDOLE_NO_WIDTH_FITS = 23,   /* no width fits: entries 0 */
    SARVUNDOLE_SHORT_LINE = 24       /* line buffer too short */
};

/* A refusal's number in words, for a log; never null. */
static inline const char *sarvundole_refusal_words(unsigned refusal) {
    switch (refusal) {
    case SARVUNDOLE_ACCEPTED: return "accepted";
    case SARVUNDOLE_BAD_FORM: return "the form is not 1 to 5";
    case SARVUNDOLE_BAD_WIDTH: return "the width is not one that this call takes";
    case SARVUNDOLE_LONG_SCALAR: return "the scalar is over 66 bytes, or the number over 127";
    case SARVUNDOLE_FEW_PLACES: return "the digit buffer is too short";
    case SARVUNDOLE_FEW_MARKS: return "the marks buffer is under 9 words";
    case SARVUNDOLE_LONG_STRING: return "the digit string is over 529 places";
    case SARVUNDOLE_BAD_DIGIT: return "a digit is not of the set";
    case SARVUNDOLE_OTHER_WORTH: return "the string is not worth the scalar";
    case SARVUNDOLE_NEAR_DIGITS: return "two nonzero digits stand too near";
    case SARVUNDOLE_SHORT_TAPE: return "the tape buffer is too short";
    case SARVUNDOLE_ZERO_MODULUS: return "the modulus is 0";
    case SARVUNDOLE_LONG_TAPE: return "the tape is over 1,057 words";
    case SARVUNDOLE_FEW_MULTIPLES: return "the multiples buffer, or a powers buffer, is too short";
    case SARVUNDOLE_BAD_WORD: return "a word of the tape is bad";
    case SARVUNDOLE_MALFORMED: return "the line is malformed";
    case SARVUNDOLE_NO_INVERSE: return "the product of base and inverse is not 1";
    case SARVUNDOLE_UNEQUAL_SCALARS: return "the two scalars are not equally long";
    case SARVUNDOLE_BAD_GROUP: return "the group order is empty, worth zero or over 66 bytes";
    case SARVUNDOLE_NOT_BELOW: return "the scalar is not below the group order";
    case SARVUNDOLE_UNFIT_FRAME: return "the parts of the frame do not fit together";
    case SARVUNDOLE_BAD_SET: return "no digit set has this width and largest digit, or the form needs a whole width";
    case SARVUNDOLE_NO_WIDTH_FITS: return "no width fits into no entries";
    case SARVUNDOLE_SHORT_LINE: return "the line buffer is too short";
    default: return "no refusal of this library";
    }
}

/* The limits, for buffers that always suffice. A tape has top - 1 + weight words, 0 if the weight is 0; as recode and the checks tell both,
 * a tape's size is known before it is made. A buffer of SARVUNDOLE_MOST_WORDS, 1,057, always does. */
#define SARVUNDOLE_LEAST_WIDTH 2
#define SARVUNDOLE_MOST_WIDTH 8
#define SARVUNDOLE_MOST_BYTES 66
#define SARVUNDOLE_MOST_PLACES 529
#define SARVUNDOLE_MARK_WORDS 9
#define SARVUNDOLE_MOST_WORDS 1057
#define SARVUNDOLE_MOST_MULTIPLES 64
#define SARVUNDOLE_MOST_SECOND_MULTIPLES 128  /* with the negatives, for run_second */
#define SARVUNDOLE_JOINT_ENTRIES 4
#define SARVUNDOLE_MOST_PLAIN_LINE 1068  /* characters of version 1 */
#define SARVUNDOLE_MOST_LINE 3188        /* characters of either version */

/* A digit set: its width and its largest digit. Sets between two widths have form 2 alone; the chip holds (largest + 1) / 2 multiples. */
typedef struct sarvundole_set {
    uint8_t width;
    uint8_t largest;
} sarvundole_set;

/* The set of a whole width. Of a byte that is no width it has that byte, and 2 is given. */
static inline sarvundole_set sarvundole_whole(uint8_t width) {
    sarvundole_set set;
    set.width = width;
    set.largest = (uint8_t)(width < SARVUNDOLE_LEAST_WIDTH || width > SARVUNDOLE_MOST_WIDTH ? 0 : (1u << (width - 1)) - 1);
    return set;
}

/* What recode and the checks answer: the weight is the number of nonzero digits, the top 1 + the highest nonzero place, 0 if none. */
typedef struct sarvundole_tally {
    uint8_t refusal;
    uint16_t place;
    uint16_t weight;
    uint16_t top;
} sarvundole_tally;

/* What tape answers: the words written, the doublings (top - 1, or 0) and the additions (weight - 1, or 0; subtracts included). */
typedef struct sarvundole_taped {
    uint8_t refusal;
    uint16_t place;
    uint16_t words;
    uint16_t doublings;
    uint16_t additions;
} sarvundole_taped;

/* What the multiples cost: to make 3g, 5g and so on from g, it is doubled once, and that double added for each. One doubling, or 0 where g is
 * the only multiple, with the largest digit 1; one addition fewer than there are multiples, 2^(w-2) - 1 at a whole width. */
typedef struct sarvundole_cost {
    uint16_t doublings;
    uint16_t additions;
} sarvundole_cost;

/* What translate answers: the words written, as many as the tape has. */
typedef struct sarvundole_translated {
    uint8_t refusal;
    uint16_t place;
    uint16_t words;
} sarvundole_translated;

/* What run, run_powers, run_second and run_joint answer: the residue reached, the doublings and additions done, and the cost of the multiples, which those two leave out. */
typedef struct sarvundole_ran {
    uint8_t refusal;
    uint16_t place;
    uint32_t residue;
    uint16_t doublings;
    uint16_t additions;
    sarvundole_cost cost;
} sarvundole_ran;

/* What joint answers: the nonzero columns, the top (1 + the highest nonzero column's place, 0 if none), the words written, the doublings (top - 1, or 0) and the
 * additions (columns - 1, or 0; subtracts included). */
typedef struct sarvundole_joined {
    uint8_t refusal;
    uint16_t place;
    uint16_t columns;
    uint16_t top;
    uint16_t words;
    uint16_t doublings;
    uint16_t additions;
} sarvundole_joined;

/* What read_at answers: `given` is 1 and `digit` the digit, or `given` is 0 where the reader is done. */
typedef struct sarvundole_reading {
    uint8_t refusal;
    uint8_t given;
    int8_t digit;
} sarvundole_reading;

/* A reader between two calls. The caller keeps it as it was given, beside the scalar that it was started from; `refusal` alone is to be
 * read: 0, or the number of the rule that the input breaks. `place` counts the places to come, and those from `floor` up belong to one
 * window, whose digit `pending` stands at `spot`; `order` is that of the scalar's bytes, 0 or 1. */
typedef struct sarvundole_reader {
    uint16_t place;
    uint16_t spot;
    uint16_t floor;
    uint8_t width;
    int8_t pending;
    uint8_t refusal;
    uint8_t order;
} sarvundole_reader;

/* What reader_next answers: the reader after the call, and `given` and `digit` as read_at's. */
typedef struct sarvundole_stepped {
    sarvundole_reader reader;
    uint8_t given;
    int8_t digit;
} sarvundole_stepped;

/* What search answers: the least weight. */
typedef struct sarvundole_searched {
    uint8_t refusal;
    uint8_t weight;
} sarvundole_searched;

/* What write answers: the line's length in characters. */
typedef struct sarvundole_framed {
    uint8_t refusal;
    uint16_t length;
} sarvundole_framed;

/* What read answers: the weight, the top and the place count of a string, and `stated` 0; or for a refused line the number that it
 * gives in `stated`, and 0 in the other fields. */
typedef struct sarvundole_parsed {
    uint8_t refusal;
    uint8_t stated;
    uint16_t weight;
    uint16_t top;
    uint16_t places;
} sarvundole_parsed;

/* What choose answers: a whole width, and its total. */
typedef struct sarvundole_chosen {
    uint8_t refusal;
    uint8_t width;
    uint16_t total;
} sarvundole_chosen;

/* What lighter answers: `which` is 0 for the first string and 1 for the second, and the part is its `places` lowest places. In a refusal both are 0: an empty part of
 * the first. */
typedef struct sarvundole_picked {
    uint8_t refusal;
    uint8_t which;
    uint16_t places;
} sarvundole_picked;

/* Recodes any scalar, whatever its group: for tests. A check number is one only below its group's order: sarvundole_recode_below. Writes its n + 1 digits, and marks nonzero places in nine 64-bit words: bit j mod 64 of word j / 64 is set exactly
 * when place j is nonzero. Lent: the scalar; for writing, at least n + 1 places and 9 words. Form 2 in a set: at an
 * odd remaining number its signed residue modulo 2^(w+1) if that is of the set, else the one modulo 2^w. Refusals, tried in this order: 1, 2, 22, 3, 4, 5. */
sarvundole_tally sarvundole_recode(uint8_t form, sarvundole_set set, uint8_t order, const uint8_t *scalar, size_t bytes, int8_t *digits,
                                   size_t places, uint64_t *marks, size_t words);

/* Recodes a check number: a scalar below the order of its group. The order comes highest byte first, whatever the scalar's order of bytes, in 1 to 66 bytes; the two
 * are compared as numbers, whatever their lengths and the bytes of nought before them. Accepted, it answers and writes exactly what sarvundole_recode does. Lent:
 * the scalar and the group order; for writing, at least n + 1 places and 9 words. Refusals, tried in this order: 1, 2, 22, 3, 19, 20, 4, 5. */
sarvundole_tally sarvundole_recode_below(uint8_t form, sarvundole_set set, uint8_t order, const uint8_t *scalar, size_t bytes, const uint8_t *group,
                                         size_t group_bytes, int8_t *digits, size_t places, uint64_t *marks, size_t words);

/* Says yes exactly when the digits are of the set and the string, of 0 to 529 places, is worth the scalar. Nothing is written.
 * Lent: the scalar and the string. Refusals, tried in this order: 2, 22, 3, 7, 8, 9. */
sarvundole_tally sarvundole_check(sarvundole_set set, uint8_t order, const uint8_t *scalar, size_t bytes, const int8_t *digits, size_t places);

/* The same, and no two nonzero digits stand fewer than w places apart, w the set's width. Refusals, tried in this order: 2, 22, 3, 7, 8, 9, 10. */
sarvundole_tally sarvundole_check_nonadjacent(sarvundole_set set, uint8_t order, const uint8_t *scalar, size_t bytes, const int8_t *digits,
                                              size_t places);

/* Turns a string into a step tape. A word is 16 bits: the code in the top four, the entry e in the low twelve, e standing for the odd
 * multiple 2e + 1. Codes: 0 double (e is 0), 1 load, 2 load negated, 3 add, 4 subtract. The highest nonzero digit gives a load; each
 * lower place a double, followed by an add or subtract if its digit is nonzero. A zero string gives no words. No word beyond the count
 * is written. Lent: the string; for writing, room for all the words. Refusals, tried in this order: 2, 22, 7, 8, 11; 11 does not tell how many there are. */
sarvundole_taped sarvundole_tape(sarvundole_set set, const int8_t *digits, size_t places, uint16_t *words, size_t room);

/* Runs a tape over residues. All its words are judged before a multiple is stored; then the multiples (2e + 1) * base mod modulus are
 * stored, (largest + 1) / 2 of them, for an empty tape too. The residue is the least nonnegative one of the tape's value times the base; an empty
 * tape gives 0. Lent: the tape; for writing, at least so many multiples. Refusals, tried in this order: 2, 22, 12, 13, 14, 15. */
sarvundole_ran sarvundole_run(sarvundole_set set, const uint16_t *tape, size_t words, uint32_t modulus, uint32_t base, uint32_t *multiples,
                              size_t room);

/* Translates a tape that sarvundole_run accepts to the words of the chip without subtraction, which loads, adds and doubles alone and holds twice the entries: e stands for
 * 2e + 1 below (largest + 1) / 2, and from there on for the negative of the entry so much lower. Codes 0, 1 and 3 stay; 2 becomes 1 and 4 becomes 3, with
 * (largest + 1) / 2 added to the entry. There are as many words as the tape has, and none beyond them is written. All words and the room are judged before one is
 * written. Lent: the tape; for writing, room for as many words. Refusals, tried in this order: 2, 22, 13, 15, 11. */
sarvundole_translated sarvundole_translate(sarvundole_set set, const uint16_t *tape, size_t count, uint16_t *words, size_t room);

/* Runs the words of the chip without subtraction over residues. A word is good if its code is 0, 1 or 3, its entry is below largest + 1, a double's entry is 0, and it is a
 * load exactly when it is the first. All words are judged before a multiple is stored; then the multiples (2e + 1) * base mod modulus are stored, and after them their
 * negatives mod modulus, largest + 1 entries in all, for an empty tape too. For the translation of a tape it answers what sarvundole_run answers for the tape; the cost leaves
 * out negating. Lent: the words; for writing, at least largest + 1 entries. Refusals, tried in this order: 2, 22, 12, 13, 14, 15. */
sarvundole_ran sarvundole_run_second(sarvundole_set set, const uint16_t *tape, size_t words, uint32_t modulus, uint32_t base, uint32_t *multiples,
                                     size_t room);

/* Writes the joint sparse form of two scalars of equal length, told in one order of bytes: two rows of digits -1, 0, 1, n + 1 places each, the first worth a, the
 * second worth b, with the fewest nonzero columns of all such pairs of rows. Writes its tape too, in the words of sarvundole_tape over the entries 0 to 3, which
 * stand for g, h, g + h and g - h: a column (1, 0), (0, 1), (1, 1) or (1, -1) has entry 0, 1, 2 or 3, and its negative the same by load negated or subtract. All
 * room is judged before a digit is written. Lent: the scalars; for writing, at least n + 1 places for each row, and room for all the words, of which there are at
 * most SARVUNDOLE_MOST_WORDS. Refusals, tried in this order: 3 (either scalar), 18, 4 (either row), 11. */
sarvundole_joined sarvundole_joint(uint8_t order, const uint8_t *a, size_t a_bytes, const uint8_t *b, size_t b_bytes, int8_t *first,
                                   size_t first_places, int8_t *second, size_t second_places, uint16_t *words, size_t room);

/* Runs a tape over residues with two bases g and h, `first` and `second`. All its words are judged before an entry is stored; then g, h, g + h and g - h mod modulus
 * are stored, for an empty tape too. The residue is the least nonnegative one of A * g + B * h, where A and B are how often the words take g and h; the tape of
 * sarvundole_joint gives a * g + b * h. An empty tape gives 0. The cost is two additions and no doubling. Lent: the tape; for writing, at least 4 entries.
 * Refusals: 12, 13, 14, 15. */
sarvundole_ran sarvundole_run_joint(const uint16_t *tape, size_t words, uint32_t modulus, uint32_t first, uint32_t second, uint32_t *entries,
                                    size_t room);

/* Runs a tape over powers: a double squares, an add multiplies by an odd power of the base, a subtract by one of the inverse. All words are judged, and that base times
 * inverse is 1 modulo the modulus is tested, before a power is stored; then base^(2e + 1) and inverse^(2e + 1) mod modulus are stored, an entry for each positive digit,
 * for an empty tape too. `residue` is the base to the tape's value, or for a negative value the inverse to the positive power; an empty tape gives 1 modulo the modulus.
 * Squarings are reported as doublings, multiplications as additions, and the cost is that of both sets of powers, twice run's. Lent: the tape; for writing, at least
 * (largest + 1) / 2 powers of either. Refusals, tried in this order: 2, 22, 12, 13, 14 for either buffer, 15, 17. */
sarvundole_ran sarvundole_run_powers(sarvundole_set set, const uint16_t *tape, size_t words, uint32_t modulus, uint32_t base, uint32_t inverse,
                                     uint32_t *powers, size_t room, uint32_t *inverse_powers, size_t inverse_room);

/* Starts a reader, which gives wMOF one digit a call, places n down to 0, then says done at every later call. Started from refused input,
 * it holds the number and is done at once. Lent: the scalar. Refusals: 2, 3. */
sarvundole_reader sarvundole_reader_start(uint8_t width, uint8_t order, const uint8_t *scalar, size_t bytes);

/* The reader's next call. The scalar is lent again. Lent the one that the reader was started from, with what the start or the last call
 * gave, it gives the next digit of that scalar. Any other reader and scalar are taken too. It then gives `pending` at `spot` and 0 at each other place while `place` is over `floor`;
 * then wMOF's window that opens under a `place` from 1 to 529 at a width of 2 to 8, where bits above the scalar are 0; and it is done where
 * no window can open. Lent: the scalar. */
sarvundole_stepped sarvundole_reader_next(const uint8_t *scalar, size_t bytes, sarvundole_reader reader);

/* What a reader's call after `calls` others gives, for a caller that keeps no reader. It reads from the top each time: a whole sequence
 * costs less by reader_next. Lent: the scalar. Refusals: 2, 3. */
sarvundole_reading sarvundole_read_at(uint8_t width, uint8_t order, const uint8_t *scalar, size_t bytes, uint16_t calls);

/* Answers the least weight of any string of nine places that is worth a number up to 127, at width 2 or 3. Refusals: 2, 3. */
sarvundole_searched sarvundole_search(uint32_t number, uint8_t width);

/* Chooses the width for a scalar and a number of entries that the chip can hold: of the whole widths 2 to 8 whose 2^(w-2) multiples fit the one whose total is least, the
 * smaller on a tie. The total is the doublings and additions of the tape of the scalar's wNAF, and both costs of the multiples. No memory is needed. Lent: the scalar.
 * Refusals: 3, 23. */
sarvundole_chosen sarvundole_choose(uint8_t order, const uint8_t *scalar, size_t bytes, uint32_t entries);

/* The lighter of two strings that were made for one scalar, the first on a tie, cut above its highest nonzero place: which string, and how many of its places. Nothing
 * is copied or written. Both strings are checked first, as check does. Lent: the scalar and both strings, which may be one. Refusals, in this order: 2, 3, then 7, 8, 9 of the
 * first string, then 7, 8, 9 of the second. */
sarvundole_picked sarvundole_lighter(uint8_t width, uint8_t order, const uint8_t *scalar, size_t bytes, const int8_t *first, size_t first_places,
                                     const int8_t *second, size_t second_places);

/* Writes a string as a line of hexadecimal pairs in capitals, without a line feed and without a null character. Version 1 is 00, weight,
 * top (2 bytes each), then the digits, place 0 first, a byte each; version 2 is A2, weight, top, the place count (2 bytes each), then for
 * each nonzero digit, lowest place first, its place (2 bytes) and the digit. `version` 1 asks for version 1, anything else for version 2.
 * A digit may be any signed byte. No character beyond the length is written. Lent: the string; for writing, room for the line.
 * Refusals: 7, 24; 24 does not tell how long the line is. */
sarvundole_framed sarvundole_write(uint8_t version, const int8_t *digits, size_t places, uint8_t *line, size_t room);

/* Reads a line of either version, in either case, without its line feed. A line of one byte, 01 to 10 but not 06 (hexadecimal), is that of a
 * refusal: it is good, gives that number in `stated` and writes no digit. No digit beyond the place count is written. Lent: the line;
 * for writing, at least as many places as the line has. Refusals, in this order: 16, 7, 21, 4. */
sarvundole_parsed sarvundole_read(const uint8_t *line, size_t characters, int8_t *digits, size_t places);

#ifdef __cplusplus
}
#endif

#endif
