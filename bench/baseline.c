/* The baseline: every call of the library as plain C, written for speed by hand and proved by nothing. It goes about each call as the library does, so that
 * the two differ in their code and not in their method. */
#include "baseline.h"

#include <string.h>

static int bad_width(uint8_t width) { return width < SARVUNDOLE_LEAST_WIDTH || width > SARVUNDOLE_MOST_WIDTH; }

/* 2 for a width that is none, 22 for a pair that is no set, else 0. */
static uint8_t bad_set(sarvundole_set set) {
    if (bad_width(set.width)) return 2;
    unsigned whole = (1u << (set.width - 1)) - 1, most = set.width == SARVUNDOLE_MOST_WIDTH ? whole : 2 * whole + 1;
    return set.largest % 2 && set.largest >= whole && set.largest <= most ? 0 : 22;
}

static size_t smaller(size_t a, size_t b) { return a < b ? a : b; }

/* ---- the scalar's bits */
/* Byte q from the low end, 0 above the scalar. */
static unsigned byte_at(uint8_t order, const uint8_t *s, size_t bytes, size_t q) { return q < bytes ? s[order ? q : bytes - 1 - q] : 0; }

/* The `count` bits from place i up: at most nine, so they lie in two bytes. */
static unsigned bits_at(uint8_t order, const uint8_t *s, size_t bytes, size_t i, unsigned count) {
    unsigned both = byte_at(order, s, bytes, i / 8 + 1) << 8 | byte_at(order, s, bytes, i / 8);
    return both >> i % 8 & ((1u << count) - 1);
}

/* The w + 1 bits from place i down, zeros under place 0. */
static unsigned window_at(uint8_t order, const uint8_t *s, size_t bytes, size_t i, unsigned w) {
    return i >= w ? bits_at(order, s, bytes, i - w, w + 1) : bits_at(order, s, bytes, 0, (unsigned)i + 1) << (w - i);
}

/* Eight bytes from byte q up, counted from the low end, by one load. */
static uint64_t load(uint8_t order, const uint8_t *s, size_t bytes, size_t q) {
    uint64_t x;
    memcpy(&x, s + (order ? q : bytes - 8 - q), sizeof x);
    return order ? x : __builtin_bswap64(x);
}

/* The same from any byte. Where the scalar ends among them, its highest eight have the rest, if it has so many. */
static uint64_t word_at(uint8_t order, const uint8_t *s, size_t bytes, size_t q) {
    if (q + 8 <= bytes) return load(order, s, bytes, q);
    if (q >= bytes) return 0;
    if (bytes >= 8) return load(order, s, bytes, bytes - 8) >> 8 * (8 + q - bytes);
    uint64_t x = 0;
    for (size_t k = bytes; k-- > q;) x = x << 8 | byte_at(order, s, bytes, k);
    return x;
}

/* A stretch is the 56 bits from place i up: wherever it starts, it lies in eight bytes. */
enum { STRETCH = 56 };

static uint64_t stretch(uint8_t order, const uint8_t *s, size_t bytes, size_t i) {
    return word_at(order, s, bytes, i / 8) >> i % 8 & (((uint64_t)1 << STRETCH) - 1);
}

/* The bits from place i - w up: those under place 0 are zeros. */
static uint64_t stretch_under(uint8_t order, const uint8_t *s, size_t bytes, size_t i, unsigned w) {
    size_t from = i < w ? 0 : i - w;
    return stretch(order, s, bytes, from) << (from + w - i);
}

/* The lowest set bit, or the bit count where none is. */
static size_t lowest(uint8_t order, const uint8_t *s, size_t bytes) {
    for (size_t q = 0; q < bytes; q++)
        if (byte_at(order, s, bytes, q)) return 8 * q + (size_t)__builtin_ctz(byte_at(order, s, bytes, q));
    return 8 * bytes;
}

/* ---- recode: all places are cleared first, and a digit is put here and there. A string goes by value, so that its counts stay in registers. */
typedef struct {
    int8_t *digits;
    uint64_t *marks;
    unsigned weight, top;
    size_t left; /* the places left, for the forms that go from the top down */
} string;

static inline void put(string *d, size_t place, int digit) {
    d->digits[place] = (int8_t)digit;
    d->marks[place / 64] |= (uint64_t)1 << place % 64;
    d->weight++;
}

/* wNAF, from the lowest place up. x is what remains from place i on, as far as the stretch goes; raised by half the span of a digit, it has the digit in its low bits. */
static string wnaf(string d, uint8_t order, const uint8_t *s, size_t bytes, unsigned w) {
    const uint64_t half = (uint64_t)1 << (w - 1);
    const size_t places = 8 * bytes + 1;
    unsigned carry = 0;
    for (size_t i = 0; i < places;) {
        size_t last = smaller(i + STRETCH - w, places - 1);
        uint64_t x = stretch(order, s, bytes, i) + carry;
        while (x) {
            unsigned zeros = (unsigned)__builtin_ctzll(x);
            size_t at = i + zeros;
            if (at > last) break;
            uint64_t raised = (x >> zeros) + half, rest = raised & (2 * half - 1);
            put(&d, at, (int)rest - (int)half);
            carry = rest < half;
            x = raised >> w;
            d.top = (unsigned)at + 1;
            i = at + w;
        }
        if (i <= last) i = last + 1;
    }
    return d;
}

/* The same in a set between two widths, raised by the largest digit: where what is left over a span of w + 1 bits is more than twice that digit, the digit is the residue of w bits. */
static string between(string d, uint8_t order, const uint8_t *s, size_t bytes, unsigned w, unsigned largest) {
    const uint64_t span = (uint64_t)2 << w;
    const size_t places = 8 * bytes + 1;
    unsigned carry = 0;
    for (size_t i = 0; i < places;) {
        size_t last = smaller(i + STRETCH - 1 - w, places - 1);
        uint64_t x = stretch(order, s, bytes, i) + carry;
        while (x) {
            unsigned zeros = (unsigned)__builtin_ctzll(x);
            size_t at = i + zeros;
            if (at > last) break;
            uint64_t raised = (x >> zeros) + largest, rest = raised & (span - 1), far = rest > 2 * largest, over = largest + (far << w);
            put(&d, at, (int)rest - (int)over);
            carry = rest < over;
            x = 2 * (raised >> w >> 1) + far;
            d.top = (unsigned)at + 1;
            i = at + w;
        }
        if (i <= last) i = last + 1;
    }
    return d;
}

/* Of the first `count` places of stretch x, those whose bit differs from the one under it, told `tail` places higher up. */
static uint64_t opened(unsigned tail, uint64_t x, size_t count) { return ((x ^ x >> 1) >> tail & (((uint64_t)1 << count) - 1)) << tail; }

static unsigned highest(uint64_t opens) { return 63 - (unsigned)__builtin_clzll(opens); }

static string mof(string d, uint8_t order, const uint8_t *s, size_t bytes) {
    while (d.left > 0) {
        size_t low = d.left < STRETCH - 1 ? 0 : d.left - (STRETCH - 1);
        uint64_t x = stretch_under(order, s, bytes, low, 1), opens = opened(0, x, d.left - low);
        if (opens && !d.top) d.top = (unsigned)low + highest(opens) + 1;
        while (opens) {
            unsigned at = highest(opens);
            opens ^= (uint64_t)1 << at;
            put(&d, low + at, (x >> at & 1) ? 1 : -1);
        }
        d.left = low;
    }
    return d;
}

/* The digit of a window that opens over the places left; it is worth `less` less. */
static inline void put_window(string *d, unsigned w, unsigned bits, unsigned less) {
    unsigned half = (bits + 1) / 2 - less, k = (unsigned)__builtin_ctz(half);
    size_t spot = d->left + k - w;
    put(d, spot, (int)(half >> k) - (int)((bits >> w << w) >> k));
    if (!d->top) d->top = (unsigned)spot + 1;
    d->left = d->left < w ? 0 : d->left - w;
}

/* The windows that open at place `floor` or above. */
static string sweep(string d, uint8_t order, const uint8_t *s, size_t bytes, unsigned w, size_t floor) {
    while (d.left > floor) {
        size_t low = d.left < floor + STRETCH - w ? floor : d.left - (STRETCH - w);
        uint64_t x = stretch_under(order, s, bytes, low, w), opens = opened(w - 1, x, d.left - low);
        while (opens) {
            unsigned at = highest(opens) - (w - 1);
            opens &= ((uint64_t)1 << at) - 1;
            d.left = low + at + 1;
            put_window(&d, w, (unsigned)(x >> at) & ((2u << w) - 1), 0);
        }
        d.left = smaller(d.left, low);
    }
    return d;
}

/* A closest form is wMOF but for one window, w above the lowest set bit. If it opens there with the two bits in `lead`, it is worth one less, and the lowest set bit ends the string. */
static string closest(string d, uint8_t order, const uint8_t *s, size_t bytes, unsigned w, unsigned lead) {
    size_t low = lowest(order, s, bytes), tie = low + w;
    d = sweep(d, order, s, bytes, w, tie + 1);
    if (d.left == tie + 1) {
        unsigned bits = window_at(order, s, bytes, tie, w);
        if (bits >> (w - 1) == lead) {
            put_window(&d, w, bits, 1);
            put(&d, low, 1);
            return d;
        }
    }
    return sweep(d, order, s, bytes, w, 0);
}

/* Byte q of a number from its low end, 0 past its bytes. */
static unsigned nth(uint8_t order, const uint8_t *s, size_t bytes, size_t q) { return q < bytes ? s[order ? q : bytes - 1 - q] : 0; }

/* 19 or 20 where the scalar is not one below the group's order, else 0. */
static uint8_t outside(uint8_t order, const uint8_t *scalar, size_t bytes, const uint8_t *group, size_t group_bytes) {
    size_t zeros = 0, q = bytes < group_bytes ? group_bytes : bytes;
    if (group_bytes > SARVUNDOLE_MOST_BYTES) return 19;
    while (zeros < group_bytes && !group[zeros]) zeros++;
    if (zeros == group_bytes) return 19;
    while (q-- > 0) {
        const unsigned x = nth(order, scalar, bytes, q), y = nth(0, group, group_bytes, q);
        if (x != y) return x < y ? 0 : 20;
    }
    return 20;
}

static inline sarvundole_tally recode_by(uint8_t form, sarvundole_set set, uint8_t order, const uint8_t *scalar, size_t bytes, int below, const uint8_t *group,
                                         size_t group_bytes, int8_t *digits, size_t places, uint64_t *marks, size_t words) {
    sarvundole_tally t = {0, 0, 0, 0};
    const uint8_t width = set.width;
    if (form < 1 || form > 5) t.refusal = 1;
    else if (bad_width(width) || (form == SARVUNDOLE_MOF && width != 2)) t.refusal = 2;
    else if (bad_set(set) || (form != SARVUNDOLE_WNAF && set.largest >= 1u << (width - 1))) t.refusal = 22;
    else if (bytes > SARVUNDOLE_MOST_BYTES) t.refusal = 3;
    else if (below && (t.refusal = outside(order, scalar, bytes, group, group_bytes))) return t;
    else if (places < 8 * bytes + 1) t.refusal = 4;
    else if (words < SARVUNDOLE_MARK_WORDS) t.refusal = 5;
    if (t.refusal) return t;
    string d = {digits, marks, 0, 0, 8 * bytes + 1};
    memset(digits, 0, 8 * bytes + 1);
    memset(marks, 0, SARVUNDOLE_MARK_WORDS * sizeof *marks);
    if (form == SARVUNDOLE_MOF) d = mof(d, order, scalar, bytes);
    else if (form == SARVUNDOLE_WNAF && set.largest < 1u << (width - 1)) d = wnaf(d, order, scalar, bytes, width);
    else if (form == SARVUNDOLE_WNAF) d = between(d, order, scalar, bytes, width, set.largest);
    else if (form == SARVUNDOLE_WMOF) d = sweep(d, order, scalar, bytes, width, 0);
    else d = closest(d, order, scalar, bytes, width, form == SARVUNDOLE_CLOSEST ? 2 : 1);
    t.weight = (uint16_t)d.weight;
    t.top = (uint16_t)d.top;
    return t;
}

sarvundole_tally baseline_recode(uint8_t form, sarvundole_set set, uint8_t order, const uint8_t *scalar, size_t bytes, int8_t *digits, size_t places,
                                 uint64_t *marks, size_t words) {
    return recode_by(form, set, order, scalar, bytes, 0, NULL, 0, digits, places, marks, words);
}

sarvundole_tally baseline_recode_below(uint8_t form, sarvundole_set set, uint8_t order, const uint8_t *scalar, size_t bytes, const uint8_t *group, size_t group_bytes,
                                       int8_t *digits, size_t places, uint64_t *marks, size_t words) {
    return recode_by(form, set, order, scalar, bytes, 1, group, group_bytes, digits, places, marks, words);
}

/* ---- digits as a whole. What these loops do at a digit is no branch, and each runs to the string's end, so that the compiler takes many digits at a time. */
typedef struct {
    int bad;
    size_t place;
    unsigned weight, top;
} scanned;

/* Whether the digit is neither 0 nor odd and of absolute value at most the largest digit; `most` is twice that. */
static inline uint8_t bad_digit(uint8_t digit, uint8_t most) {
    return (uint8_t)((uint8_t)(digit + most / 2) > most) | (uint8_t)((digit != 0) & !(digit & 1));
}

static scanned scan(uint8_t largest, const int8_t *digits, size_t places) {
    const uint8_t most = (uint8_t)(2 * largest), *bytes = (const uint8_t *)digits;
    scanned r = {0, 0, 0, 0};
    uint8_t bad = 0;
    for (size_t j = 0; j < places; j++) bad |= bad_digit(bytes[j], most);
    if (bad) {
        r.bad = 1;
        while (!bad_digit(bytes[r.place], most)) r.place++;
        return r;
    }
    uint16_t weight = 0;
    for (size_t j = 0; j < places; j++) weight = (uint16_t)(weight + (digits[j] != 0));
    r.weight = weight;
    r.top = (unsigned)places;
    while (r.top && !digits[r.top - 1]) r.top--;
    return r;
}

/* ---- the checks */
/* Eight places are compared with a byte at a time, from the lowest up, with a carry to the next eight. */
static int worth_is(uint8_t order, const uint8_t *scalar, size_t bytes, const int8_t *digits, size_t places) {
    const size_t whole = places / 8, end = bytes > (places + 7) / 8 ? bytes : (places + 7) / 8;
    int carry = 0;
    for (size_t q = 0; q < end; q++) {
        int sum = 0;
        if (q < whole)
            for (size_t k = 8; k-- > 0;) sum = 2 * sum + digits[8 * q + k];
        else
            for (size_t j = places; j-- > 8 * q;) sum = 2 * sum + digits[j];
        sum += carry - (int)byte_at(order, scalar, bytes, q);
        if (sum & 255) return 0;
        carry = sum >> 8;
    }
    return !carry;
}

/* Whether no two nonzero digits stand fewer than w places apart, gap by gap. */
static int apart(unsigned w, const int8_t *digits, size_t places) {
    for (size_t gap = 1; gap < w; gap++) {
        uint8_t near = 0;
        for (size_t j = gap; j < places; j++) near |= (uint8_t)((digits[j - gap] != 0) & (digits[j] != 0));
        if (near) return 0;
    }
    return 1;
}

/* The lower place of the lowest pair that stands too near, in a string that has one. */
static size_t near_place(unsigned w, const int8_t *digits) {
    size_t free = 0;
    for (size_t j = 0;; j++) {
        if (!digits[j]) continue;
        if (j < free) return free - w;
        free = j + w;
    }
}

static sarvundole_tally check(sarvundole_set set, uint8_t order, const uint8_t *scalar, size_t bytes, const int8_t *digits, size_t places) {
    sarvundole_tally t = {bad_set(set), 0, 0, 0};
    if (t.refusal) return t;
    if (bytes > SARVUNDOLE_MOST_BYTES) t.refusal = 3;
    else if (places > SARVUNDOLE_MOST_PLACES) t.refusal = 7;
    if (t.refusal) return t;
    scanned found = scan(set.largest, digits, places);
    if (found.bad) {
        t.refusal = 8;
        t.place = (uint16_t)found.place;
    } else if (!worth_is(order, scalar, bytes, digits, places)) {
        t.refusal = 9;
    } else {
        t.weight = (uint16_t)found.weight;
        t.top = (uint16_t)found.top;
    }
    return t;
}

sarvundole_tally baseline_check(sarvundole_set set, uint8_t order, const uint8_t *scalar, size_t bytes, const int8_t *digits, size_t places) {
    return check(set, order, scalar, bytes, digits, places);
}

sarvundole_tally baseline_check_nonadjacent(sarvundole_set set, uint8_t order, const uint8_t *scalar, size_t bytes, const int8_t *digits, size_t places) {
    sarvundole_tally t = check(set, order, scalar, bytes, digits, places);
    if (t.refusal || apart(set.width, digits, places)) return t;
    sarvundole_tally near = {10, (uint16_t)near_place(set.width, digits), 0, 0};
    return near;
}

/* ---- tape */
/* The word of a digit whose code with a plus is `code`: with a minus it is the next. Without a branch: the sign is as good as random. */
static uint16_t word(unsigned code, int digit) {
    int minus = digit < 0;
    return (uint16_t)((code + (unsigned)minus) << 12 | (unsigned)((digit ^ -minus) + minus) / 2);
}

sarvundole_taped baseline_tape(sarvundole_set set, const int8_t *digits, size_t places, uint16_t *words, size_t room) {
    sarvundole_taped t = {bad_set(set), 0, 0, 0, 0};
    if (!t.refusal && places > SARVUNDOLE_MOST_PLACES) t.refusal = 7;
    if (t.refusal) return t;
    scanned found = scan(set.largest, digits, places);
    if (found.bad) {
        t.refusal = 8;
        t.place = (uint16_t)found.place;
        return t;
    }
    if (!found.top) return t;
    size_t j = found.top - 1, at = 1, needed = j + found.weight;
    if (room < needed) {
        t.refusal = 11;
        return t;
    }
    words[0] = word(1, digits[j]);
    /* After the double of a 0 stands a word that means nothing: the next place's double is written over it. Place 0 has no next. */
    while (j > 1) {
        j--;
        words[at] = 0;
        words[at + 1] = word(3, digits[j]);
        at += 1 + (-(unsigned)(uint8_t)digits[j] >> 31); /* 1 for a digit that is not 0: of a comparison gcc makes a branch */
    }
    if (j > 0) {
        words[at] = 0;
        if (digits[0]) words[at + 1] = word(3, digits[0]);
    }
    t.words = (uint16_t)needed;
    t.doublings = (uint16_t)(found.top - 1);
    t.additions = (uint16_t)(found.weight - 1);
    return t;
}

/* ---- run */
static uint32_t plus(uint32_t x, uint32_t y, uint32_t modulus) {
    uint64_t sum = (uint64_t)x + y;
    return (uint32_t)(sum >= modulus ? sum - modulus : sum);
}

/* The first word that is not good where there are so many entries, or the count of words. */
static size_t first_bad(const uint16_t *tape, size_t words, size_t entries) {
    for (size_t i = 0; i < words; i++) {
        unsigned code = tape[i] >> 12, entry = tape[i] & 0xFFF, load = code == 1 || code == 2;
        if (code > 4 || entry >= entries || (!code && entry) || load != (i == 0)) return i;
    }
    return words;
}

/* The steps of a tape over stored entries. */
static sarvundole_ran reach(const uint16_t *tape, size_t words, uint32_t modulus, const uint32_t *entries) {
    sarvundole_ran r = {0, 0, 0, 0, 0, {0, 0}};
    uint32_t value = 0;
    for (size_t i = 0; i < words; i++) {
        uint32_t m = entries[tape[i] & 0xFFF];
        switch (tape[i] >> 12) {
        case 0: value = plus(value, value, modulus); r.doublings++; break;
        case 1: value = m; break;
        case 2: value = plus(0, modulus - m, modulus); break;
        case 3: value = plus(value, m, modulus); r.additions++; break;
        default: value = plus(value, modulus - m, modulus); r.additions++; break;
        }
    }
    r.residue = value;
    return r;
}

sarvundole_ran baseline_run(sarvundole_set set, const uint16_t *tape, size_t words, uint32_t modulus, uint32_t base, uint32_t *multiples,
                            size_t room) {
    sarvundole_ran r = {bad_set(set), 0, 0, 0, 0, {0, 0}};
    const size_t entries = (set.largest + 1u) / 2;
    if (r.refusal) return r;
    if (!modulus) r.refusal = 12;
    else if (words > SARVUNDOLE_MOST_WORDS) r.refusal = 13;
    else if (room < entries) r.refusal = 14;
    if (r.refusal) return r;
    size_t bad = first_bad(tape, words, entries);
    if (bad < words) {
        r.refusal = 15;
        r.place = (uint16_t)bad;
        return r;
    }
    uint32_t multiple = base % modulus, twice = plus(multiple, multiple, modulus);
    for (size_t e = 0; e < entries; e++) {
        multiples[e] = multiple;
        multiple = plus(multiple, twice, modulus);
    }
    r = reach(tape, words, modulus, multiples);
    r.cost.doublings = entries > 1;
    r.cost.additions = (uint16_t)(entries - 1);
    return r;
}

/* ---- powers */
static uint32_t product(uint32_t x, uint32_t y, uint32_t modulus) { return (uint32_t)((uint64_t)x * y % modulus); }

static void store_powers(uint32_t *powers, size_t entries, uint32_t modulus, uint32_t base) {
    uint32_t power = base % modulus, square = product(power, power, modulus);
    for (size_t e = 0; e < entries; e++) {
        powers[e] = power;
        power = product(power, square, modulus);
    }
}

sarvundole_ran baseline_run_powers(sarvundole_set set, const uint16_t *tape, size_t words, uint32_t modulus, uint32_t base, uint32_t inverse, uint32_t *powers,
                                   size_t room, uint32_t *inverse_powers, size_t inverse_room) {
    sarvundole_ran r = {bad_set(set), 0, 0, 0, 0, {0, 0}};
    const size_t entries = (set.largest + 1u) / 2;
    if (r.refusal) return r;
    if (!modulus) r.refusal = 12;
    else if (words > SARVUNDOLE_MOST_WORDS) r.refusal = 13;
    else if (room < entries || inverse_room < entries) r.refusal = 14;
    if (r.refusal) return r;
    size_t bad = first_bad(tape, words, entries);
    if (bad < words) {
        r.refusal = 15;
        r.place = (uint16_t)bad;
        return r;
    }
    if (product(base, inverse, modulus) != 1 % modulus) {
        r.refusal = 17;
        return r;
    }
    store_powers(powers, entries, modulus, base);
    store_powers(inverse_powers, entries, modulus, inverse);
    uint32_t value = 1 % modulus;
    for (size_t i = 0; i < words; i++) {
        const unsigned entry = tape[i] & 0xFFF;
        switch (tape[i] >> 12) {
        case 0: value = product(value, value, modulus); r.doublings++; break;
        case 1: value = powers[entry]; break;
        case 2: value = inverse_powers[entry]; break;
        case 3: value = product(value, powers[entry], modulus); r.additions++; break;
        default: value = product(value, inverse_powers[entry], modulus); r.additions++; break;
        }
    }
    r.residue = value;
    r.cost.doublings = (uint16_t)(2 * (entries > 1));
    r.cost.additions = (uint16_t)(2 * (entries - 1));
    return r;
}

/* ---- the chip without subtraction */
sarvundole_translated baseline_translate(sarvundole_set set, const uint16_t *tape, size_t count, uint16_t *words, size_t room) {
    sarvundole_translated t = {bad_set(set), 0, 0};
    const unsigned entries = (set.largest + 1u) / 2;
    if (!t.refusal && count > SARVUNDOLE_MOST_WORDS) t.refusal = 13;
    if (t.refusal) return t;
    size_t bad = first_bad(tape, count, entries);
    if (bad < count) {
        t.refusal = 15;
        t.place = (uint16_t)bad;
        return t;
    }
    if (room < count) {
        t.refusal = 11;
        return t;
    }
    for (size_t i = 0; i < count; i++) {
        unsigned code = tape[i] >> 12;
        words[i] = (uint16_t)(code == 2 || code == 4 ? tape[i] - 0x1000u + entries : tape[i]);
    }
    t.words = (uint16_t)count;
    return t;
}

static size_t first_bad_second(const uint16_t *tape, size_t words, size_t entries) {
    for (size_t i = 0; i < words; i++) {
        unsigned code = tape[i] >> 12, entry = tape[i] & 0xFFF;
        if ((code != 0 && code != 1 && code != 3) || entry >= entries || (!code && entry) || (code == 1) != (i == 0)) return i;
    }
    return words;
}

sarvundole_ran baseline_run_second(sarvundole_set set, const uint16_t *tape, size_t words, uint32_t modulus, uint32_t base, uint32_t *multiples,
                                   size_t room) {
    sarvundole_ran r = {bad_set(set), 0, 0, 0, 0, {0, 0}};
    const size_t entries = (set.largest + 1u) / 2;
    if (r.refusal) return r;
    if (!modulus) r.refusal = 12;
    else if (words > SARVUNDOLE_MOST_WORDS) r.refusal = 13;
    else if (room < 2 * entries) r.refusal = 14;
    if (r.refusal) return r;
    size_t bad = first_bad_second(tape, words, 2 * entries);
    if (bad < words) {
        r.refusal = 15;
        r.place = (uint16_t)bad;
        return r;
    }
    uint32_t multiple = base % modulus, twice = plus(multiple, multiple, modulus);
    for (size_t e = 0; e < entries; e++) {
        multiples[e] = multiple;
        multiples[entries + e] = plus(0, modulus - multiple, modulus);
        multiple = plus(multiple, twice, modulus);
    }
    r = reach(tape, words, modulus, multiples);
    r.cost.doublings = entries > 1;
    r.cost.additions = (uint16_t)(entries - 1);
    return r;
}

/* ---- two scalars together */
/* Solinas's digit of a number that is r modulo 8 beside one that is s: 0 where r is even, else its signed residue modulo 4, turned where r is 3 or 5 and s is 2 modulo 4.
 * Looked up in a constant of two bits an entry, since the residues are as good as random. */
static int solinas(unsigned r, unsigned s) {
    unsigned beside_two = s >> 1 & ~s & 1;
    return (int)(295246105u >> (2 * r + 16 * beside_two) & 3) - 1;
}

/* The two digits of a place, from what remains there, and the carries that go on. */
typedef struct {
    int first, second;
    unsigned carry, other;
} column;

static column column_at(uint8_t order, const uint8_t *a, const uint8_t *b, size_t bytes, size_t i, unsigned carry, unsigned other) {
    unsigned x = bits_at(order, a, bytes, i, 3), y = bits_at(order, b, bytes, i, 3);
    int u = solinas((x + carry) & 7, (y + other) & 7), v = solinas((y + other) & 7, (x + carry) & 7);
    return (column){u, v, (unsigned)((int)((x & 1) + carry) - u) / 2, (unsigned)((int)((y & 1) + other) - v) / 2};
}

/* A column as the digit whose entry and sign it has: 1, 3, 5 and 7 for g, h, g + h and g - h. */
static int column_digit(int u, int v) {
    static const int8_t digits[9] = {-5, -1, -7, -3, 0, 3, 7, 1, 5};
    return digits[3 * u + v + 4];
}

sarvundole_joined baseline_joint(uint8_t order, const uint8_t *a, size_t a_bytes, const uint8_t *b, size_t b_bytes, int8_t *first, size_t first_places, int8_t *second,
                                 size_t second_places, uint16_t *words, size_t room) {
    sarvundole_joined j = {0, 0, 0, 0, 0, 0, 0};
    const size_t places = 8 * a_bytes + 1;
    if (a_bytes > SARVUNDOLE_MOST_BYTES || b_bytes > SARVUNDOLE_MOST_BYTES) j.refusal = 3;
    else if (a_bytes != b_bytes) j.refusal = 18;
    else if (first_places < places || second_places < places) j.refusal = 4;
    if (j.refusal) return j;
    size_t weight = 0, top = 0;
    column c = {0, 0, 0, 0};
    for (size_t i = 0; i < places; i++) {
        c = column_at(order, a, b, a_bytes, i, c.carry, c.other);
        unsigned full = (unsigned)(c.first | c.second) & 1;
        weight += full;
        top = full ? i + 1 : top;
    }
    const size_t needed = top ? top - 1 + weight : 0;
    if (room < needed) {
        j.refusal = 11;
        return j;
    }
    c = (column){0, 0, 0, 0};
    for (size_t i = 0; i < places; i++) {
        c = column_at(order, a, b, a_bytes, i, c.carry, c.other);
        first[i] = (int8_t)c.first;
        second[i] = (int8_t)c.second;
    }
    if (!top) return j;
    size_t k = top - 1, at = 1;
    words[0] = word(1, column_digit(first[k], second[k]));
    /* as in tape */
    while (k > 1) {
        k--;
        int digit = column_digit(first[k], second[k]);
        words[at] = 0;
        words[at + 1] = word(3, digit);
        at += 1 + (-(unsigned)(uint8_t)digit >> 31);
    }
    if (k > 0) {
        int digit = column_digit(first[0], second[0]);
        words[at] = 0;
        if (digit) words[at + 1] = word(3, digit);
    }
    j.columns = (uint16_t)weight;
    j.top = (uint16_t)top;
    j.words = (uint16_t)needed;
    j.doublings = (uint16_t)(top - 1);
    j.additions = (uint16_t)(weight - 1);
    return j;
}

sarvundole_ran baseline_run_joint(const uint16_t *tape, size_t words, uint32_t modulus, uint32_t first, uint32_t second, uint32_t *entries, size_t room) {
    sarvundole_ran r = {0, 0, 0, 0, 0, {0, 0}};
    if (!modulus) r.refusal = 12;
    else if (words > SARVUNDOLE_MOST_WORDS) r.refusal = 13;
    else if (room < SARVUNDOLE_JOINT_ENTRIES) r.refusal = 14;
    if (r.refusal) return r;
    size_t bad = first_bad(tape, words, SARVUNDOLE_JOINT_ENTRIES);
    if (bad < words) {
        r.refusal = 15;
        r.place = (uint16_t)bad;
        return r;
    }
    const uint32_t g = first % modulus, h = second % modulus;
    entries[0] = g;
    entries[1] = h;
    entries[2] = plus(g, h, modulus);
    entries[3] = plus(g, modulus - h, modulus);
    r = reach(tape, words, modulus, entries);
    r.cost.additions = 2;
    return r;
}

/* ---- reader: windows from the top down */
typedef struct {
    size_t spot;
    int8_t digit;
} placed;

static int opens(unsigned w, unsigned bits) { return bits >> w != (bits >> (w - 1) & 1); }

/* Where the digit of a window over `left` places stands. */
static placed place(unsigned w, unsigned bits, size_t left) {
    unsigned half = (bits + 1) / 2, k = (unsigned)__builtin_ctz(half);
    placed p = {left + k - w, (int8_t)((int)(half >> k) - (int)((bits >> w << w) >> k))};
    return p;
}

sarvundole_reader baseline_reader_start(uint8_t width, uint8_t order, const uint8_t *scalar, size_t bytes) {
    sarvundole_reader r = {0, 0, 0, width, 0, 0, order != 0};
    (void)scalar;
    if (bad_width(width)) r.refusal = 2;
    else if (bytes > SARVUNDOLE_MOST_BYTES) r.refusal = 3;
    else r.place = r.floor = (uint16_t)(8 * bytes + 1);
    return r;
}

sarvundole_stepped baseline_reader_next(const uint8_t *scalar, size_t bytes, sarvundole_reader reader) {
    sarvundole_stepped r = {reader, 0, 0};
    const unsigned w = reader.width;
    if (reader.place <= reader.floor) {
        if (!reader.place || reader.place > SARVUNDOLE_MOST_PLACES || bad_width(reader.width)) {
            r.reader.place = 0;
            return r;
        }
        unsigned bits = window_at(reader.order, scalar, bytes, reader.place - 1, w);
        placed p = {0, 0};
        r.reader.floor = (uint16_t)(reader.place - 1);
        if (opens(w, bits)) {
            p = place(w, bits, reader.place);
            r.reader.floor = (uint16_t)(reader.place < w ? 0 : reader.place - w);
        }
        r.reader.spot = (uint16_t)p.spot;
        r.reader.pending = p.digit;
    }
    r.reader.place--;
    r.given = 1;
    r.digit = r.reader.place == r.reader.spot ? r.reader.pending : 0;
    return r;
}

/* As far as the digit that is asked for. */
sarvundole_reading baseline_read_at(uint8_t width, uint8_t order, const uint8_t *scalar, size_t bytes, uint16_t calls) {
    sarvundole_reading r = {0, 0, 0};
    if (bad_width(width)) r.refusal = 2;
    else if (bytes > SARVUNDOLE_MOST_BYTES) r.refusal = 3;
    if (r.refusal || calls > 8 * bytes) return r;
    const size_t asked = 8 * bytes - calls;
    const unsigned w = width;
    size_t left = 8 * bytes + 1;
    r.given = 1;
    while (left > asked) {
        unsigned bits = window_at(order, scalar, bytes, left - 1, w);
        if (!opens(w, bits)) {
            left--;
            continue;
        }
        if (left > asked + w) {
            left -= w;
            continue;
        }
        placed p = place(w, bits, left);
        if (p.spot == asked) r.digit = p.digit;
        return r;
    }
    return r;
}

/* ---- search: every digit at the lowest place, and what is left over it on one place fewer. Its size alone is searched: the negative weighs the same. */
enum { NOTHING = 10 }; /* more than any string of nine places weighs */

static unsigned least(unsigned half, unsigned places, unsigned size) {
    if (!places) return size ? NOTHING : 0;
    unsigned best = size & 1 ? NOTHING : least(half, places - 1, size / 2);
    for (unsigned digit = 1; digit < half; digit += 2) {
        if (!((size - digit) & 1)) {
            unsigned under = 1 + least(half, places - 1, (size < digit ? digit - size : size - digit) / 2);
            unsigned over = 1 + least(half, places - 1, (size + digit) / 2);
            best = under < best ? under : best;
            best = over < best ? over : best;
        }
    }
    return best;
}

sarvundole_searched baseline_search(uint32_t number, uint8_t width) {
    sarvundole_searched r = {0, 0};
    if (width != 2 && width != 3) r.refusal = 2;
    else if (number > 127) r.refusal = 3;
    else r.weight = (uint8_t)least(1u << (width - 1), 9, number);
    return r;
}

/* ---- choose: the weight and the top of the wNAF of each width that fits, counted as wnaf puts its digits. */
static unsigned total(uint8_t order, const uint8_t *s, size_t bytes, unsigned w) {
    const uint64_t half = (uint64_t)1 << (w - 1);
    const size_t places = 8 * bytes + 1;
    unsigned carry = 0, weight = 0, top = 0, multiples = 1u << (w - 2);
    for (size_t i = 0; i < places;) {
        size_t last = smaller(i + STRETCH - w, places - 1);
        uint64_t x = stretch(order, s, bytes, i) + carry;
        while (x) {
            unsigned zeros = (unsigned)__builtin_ctzll(x);
            size_t at = i + zeros;
            if (at > last) break;
            uint64_t raised = (x >> zeros) + half;
            carry = (raised & (2 * half - 1)) < half;
            x = raised >> w;
            weight++;
            top = (unsigned)at + 1;
            i = at + w;
        }
        if (i <= last) i = last + 1;
    }
    return (weight ? top - 1 + weight - 1 : 0) + (multiples < 2 ? 0 : multiples);
}

sarvundole_chosen baseline_choose(uint8_t order, const uint8_t *scalar, size_t bytes, uint32_t entries) {
    sarvundole_chosen r = {0, 0, 0};
    if (bytes > SARVUNDOLE_MOST_BYTES) r.refusal = 3;
    else if (!entries) r.refusal = 23;
    else
        for (unsigned w = 2; w <= 8 && 1u << (w - 2) <= entries; w++) {
            unsigned steps = total(order, scalar, bytes, w);
            if (w == 2 || steps < r.total) r.width = (uint8_t)w, r.total = (uint16_t)steps;
        }
    return r;
}

/* ---- lighter: both strings checked */
sarvundole_picked baseline_lighter(uint8_t width, uint8_t order, const uint8_t *scalar, size_t bytes, const int8_t *first, size_t first_places, const int8_t *second,
                                   size_t second_places) {
    sarvundole_tally a = check(sarvundole_whole(width), order, scalar, bytes, first, first_places), b;
    if (a.refusal) return (sarvundole_picked){a.refusal, 0, 0};
    b = check(sarvundole_whole(width), order, scalar, bytes, second, second_places);
    if (b.refusal) return (sarvundole_picked){b.refusal, 0, 0};
    return b.weight < a.weight ? (sarvundole_picked){0, 1, b.top} : (sarvundole_picked){0, 0, a.top};
}

/* ---- frames */
enum { OPENING = 0xA2, NO_HEX = 16 };

static size_t put_byte(unsigned b, uint8_t *line, size_t at) {
    static const char capitals[] = "0123456789ABCDEF";
    line[at] = (uint8_t)capitals[b >> 4 & 15];
    line[at + 1] = (uint8_t)capitals[b & 15];
    return at + 2;
}

static size_t put_two(unsigned n, uint8_t *line, size_t at) { return put_byte(n & 255, line, put_byte(n >> 8, line, at)); }

sarvundole_framed baseline_write(uint8_t version, const int8_t *digits, size_t places, uint8_t *line, size_t room) {
    sarvundole_framed r = {0, 0};
    if (places > SARVUNDOLE_MOST_PLACES) {
        r.refusal = 7;
        return r;
    }
    unsigned weight = 0, top = 0;
    for (size_t i = 0; i < places; i++)
        if (digits[i]) weight++, top = (unsigned)i + 1;
    size_t length = version == 1 ? 10 + 2 * places : 14 + 6 * weight;
    if (room < length) {
        r.refusal = 24;
        return r;
    }
    size_t at = put_two(top, line, put_two(weight, line, put_byte(version == 1 ? 0 : OPENING, line, 0)));
    if (version != 1) at = put_two((unsigned)places, line, at);
    for (size_t i = 0; i < places; i++) {
        if (version != 1 && !digits[i]) continue;
        if (version != 1) at = put_two((unsigned)i, line, at);
        at = put_byte((uint8_t)digits[i], line, at);
    }
    r.length = (uint16_t)length;
    return r;
}

static unsigned nibble(uint8_t c) {
    if (c >= '0' && c <= '9') return c - '0';
    if (c >= 'A' && c <= 'F') return c - 'A' + 10;
    if (c >= 'a' && c <= 'f') return c - 'a' + 10;
    return NO_HEX;
}

static unsigned byte_in(const uint8_t *line, size_t k) { return nibble(line[2 * k]) << 4 | nibble(line[2 * k + 1]); }

static unsigned two_in(const uint8_t *line, size_t k) { return byte_in(line, k) << 8 | byte_in(line, k + 1); }

sarvundole_parsed baseline_read(const uint8_t *line, size_t characters, int8_t *digits, size_t places) {
    sarvundole_parsed r = {16, 0, 0, 0, 0};
    const size_t count = characters / 2;
    if (characters % 2 || !count) return r;
    for (size_t i = 0; i < characters; i++)
        if (nibble(line[i]) == NO_HEX) return r;
    const unsigned first = byte_in(line, 0);
    if (count == 1) {
        if (first >= 1 && first <= 16 && first != 6) r.refusal = 0, r.stated = (uint8_t)first;
        return r;
    }
    const int sparse = first == OPENING;
    if (!sparse && first) return r;
    if (count < (sparse ? 7 : 5) || (sparse && (count - 7) % 3)) return r;
    const size_t has = sparse ? two_in(line, 5) : count - 5;
    if (has > SARVUNDOLE_MOST_PLACES) {
        r.refusal = 7;
        return r;
    }
    unsigned weight = 0, top = 0;
    r.refusal = 21;
    if (sparse) {
        for (size_t k = 7; k < count; k += 3) {
            const unsigned place = two_in(line, k);
            if (place < top || place >= has || !byte_in(line, k + 2)) return r;
            weight++, top = place + 1;
        }
    } else {
        for (size_t i = 0; i < has; i++)
            if (byte_in(line, 5 + i)) weight++, top = (unsigned)i + 1;
    }
    if (two_in(line, 1) != weight || two_in(line, 3) != top) return r;
    r.refusal = 4;
    if (places < has) return r;
    if (sparse) {
        memset(digits, 0, has);
        for (size_t k = 7; k < count; k += 3) digits[two_in(line, k)] = (int8_t)byte_in(line, k + 2);
    } else {
        for (size_t i = 0; i < has; i++) digits[i] = (int8_t)byte_in(line, 5 + i);
    }
    r.refusal = 0, r.weight = (uint16_t)weight, r.top = (uint16_t)top, r.places = (uint16_t)has;
    return r;
}
