/* Makes every call from C, a line of hexadecimal pairs a call, and answers as the trial program does (second.py says how).
 *
 * Every buffer stands in a page of its own between two that cannot be touched: first at the page's start, then at its end, so that a step over
 * either edge ends the program. What is lent for reading cannot be written meanwhile, and the rest of a page must keep its bytes. A buffer of no
 * elements is a null pointer the first time. The two answers of a line must be one. */
#define _DEFAULT_SOURCE
#include "sarvundole.h"

#include <stdio.h>
#include <stdlib.h>
#include <string.h>
#include <sys/mman.h>
#include <unistd.h>

enum { MOST_LINE = 8192, MOST_ANSWER = 4096, REST = 0xC3 };

static size_t page;

static void refuse(const char *why) {
    fprintf(stderr, "c_callers: %s\n", why);
    exit(1);
}

/* ---- lent memory */
typedef struct {
    uint8_t *start;
    uint8_t *lent;
    size_t bytes;
    int reading;
} memory;

static memory scalars, others, groups, strings, rivals, tapes, lines, digits, seconds, marks, words, multiples, inverses, written;

static void protect(const memory *m, int how) {
    if (mprotect(m->start, page, how)) abort();
}

static void make(memory *m) {
    uint8_t *all = mmap(NULL, 3 * page, PROT_NONE, MAP_PRIVATE | MAP_ANONYMOUS, -1, 0);
    if (all == MAP_FAILED) abort();
    m->start = all + page;
    protect(m, PROT_READ | PROT_WRITE);
}

/* Lends so many bytes, at the page's start or its end; filled from `from`, or for writing with `lent`. */
static void *lend(memory *m, size_t bytes, int at_end, const void *from) {
    memset(m->start, REST, page);
    m->lent = m->start + (at_end ? page - bytes : 0);
    m->bytes = bytes;
    m->reading = 1;
    if (bytes > 0) memcpy(m->lent, from, bytes);
    protect(m, PROT_READ);
    return bytes == 0 && !at_end ? NULL : m->lent;
}

static void *lend_to_write(memory *m, size_t count, size_t size, uint64_t lent, int at_end) {
    memset(m->start, REST, page);
    m->bytes = count * size;
    m->lent = m->start + (at_end ? page - m->bytes : 0);
    m->reading = 0;
    for (size_t i = 0; i < count; i++) memcpy(m->lent + i * size, &lent, size);
    return m->bytes == 0 && !at_end ? NULL : m->lent;
}

static void given_back(memory *m) {
    if (m->reading) protect(m, PROT_READ | PROT_WRITE);
    for (uint8_t *at = m->start; at < m->start + page; at++)
        if ((at < m->lent || at >= m->lent + m->bytes) && *at != REST) refuse("a byte beside what was lent has changed");
}

/* ---- frames and answers */
static const uint8_t *frame;
static size_t left;
static uint8_t order; /* of the scalar's bytes: 0, or any other byte */
static int between;   /* whether a largest digit follows the width */

static uint32_t take(size_t size) {
    uint32_t n = 0;
    if (left < size) abort();
    for (left -= size; size > 0; size--) n = n << 8 | *frame++;
    return n;
}

static sarvundole_set take_set(void) {
    sarvundole_set set = sarvundole_whole((uint8_t)take(1));
    if (between) set.largest = (uint8_t)take(1);
    return set;
}

static uint8_t answer[MOST_ANSWER];
static size_t answered;

static void put(uint64_t n, size_t size) {
    while (size-- > 0) answer[answered++] = (uint8_t)(n >> 8 * size);
}

/* A buffer whole, the high byte of each element first. */
static void put_lent(memory *m, size_t size) {
    given_back(m);
    for (size_t i = 0; i < m->bytes; i += size) {
        uint64_t n = 0;
        memcpy(&n, m->lent + i, size);
        put(n, size);
    }
}

static void put_tally(sarvundole_tally t) { put(t.refusal, 1), put(t.place, 2), put(t.weight, 2), put(t.top, 2); }

/* ---- calls */
static void recode(int at_end) {
    uint8_t form = (uint8_t)take(1);
    sarvundole_set set = take_set();
    size_t places = take(2), count = take(1), bytes = left;
    int8_t *d = lend_to_write(&digits, places, 1, 0x5A, at_end);
    uint64_t *m = lend_to_write(&marks, count, 8, 0xA5A5A5A5A5A5A5A5u, at_end);
    put_tally(sarvundole_recode(form, set, order, lend(&scalars, bytes, at_end, frame), bytes, d, places, m, count));
    given_back(&scalars);
    put_lent(&digits, 1);
    put_lent(&marks, 8);
}

/* What is accepted has to be what the plain call gives. */
static void recode_below(int at_end) {
    uint8_t form = (uint8_t)take(1);
    sarvundole_set set = take_set();
    size_t places = take(2), count = take(1), group_bytes = take(1), bytes = left - group_bytes;
    int8_t *d = lend_to_write(&digits, places, 1, 0x5A, at_end), plain_digits[1024];
    uint64_t *m = lend_to_write(&marks, count, 8, 0xA5A5A5A5A5A5A5A5u, at_end), plain_marks[256];
    const uint8_t *g = lend(&groups, group_bytes, at_end, frame), *s = lend(&scalars, bytes, at_end, frame + group_bytes);
    memset(plain_digits, 0x5A, sizeof plain_digits);
    memset(plain_marks, 0xA5, sizeof plain_marks);
    sarvundole_tally t = sarvundole_recode_below(form, set, order, s, bytes, g, group_bytes, d, places, m, count);
    if (t.refusal == 0) {
        sarvundole_tally p = sarvundole_recode(form, set, order, s, bytes, plain_digits, places, plain_marks, count);
        if (p.refusal || p.place != t.place || p.weight != t.weight || p.top != t.top) refuse("the plain call answers otherwise");
        if (memcmp(plain_digits, d, places) || memcmp(plain_marks, m, 8 * count)) refuse("the plain call writes otherwise");
    }
    put_tally(t);
    given_back(&scalars);
    given_back(&groups);
    put_lent(&digits, 1);
    put_lent(&marks, 8);
}

static void check(int at_end, int nonadjacent) {
    sarvundole_set set = take_set();
    size_t bytes = take(1), places = left - bytes;
    const uint8_t *s = lend(&scalars, bytes, at_end, frame);
    const int8_t *d = lend(&strings, places, at_end, frame + bytes);
    put_tally((nonadjacent ? sarvundole_check_nonadjacent : sarvundole_check)(set, order, s, bytes, d, places));
    given_back(&scalars);
    given_back(&strings);
}

static void tape(int at_end) {
    sarvundole_set set = take_set();
    size_t room = take(2), places = left;
    uint16_t *w = lend_to_write(&words, room, 2, 0xEEEE, at_end);
    sarvundole_taped t = sarvundole_tape(set, lend(&strings, places, at_end, frame), places, w, room);
    if (t.words != (t.words == 0 ? 0 : t.doublings + t.additions + 1)) refuse("a tape has not top - 1 + weight words");
    put(t.refusal, 1), put(t.place, 2), put(t.words, 2), put(t.doublings, 2), put(t.additions, 2);
    given_back(&strings);
    put_lent(&words, 2);
}

/* The words to the end of the line, lent. */
static const uint16_t *lend_words(size_t count, int at_end) {
    uint16_t given[MOST_LINE / 4];
    for (size_t i = 0; i < count; i++) given[i] = (uint16_t)take(2);
    return lend(&tapes, 2 * count, at_end, given);
}

static void put_ran(sarvundole_ran r) {
    put(r.refusal, 1), put(r.place, 2), put(r.residue, 4), put(r.doublings, 2), put(r.additions, 2);
    put(r.cost.additions, 2), put(r.cost.doublings, 2);
    given_back(&tapes);
    put_lent(&multiples, 4);
}

/* The words are those of the chip without subtraction, or of the other. */
static void run(int at_end, int without) {
    sarvundole_set set = take_set();
    size_t room = take(2);
    uint32_t modulus = take(4), base = take(4);
    size_t count = left / 2;
    uint32_t *m = lend_to_write(&multiples, room, 4, 0xDEADBEEF, at_end);
    put_ran((without ? sarvundole_run_second : sarvundole_run)(set, lend_words(count, at_end), count, modulus, base, m, room));
}

static void translate(int at_end) {
    sarvundole_set set = take_set();
    size_t room = take(2), count = left / 2;
    uint16_t *w = lend_to_write(&words, room, 2, 0xEEEE, at_end);
    sarvundole_translated t = sarvundole_translate(set, lend_words(count, at_end), count, w, room);
    if (t.refusal == 0 && t.words != count) refuse("a translation has not as many words as its source");
    put(t.refusal, 1), put(t.place, 2), put(t.words, 2);
    given_back(&tapes);
    put_lent(&words, 2);
}

/* The powers stand where a run's multiples do. */
static void run_powers(int at_end) {
    sarvundole_set set = take_set();
    size_t room = take(2), inverse_room = take(2);
    uint32_t modulus = take(4), base = take(4), inverse = take(4);
    size_t count = left / 2;
    uint32_t *p = lend_to_write(&multiples, room, 4, 0xDEADBEEF, at_end), *i = lend_to_write(&inverses, inverse_room, 4, 0xC0DEC0DE, at_end);
    put_ran(sarvundole_run_powers(set, lend_words(count, at_end), count, modulus, base, inverse, p, room, i, inverse_room));
    put_lent(&inverses, 4);
}

static void joint(int at_end) {
    size_t places = take(2), other_places = take(2), room = take(2), bytes = take(1), other_bytes = left - bytes;
    int8_t *u = lend_to_write(&digits, places, 1, 0x5A, at_end), *v = lend_to_write(&seconds, other_places, 1, 0x5A, at_end);
    uint16_t *w = lend_to_write(&words, room, 2, 0xEEEE, at_end);
    const uint8_t *a = lend(&scalars, bytes, at_end, frame), *b = lend(&others, other_bytes, at_end, frame + bytes);
    sarvundole_joined j = sarvundole_joint(order, a, bytes, b, other_bytes, u, places, v, other_places, w, room);
    if (j.words != (j.words == 0 ? 0 : j.doublings + j.additions + 1)) refuse("a pair's tape has not top - 1 + columns words");
    put(j.refusal, 1), put(j.place, 2), put(j.columns, 2), put(j.top, 2), put(j.words, 2), put(j.doublings, 2), put(j.additions, 2);
    given_back(&scalars);
    given_back(&others);
    put_lent(&digits, 1);
    put_lent(&seconds, 1);
    put_lent(&words, 2);
}

static void run_joint(int at_end) {
    size_t room = take(2);
    uint32_t modulus = take(4), g = take(4), h = take(4);
    size_t count = left / 2;
    uint32_t *m = lend_to_write(&multiples, room, 4, 0xDEADBEEF, at_end);
    put_ran(sarvundole_run_joint(lend_words(count, at_end), count, modulus, g, h, m, room));
}

/* The digits one after another, each held to what a caller gets that keeps no reader. */
static void read_all(int at_end) {
    uint8_t width = (uint8_t)take(1);
    size_t calls = take(2), bytes = left;
    const uint8_t *s = lend(&scalars, bytes, at_end, frame);
    sarvundole_reader reader = sarvundole_reader_start(width, order, s, bytes);
    if (reader.order != (order != 0)) refuse("a reader is started in another order");
    put(reader.refusal, 1);
    for (size_t k = 0; k < calls; k++) {
        sarvundole_stepped next = sarvundole_reader_next(s, bytes, reader);
        sarvundole_reading r = sarvundole_read_at(width, order, s, bytes, (uint16_t)k);
        if (r.refusal != reader.refusal || r.given != next.given || r.digit != next.digit) refuse("a reader that is kept gives another digit");
        put(next.given, 1), put((uint8_t)next.digit, 1);
        reader = next.reader;
    }
    given_back(&scalars);
}

/* A reader that no start gave: inside a window the digit stands at its spot; where no window can open the reader is done. What is above the
 * scalar's bits is 0. What a call does not move is kept. */
static void made_up(uint16_t place, uint16_t spot, uint16_t floor, uint8_t width, int at_end) {
    const uint8_t told = (uint8_t)(place + width);
    const uint8_t scalar[] = {0xFF, 0x0D};
    const sarvundole_reader r = {place, spot, floor, width, -77, 99, told};
    const sarvundole_stepped next = sarvundole_reader_next(lend(&scalars, sizeof scalar, at_end, scalar), sizeof scalar, r);
    const int inside = floor < place, opens = 0 < place && place <= SARVUNDOLE_MOST_PLACES && 2 <= width && width <= 8;
    const int kept = inside || !opens, known = kept || place > 8 * sizeof scalar + 1;
    given_back(&scalars);
    if (next.given != (inside || opens)) refuse("a made-up reader is done, or is not");
    if (known && next.digit != (inside && place - 1 == spot ? -77 : 0)) refuse("a made-up reader gives another digit");
    if (next.reader.place != (next.given ? place - 1 : 0)) refuse("a made-up reader is at another place");
    if (kept && (next.reader.spot != spot || next.reader.floor != floor || next.reader.pending != -77)) refuse("a made-up window is not kept");
    if (next.reader.width != width || next.reader.refusal != 99 || next.reader.order != told) refuse("a made-up reader is not kept");
}

static void made_up_all(void) {
    static const uint16_t places[] = {0, 1, 2, 17, 18, 528, 529, 530, 65534, 65535};
    const size_t count = sizeof places / sizeof *places;
    for (size_t i = 0; i < count * count * count; i++)
        for (unsigned width = 0; width < 10; width++)
            for (int at_end = 0; at_end < 2; at_end++)
                made_up(places[i % count], places[i / count % count], places[i / count / count], (uint8_t)width, at_end);
}

/* Each number that a call gives has words of its own, and every other number has those of no refusal. */
static void worded(void) {
    const char *const none = sarvundole_refusal_words(6);
    for (unsigned a = 0; a < 300; a++) {
        const char *words = sarvundole_refusal_words(a);
        const int given = a != 6 && a <= SARVUNDOLE_SHORT_LINE;
        if ((strcmp(words, none) == 0) == given) refuse("a refusal has no words, or a number that is none has");
        for (unsigned b = 0; b < a && given; b++)
            if (strcmp(words, sarvundole_refusal_words(b)) == 0) refuse("two refusals have the same words");
    }
    if (strlen(SARVUNDOLE_VERSION) == 0) refuse("no version");
}

static void search(void) {
    uint8_t width = (uint8_t)take(1);
    sarvundole_searched s = sarvundole_search(take(4), width);
    put(s.refusal, 1), put(s.weight, 1);
}

static void choose(int at_end) {
    uint32_t entries = take(4);
    size_t bytes = left;
    sarvundole_chosen c = sarvundole_choose(order, lend(&scalars, bytes, at_end, frame), bytes, entries);
    put(c.refusal, 1), put(c.width, 1), put(c.total, 2);
    given_back(&scalars);
}

/* The part is read from its string. A string lent twice is the lighter as the first. */
static void lighter(int at_end) {
    uint8_t width = (uint8_t)take(1);
    size_t bytes = take(1);
    const uint8_t *s = lend(&scalars, bytes, at_end, frame);
    frame += bytes, left -= bytes;
    size_t first = take(2), second = left - first;
    const int8_t *a = lend(&strings, first, at_end, frame), *b = lend(&rivals, second, at_end, frame + first);
    sarvundole_picked p = sarvundole_lighter(width, order, s, bytes, a, first, b, second);
    sarvundole_picked same = sarvundole_lighter(width, order, s, bytes, a, first, a, first);
    if (p.which > 1 || (p.refusal && (p.which || p.places))) refuse("a refusal gives a part that is not an empty one of the first");
    if (p.places > (p.which ? second : first)) refuse("a part is longer than its string");
    if (p.refusal == 0 && p.which == 0 && (same.refusal || same.which || same.places != p.places)) refuse("a string beside itself is not the lighter as the first");
    put(p.refusal, 1), put(p.places, 2);
    for (size_t i = 0; i < p.places; i++) put((uint8_t)(p.which ? b : a)[i], 1);
    given_back(&scalars);
    given_back(&strings);
    given_back(&rivals);
}

static void write_line(int at_end) {
    uint8_t version = (uint8_t)take(1);
    size_t room = take(2), places = left;
    uint8_t *l = lend_to_write(&written, room, 1, 0x2E, at_end);
    sarvundole_framed f = sarvundole_write(version, lend(&strings, places, at_end, frame), places, l, room);
    put(f.refusal, 1), put(f.length, 2);
    given_back(&strings);
    put_lent(&written, 1);
}

static void read_line(int at_end) {
    size_t places = take(2), characters = left;
    int8_t *d = lend_to_write(&digits, places, 1, 0x5A, at_end);
    sarvundole_parsed p = sarvundole_read(lend(&lines, characters, at_end, frame), characters, d, places);
    put(p.refusal, 1), put(p.stated, 1), put(p.weight, 2), put(p.top, 2), put(p.places, 2);
    given_back(&lines);
    put_lent(&digits, 1);
}

/* Any byte but 1 asks for version 2. */
static void versions(void) {
    const int8_t digits[] = {0, -3, 0};
    for (unsigned version = 0; version < 256; version++) {
        uint8_t line[32];
        sarvundole_framed f = sarvundole_write((uint8_t)version, digits, sizeof digits, line, sizeof line);
        if (f.refusal || f.length != (version == 1 ? 16 : 20) || line[0] != (version == 1 ? '0' : 'A')) refuse("a version is another");
    }
}

static void call(const uint8_t *data, size_t bytes, int at_end) {
    frame = data;
    left = bytes;
    answered = 0;
    const uint32_t asked = take(1);
    order = asked < 0x80 ? 0 : at_end ? 0xFF : 1;
    between = (asked & 0x40) != 0;
    switch (asked & 0x3F) {
    case 1: recode(at_end); break;
    case 2: check(at_end, 0); break;
    case 3: check(at_end, 1); break;
    case 4: tape(at_end); break;
    case 5: run(at_end, 0); break;
    case 6: read_all(at_end); break;
    case 7: search(); break;
    case 8: run_powers(at_end); break;
    case 9: joint(at_end); break;
    case 10: run_joint(at_end); break;
    case 11: recode_below(at_end); break;
    case 12: translate(at_end); break;
    case 13: run(at_end, 1); break;
    case 14: write_line(at_end); break;
    case 15: read_line(at_end); break;
    case 16: choose(at_end); break;
    case 17: lighter(at_end); break;
    default: abort();
    }
}

int main(void) {
    static char line[MOST_LINE];
    static uint8_t data[MOST_LINE / 2], before[MOST_ANSWER];
    page = (size_t)sysconf(_SC_PAGESIZE);
    memory *const all[] = {&scalars, &others, &groups, &strings, &rivals, &tapes, &lines, &digits, &seconds, &marks, &words, &multiples, &inverses, &written};
    for (size_t i = 0; i < sizeof all / sizeof *all; i++) make(all[i]);
    made_up_all();
    worded();
    versions();
    while (fgets(line, sizeof line, stdin)) {
        size_t bytes = strcspn(line, "\n") / 2;
        for (size_t i = 0; i < bytes; i++) {
            unsigned byte = 0;
            sscanf(line + 2 * i, "%2x", &byte);
            data[i] = (uint8_t)byte;
        }
        call(data, bytes, 0);
        memcpy(before, answer, answered);
        size_t long_before = answered;
        call(data, bytes, 1);
        if (answered != long_before || memcmp(before, answer, answered)) refuse("the place of the buffers changes the answer");
        for (size_t i = 0; i < answered; i++) printf("%02X", answer[i]);
        putchar('\n');
    }
    return 0;
}
