/* Every call of the library against the baseline, in one process and in turn. First the two are held to each other on random input; then each
 * call is timed at several lengths, a batch of the one and a batch of the other, the first of the two changing each time. Prints how many inputs and
 * alternations there are, then a line a case: call, width, bytes, the median of library / baseline, and the least time of each in nanoseconds,
 * which other work on the machine changes least.
 *
 * With the word `count` it times nothing and makes each call on a few inputs, for bench/count, which counts instructions inside the calls alone, and ends a count
 * after each call of `counted`. Prints how many inputs there are, then a line for each call of `counted`: call, width, bytes and who answers. */
#include "baseline.h"

#include <stdio.h>
#include <stdlib.h>
#include <string.h>
#include <time.h>

enum { INPUTS = 512, COUNTED = 128, TURNS = 101, AGREED = 20000, ROOM_PLACES = 640, ROOM_WORDS = 1100, ROOM_MARKS = 10, ROOM_MULTIPLES = 140, ROOM_LINE = 3300 };

/* One call's input and the memory that it is lent. */
typedef struct {
    sarvundole_set set;
    uint8_t form, order;
    uint8_t scalar[80], other[80], group[80];
    size_t bytes, other_bytes, group_bytes, places, other_places, words, room, marks_room, multiples_room, inverses_room, line_room, characters;
    uint32_t modulus, base, unit, inverse, second, entries; /* unit times inverse is 1 modulo modulus */
    uint16_t calls;
    sarvundole_reader reader;
    int8_t digits[ROOM_PLACES], rival[ROOM_PLACES];
    uint16_t tape[ROOM_WORDS], chip[ROOM_WORDS], joint[ROOM_WORDS];
    size_t chip_words, joint_words;
    uint8_t line[ROOM_LINE];
} input;

typedef struct {
    int8_t digits[ROOM_PLACES], second[ROOM_PLACES];
    uint64_t marks[ROOM_MARKS];
    uint16_t words[ROOM_WORDS];
    uint32_t multiples[ROOM_MULTIPLES], inverses[ROOM_MULTIPLES];
    uint8_t line[ROOM_LINE];
    uint32_t fields[8];
} output;

/* ---- the calls, each as the library's or as the baseline's */
typedef void job(const input *in, output *out, int library);

static void tally(output *out, sarvundole_tally t) {
    out->fields[0] = t.refusal, out->fields[1] = t.place, out->fields[2] = t.weight, out->fields[3] = t.top;
}

static void recode(const input *in, output *out, int library) {
    tally(out, (library ? sarvundole_recode : baseline_recode)(in->form, in->set, in->order, in->scalar, in->bytes, out->digits, in->places, out->marks,
                                                               in->marks_room));
}

/* The same call in the set in the middle between the width and the next. */
static void recode_between(const input *in, output *out, int library) { recode(in, out, library); }

static void recode_below(const input *in, output *out, int library) {
    tally(out, (library ? sarvundole_recode_below : baseline_recode_below)(in->form, in->set, in->order, in->scalar, in->bytes, in->group, in->group_bytes,
                                                                           out->digits, in->places, out->marks, in->marks_room));
}

static void check(const input *in, output *out, int library) {
    tally(out, (library ? sarvundole_check : baseline_check)(in->set, in->order, in->scalar, in->bytes, in->digits, in->places));
}

static void check_nonadjacent(const input *in, output *out, int library) {
    tally(out, (library ? sarvundole_check_nonadjacent : baseline_check_nonadjacent)(in->set, in->order, in->scalar, in->bytes, in->digits, in->places));
}

static void tape(const input *in, output *out, int library) {
    sarvundole_taped t = (library ? sarvundole_tape : baseline_tape)(in->set, in->digits, in->places, out->words, in->room);
    out->fields[0] = t.refusal, out->fields[1] = t.place, out->fields[2] = t.words, out->fields[3] = t.doublings, out->fields[4] = t.additions;
}

static void ran(output *out, sarvundole_ran r) {
    out->fields[0] = r.refusal, out->fields[1] = r.place, out->fields[2] = r.residue;
    out->fields[3] = r.doublings, out->fields[4] = r.additions, out->fields[5] = r.cost.doublings, out->fields[6] = r.cost.additions;
}

static void run(const input *in, output *out, int library) {
    ran(out, (library ? sarvundole_run : baseline_run)(in->set, in->tape, in->words, in->modulus, in->base, out->multiples, in->multiples_room));
}

static void run_powers(const input *in, output *out, int library) {
    ran(out, (library ? sarvundole_run_powers : baseline_run_powers)(in->set, in->tape, in->words, in->modulus, in->unit, in->inverse, out->multiples, in->multiples_room,
                                                                     out->inverses, in->inverses_room));
}

static void translate(const input *in, output *out, int library) {
    sarvundole_translated t = (library ? sarvundole_translate : baseline_translate)(in->set, in->tape, in->words, out->words, in->room);
    out->fields[0] = t.refusal, out->fields[1] = t.place, out->fields[2] = t.words;
}

static void run_second(const input *in, output *out, int library) {
    ran(out, (library ? sarvundole_run_second : baseline_run_second)(in->set, in->chip, in->chip_words, in->modulus, in->base, out->multiples, in->multiples_room));
}

static void joint(const input *in, output *out, int library) {
    sarvundole_joined j = (library ? sarvundole_joint : baseline_joint)(in->order, in->scalar, in->bytes, in->other, in->other_bytes, out->digits, in->places, out->second,
                                                                        in->other_places, out->words, in->room);
    out->fields[0] = j.refusal, out->fields[1] = j.place, out->fields[2] = j.columns, out->fields[3] = j.top;
    out->fields[4] = j.words, out->fields[5] = j.doublings, out->fields[6] = j.additions;
}

static void run_joint(const input *in, output *out, int library) {
    ran(out, (library ? sarvundole_run_joint : baseline_run_joint)(in->joint, in->joint_words, in->modulus, in->base, in->second, out->multiples, in->multiples_room));
}

static void read_at(const input *in, output *out, int library) {
    sarvundole_reading r = (library ? sarvundole_read_at : baseline_read_at)(in->set.width, in->order, in->scalar, in->bytes, in->calls);
    out->fields[0] = r.refusal, out->fields[1] = r.given, out->fields[2] = (uint32_t)r.digit;
}

static sarvundole_reader next(const input *in, output *out, int library, sarvundole_reader reader, size_t at) {
    sarvundole_stepped r = (library ? sarvundole_reader_next : baseline_reader_next)(in->scalar, in->bytes, reader);
    out->fields[0] = r.given;
    out->digits[at] = r.digit;
    return r.reader;
}

static void reader_is(output *out, sarvundole_reader r) {
    out->fields[1] = r.place, out->fields[2] = r.spot, out->fields[3] = r.floor, out->fields[4] = r.width, out->fields[5] = (uint32_t)r.pending;
    out->fields[6] = r.refusal, out->fields[7] = r.order;
}

/* A whole sequence: the start, and as many calls as are asked for and one more. */
static void reader_next(const input *in, output *out, int library) {
    sarvundole_reader reader = (library ? sarvundole_reader_start : baseline_reader_start)(in->set.width, in->order, in->scalar, in->bytes);
    for (size_t i = 0; i <= in->calls; i++) reader = next(in, out, library, reader, i);
    reader_is(out, reader);
}

/* One call on a reader that no start gave. */
static void reader_next_on_any(const input *in, output *out, int library) { reader_is(out, next(in, out, library, in->reader, 0)); }

static void search(const input *in, output *out, int library) {
    sarvundole_searched r = (library ? sarvundole_search : baseline_search)(in->base, in->set.width);
    out->fields[0] = r.refusal, out->fields[1] = r.weight;
}

/* As many entries as the width has multiples. */
static void choose(const input *in, output *out, int library) {
    sarvundole_chosen c = (library ? sarvundole_choose : baseline_choose)(in->order, in->scalar, in->bytes, in->entries);
    out->fields[0] = c.refusal, out->fields[1] = c.width, out->fields[2] = c.total;
}

/* The string, and the wNAF of width 2. */
static void lighter(const input *in, output *out, int library) {
    sarvundole_picked p = (library ? sarvundole_lighter : baseline_lighter)(in->set.width, in->order, in->scalar, in->bytes, in->digits, in->places, in->rival,
                                                                            8 * in->bytes + 1);
    out->fields[0] = p.refusal, out->fields[1] = p.which, out->fields[2] = p.places;
}

static void write_as(const input *in, output *out, int library, uint8_t version) {
    sarvundole_framed f = (library ? sarvundole_write : baseline_write)(version, in->digits, in->places, out->line, in->line_room);
    out->fields[0] = f.refusal, out->fields[1] = f.length;
}

static void write_1(const input *in, output *out, int library) { write_as(in, out, library, 1); }

static void write_2(const input *in, output *out, int library) { write_as(in, out, library, 2); }

static void read_line(const input *in, output *out, int library) {
    sarvundole_parsed p = (library ? sarvundole_read : baseline_read)(in->line, in->characters, out->digits, in->places);
    out->fields[0] = p.refusal, out->fields[1] = p.stated, out->fields[2] = p.weight, out->fields[3] = p.top, out->fields[4] = p.places;
}

/* The same call on lines of either version. */
static void read_1(const input *in, output *out, int library) { read_line(in, out, library); }

static void read_2(const input *in, output *out, int library) { read_line(in, out, library); }

/* ---- random input */
static uint64_t state = 1;

static uint32_t chance(uint32_t below) {
    state = state * 6364136223846793005u + 1442695040888963407u;
    return (uint32_t)((state >> 33) % below);
}

static uint32_t any32(void) { return chance(65536) << 16 | chance(65536); }

/* The inverse of a number modulo an odd modulus, by Euclid's steps, or 0 where there is none. */
static uint32_t inverse_of(uint32_t number, uint32_t modulus) {
    int64_t a = modulus, b = number % modulus, x = 0, y = 1;
    while (b) {
        const int64_t quotient = a / b, rest = a % b, next = x - quotient * y;
        a = b, b = rest, x = y, y = next;
    }
    return a == 1 ? (uint32_t)(x < 0 ? x + modulus : x) : 0;
}

/* A base with an inverse modulo the input's modulus: the next from its base on. */
static void give_unit(input *in) {
    in->unit = in->base;
    while (in->inverse = inverse_of(in->unit, in->modulus), (uint64_t)in->unit * in->inverse % in->modulus != 1 % in->modulus) in->unit++;
}

/* An input that the calls accept: a random scalar below an order of bytes FF, its string in a form, and that string's tape, for the chip without subtraction too; another scalar, and the tape of both. */
static void accepted(input *in, uint8_t form, sarvundole_set set, uint8_t order, size_t bytes) {
    uint64_t marks[SARVUNDOLE_MARK_WORDS];
    memset(in, 0, sizeof *in);
    in->form = form, in->set = set, in->order = order, in->bytes = bytes;
    for (size_t i = 0; i < bytes; i++) in->scalar[i] = (uint8_t)chance(256);
    memset(in->group, 0xFF, in->group_bytes = bytes);
    in->places = 8 * bytes + 1, in->room = ROOM_WORDS, in->marks_room = SARVUNDOLE_MARK_WORDS, in->multiples_room = in->inverses_room = ROOM_MULTIPLES;
    in->modulus = any32() | 1, in->base = any32(), in->calls = (uint16_t)(8 * bytes);
    give_unit(in);
    baseline_recode(form, set, order, in->scalar, bytes, in->digits, in->places, marks, SARVUNDOLE_MARK_WORDS);
    baseline_recode(SARVUNDOLE_WNAF, sarvundole_whole(2), order, in->scalar, bytes, in->rival, in->places, marks, SARVUNDOLE_MARK_WORDS);
    in->entries = 1u << (set.width - 2);
    in->words = baseline_tape(set, in->digits, in->places, in->tape, ROOM_WORDS).words;
    in->chip_words = baseline_translate(set, in->tape, in->words, in->chip, ROOM_WORDS).words;
    in->line_room = ROOM_LINE;
    for (size_t i = 0; i < bytes; i++) in->other[i] = (uint8_t)chance(256);
    in->other_bytes = bytes, in->other_places = in->places, in->second = any32();
    int8_t first[SARVUNDOLE_MOST_PLACES], second[SARVUNDOLE_MOST_PLACES];
    in->joint_words = baseline_joint(order, in->scalar, bytes, in->other, bytes, first, in->places, second, in->places, in->joint, ROOM_WORDS).words;
}

/* The line of the input's string. */
static void framed(input *in, uint8_t version) { in->characters = baseline_write(version, in->digits, in->places, in->line, ROOM_LINE).length; }

/* Gives an order near the scalar: itself, or a byte other, and now and then bytes of nought before it, or another length. */
static void near(input *in) {
    const size_t front = chance(4) ? 0 : chance((uint32_t)(sizeof in->group - in->bytes));
    memset(in->group, 0, sizeof in->group);
    for (size_t i = 0; i < in->bytes; i++) in->group[front + i] = in->scalar[in->order ? in->bytes - 1 - i : i];
    in->group_bytes = front + in->bytes;
    if (in->group_bytes && chance(4)) in->group[chance((uint32_t)in->group_bytes)] ^= (uint8_t)(1 << chance(8));
    if (!chance(8)) in->group_bytes = chance(sizeof in->group);
}

/* A set of a whole width or, for form 2, of one in between. */
static sarvundole_set any_set(uint8_t form) {
    sarvundole_set set = sarvundole_whole((uint8_t)(form == 1 ? 2 : 2 + chance(7)));
    if (form == 2 && set.width < 8 && chance(2)) set.largest = (uint8_t)(set.largest + 2 * chance((set.largest + 3u) / 2));
    return set;
}

/* The same with a fault here and there, so that each refusal comes up. */
static void any(input *in) {
    uint8_t form = (uint8_t)(1 + chance(5));
    accepted(in, form, any_set(form), (uint8_t)(chance(2) ? 0 : chance(256)), chance(SARVUNDOLE_MOST_BYTES + 1));
    in->calls = (uint16_t)chance(600);
    if (!chance(4)) in->base = chance(140);
    in->reader = (sarvundole_reader){(uint16_t)chance(600), (uint16_t)chance(600), (uint16_t)chance(600), (uint8_t)chance(11), (int8_t)chance(256), 0, (uint8_t)chance(3)};
    if (!chance(8)) in->reader.place = (uint16_t)chance(65536), in->reader.floor = (uint16_t)chance(65536), in->reader.refusal = (uint8_t)chance(256);
    if (!chance(2)) near(in);
    if (chance(2)) in->entries = chance(2) ? chance(70) : any32();
    switch (chance(22)) {
    case 0: in->form = (uint8_t)chance(256); break;
    case 1: in->set.width = (uint8_t)chance(11); break;
    case 2: in->bytes = chance(80); break;
    case 3: in->places = chance(ROOM_PLACES); break;
    case 4: in->marks_room = chance(ROOM_MARKS); break;
    case 5: in->digits[chance((uint32_t)in->places)] = (int8_t)chance(256); break;
    case 6: in->scalar[chance(66)] ^= (uint8_t)(1 << chance(8)); break;
    case 7: in->room = chance((uint32_t)in->words + 1); break;
    case 8: in->modulus = chance(3); in->unit = chance(4), in->inverse = chance(4); break;
    case 9: in->words = in->chip_words = chance(ROOM_WORDS); break;
    case 10: in->multiples_room = chance(ROOM_MULTIPLES); break;
    case 11: in->tape[chance((uint32_t)in->words + 1)] = (uint16_t)chance(65536); break;
    case 12: in->line_room = chance(ROOM_LINE); break;
    case 13: in->other_bytes = chance(80); break;
    case 14: in->other_places = chance(ROOM_PLACES); break;
    case 15: in->joint[chance((uint32_t)in->joint_words + 1)] = (uint16_t)chance(65536); break;
    case 16: in->set.largest = (uint8_t)chance(256); break;
    case 17: in->inverses_room = chance(ROOM_MULTIPLES); break;
    case 18: in->inverse = any32(); break;
    case 19: in->chip[chance((uint32_t)in->chip_words + 1)] = (uint16_t)chance(65536); break;
    default: break;
    }
    framed(in, (uint8_t)(1 + chance(2)));
    switch (chance(8)) { /* the line, as a pulled card has it */
    case 0: in->characters = chance((uint32_t)in->characters + 1); break;
    case 1: in->line[chance((uint32_t)in->characters + 1)] = (uint8_t)chance(256); break;
    case 2: in->line[chance((uint32_t)in->characters + 1)] = (uint8_t)"0123456789ABCDEFabcdef"[chance(22)]; break;
    case 3:
        for (size_t i = 0; i < in->characters; i++)
            if (in->line[i] >= 'A' && chance(2)) in->line[i] |= 0x20;
        break;
    case 4: in->characters = 2, in->line[0] = (uint8_t)"01"[chance(2)]; break;
    case 5: in->characters += 6; break;
    default: break;
    }
}

static void agree(const char *name, job *call) {
    static input in;
    static output ours, theirs;
    for (int i = 0; i < AGREED; i++) {
        any(&in);
        memset(&ours, 0x5A, sizeof ours);
        memset(&theirs, 0x5A, sizeof theirs);
        call(&in, &ours, 1);
        call(&in, &theirs, 0);
        if (memcmp(&ours, &theirs, sizeof ours)) {
            fprintf(stderr, "bench: %s: the library and the baseline differ\n", name);
            exit(1);
        }
    }
}

/* ---- timing */
static double now(void) {
    struct timespec t;
    clock_gettime(CLOCK_MONOTONIC, &t);
    return 1e9 * (double)t.tv_sec + (double)t.tv_nsec;
}

static int rising(const void *a, const void *b) {
    double x = *(const double *)a, y = *(const double *)b;
    return (x > y) - (x < y);
}

static double median(double *xs) {
    qsort(xs, TURNS, sizeof *xs, rising);
    return xs[TURNS / 2];
}

static double least(const double *xs) {
    double found = xs[0];
    for (int t = 1; t < TURNS; t++) found = xs[t] < found ? xs[t] : found;
    return found;
}

static double batch(job *call, const input *ins, output *out, int library, int times) {
    double begun = now();
    for (int t = 0; t < times; t++)
        for (int i = 0; i < INPUTS; i++) call(&ins[i], out, library);
    return (now() - begun) / (times * INPUTS);
}

/* The inputs of a case: the same ones each time. The search takes every number in turn, and no scalar. */
static void prepare(input *ins, int count, job *call, uint8_t form, sarvundole_set set, uint8_t order, size_t bytes) {
    state = 1;
    for (int i = 0; i < count; i++) {
        accepted(&ins[i], form, set, order, bytes);
        if (call == search) ins[i].base = (uint32_t)(i % 128);
        framed(&ins[i], call == read_1 ? 1 : 2);
    }
}

static void time_one(const char *name, job *call, uint8_t form, sarvundole_set set, uint8_t order, size_t bytes) {
    static input ins[INPUTS];
    static output out;
    double ours[TURNS], theirs[TURNS], ratios[TURNS];
    prepare(ins, INPUTS, call, form, set, order, bytes);
    int times = 1;
    while (times < 1024 && batch(call, ins, &out, 0, times) * times * INPUTS < 1e5) times *= 2;
    for (int t = 0; t < TURNS; t++)
        for (int k = 0; k < 2; k++) {
            int library = (t + k) % 2;
            (library ? ours : theirs)[t] = batch(call, ins, &out, library, times);
        }
    for (int t = 0; t < TURNS; t++) ratios[t] = ours[t] / theirs[t];
    printf("%s\t%d\t%zu\t%.3f\t%.1f\t%.1f\n", name, set.width, bytes, median(ratios), least(ours), least(theirs));
}

/* ---- counting */
__attribute__((noinline)) void counted(job *call, const input *ins, output *out, int library) {
    for (int i = 0; i < COUNTED; i++) call(&ins[i], out, library);
}

static void count_one(const char *name, job *call, uint8_t form, sarvundole_set set, uint8_t order, size_t bytes) {
    static input ins[COUNTED];
    static output out;
    prepare(ins, COUNTED, call, form, set, order, bytes);
    for (int library = 0; library < 2; library++) {
        counted(call, ins, &out, library);
        printf("%s\t%d\t%zu\t%s\n", name, set.width, bytes, library ? "library" : "baseline");
    }
}

/* ---- the cases */
typedef struct {
    const char *name;
    job *call;
    uint8_t form, order, widths[6]; /* the widths end with 0; of a long row 4 and 8 alone are timed */
} row;

int main(int words, char **given) {
    static const row calls[] = {
        {"recode MOF", recode, 1, 0, {2}},
        {"recode wNAF", recode, 2, 0, {2, 4, 5, 6, 8}},
        {"recode wMOF", recode, 3, 0, {2, 4, 5, 6, 8}},
        {"recode closest", recode, 4, 0, {2, 4, 5, 6, 8}},
        {"recode closest, smaller", recode, 5, 0, {2, 4, 5, 6, 8}},
        {"check", check, 2, 0, {2, 4, 5, 6, 8}},
        {"check_nonadjacent", check_nonadjacent, 2, 0, {2, 4, 5, 6, 8}},
        {"tape", tape, 2, 0, {2, 4, 5, 6, 8}},
        {"run", run, 2, 0, {2, 4, 5, 6, 8}},
        {"run_powers", run_powers, 2, 0, {2, 4, 5, 6, 8}},
        {"read_at", read_at, 3, 0, {2, 4, 5, 6, 8}},
        {"reader_next", reader_next, 3, 0, {2, 4, 5, 6, 8}},
        {"write, version 1", write_1, 2, 0, {2, 4, 5, 6, 8}},
        {"write, version 2", write_2, 2, 0, {2, 4, 5, 6, 8}},
        {"read, version 1", read_1, 2, 0, {2, 4, 5, 6, 8}},
        {"read, version 2", read_2, 2, 0, {2, 4, 5, 6, 8}},
        {"search", search, 2, 0, {2, 3}},
        {"choose", choose, 2, 0, {4, 8}},
        {"lighter", lighter, 2, 0, {4, 8}},
        {"recode_below MOF", recode_below, 1, 0, {2}},
        {"recode_below wNAF", recode_below, 2, 0, {4, 8}},
        {"recode_below wMOF", recode_below, 3, 0, {4, 8}},
        {"translate", translate, 2, 0, {4, 8}},
        {"run_second", run_second, 2, 0, {4, 8}},
        {"joint", joint, 2, 0, {2}},
        {"run_joint", run_joint, 2, 0, {2}},
        {"joint, lowest first", joint, 2, 1, {2}},
        {"recode wNAF, in between", recode_between, 2, 0, {4, 7}},
        {"recode MOF, lowest first", recode, 1, 1, {2}},
        {"recode wNAF, lowest first", recode, 2, 1, {4, 8}},
        {"recode wMOF, lowest first", recode, 3, 1, {4, 8}},
        {"check, lowest first", check, 2, 1, {4, 8}},
        {"read_at, lowest first", read_at, 3, 1, {4, 8}},
        {"reader_next, lowest first", reader_next, 3, 1, {4, 8}},
    };
    static const size_t lengths[] = {8, 16, 32, 48, 66};
    const size_t count = sizeof calls / sizeof *calls;
    const int counting = words == 2 && !strcmp(given[1], "count");
    if (!counting) {
        for (size_t c = 0; c < count; c++) agree(calls[c].name, calls[c].call);
        agree("reader_next on any reader", reader_next_on_any);
    }
    if (counting) printf("%d\n", COUNTED);
    else printf("%d\t%d\n", INPUTS, TURNS);
    for (size_t c = 0; c < count; c++)
        for (const uint8_t *width = calls[c].widths; *width; width++)
            for (size_t l = 0; l < sizeof lengths / sizeof *lengths; l++) {
                const row *r = &calls[c];
                if (r->call == search && l > 0) continue;
                const size_t bytes = r->call == search ? 0 : lengths[l];
                sarvundole_set set = sarvundole_whole(*width);
                if (r->call == recode_between) set.largest = (uint8_t)(3 * set.largest / 2 + 1);
                if (counting && (!bytes || bytes == 32 || bytes == 66)) count_one(r->name, r->call, r->form, set, r->order, bytes);
                if (!counting && (!r->widths[2] || *width == 4 || *width == 8)) time_one(r->name, r->call, r->form, set, r->order, bytes);
            }
    return 0;
}
