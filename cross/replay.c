/*
 * Puts the stored cases to the library on the processor that this is compiled for: every answer and every later byte of every slice is compared,
 * also of those that are lent for reading only, and guard bytes around each. Then the same with wrong expectations, each of which must be noticed.
 * The format of the cases is described in independent/README.md. Prints how many there were of each kind and how many came out different.
 */
#include "groovepawn.h"
#include <stdio.h>
#include <string.h>

extern const uint8_t cases_begin[], cases_end[], wrong_begin[], wrong_end[];

enum { POLICY = 8192, STRING = 65600, NUMBERS = 136, TOTALS = 4, GUARD = 16, GUARDED = 0xC3, PARTS = 12, WORK = 5 };

/* What a function is given, in the order of its record, and what of that it writes: b h w numbers of 1, 2 and 4 bytes; s n a string and numbers of
   16 bits; S N T R a string and numbers of 16, 32 and 64 bits, written; p q a string and numbers of 32 bits that are scratch, and k the five work
   slices: what these hold afterwards is not compared. */
static const struct kind { const char *name, *given; } kinds[] = {
    {"prepare", "bsS"}, {"input", "bssnb"}, {"output", "bssNbb"}, {"run", "bssNsS"}, {"join", "ssS"}, {"ticks", "wwb"},
    {"wave_write", "ssS"}, {"wave_read", "ssS"}, {"index", "sN"}, {"input_indexed", "bssnnb"}, {"output_indexed", "bssNnbb"},
    {"bays_new", "N"}, {"bay_input", "bssnwb"}, {"bay_output", "bssNwbb"}, {"meter_new", "NTh"}, {"meter_input", "bssnhb"},
    {"meter_output", "bssNThbb"}, {"prepare_fast", "bsSk"}, {"clean", "bsSS"}, {"why", "bssnbb"},
    {"check", "s"}, {"why_run", "bssNsRqqpk"}, {"text_read", "sS"}, {"text_write", "sS"}, {"text_line_of_rule", "sw"},
    {"text_name_of_signal", "sw"}, {"text_name_of_clock", "sw"}, {"text_name_of_location", "sw"},
};
enum { KINDS = sizeof kinds / sizeof *kinds };

/* One thing that a function is given: a number, or a slice with guards around it. */
struct part { char kind; uint32_t number; uint8_t *bytes; size_t len; };

static struct part parts[PARTS];
static uint16_t work[WORK][NUMBERS];
static size_t work_len[WORK];

/* Memory for the slices of one record. */
static _Alignas(8) uint8_t room[4 * (STRING + 2 * GUARD)];
static size_t used;

/* A place in the file. A record that goes past its end is malformed. */
static const uint8_t *at, *end;
static int malformed;

static uint64_t number(int bytes) {
    uint64_t n = 0;
    if (end - at < bytes) { malformed = 1; at = end; return 0; }
    while (bytes--) n = n << 8 | *at++;
    return n;
}

/* The next piece of a packed string: how many bytes it makes; each is given by next_byte. */
static int repeats;
static size_t piece(void) {
    uint8_t k = (uint8_t)number(1);
    repeats = k > 127;
    return repeats ? k - 127u : k + 1u;
}

/* Unpacks a string into bytes, or compares it with them. Says whether they are equal. */
static int string(uint8_t *bytes, size_t len, int compare) {
    int same = 1;
    for (size_t made = 0; made < len && !malformed;) {
        size_t more = piece();
        if (len - made < more) { malformed = 1; break; }
        for (size_t i = 0; i < more; i++) {
            uint8_t byte = (uint8_t)(repeats && i > 0 ? at[-1] : number(1));
            if (compare) same &= bytes[made + i] == byte;
            else bytes[made + i] = byte;
        }
        made += more;
    }
    return same;
}

/* The same for numbers of so many bytes, high byte first. */
static int numbers(uint8_t *bytes, size_t len, int size, int compare) {
    int same = 1;
    for (size_t i = 0; i < len; i++) {
        uint64_t n = number(size);
        uint16_t *pair = (uint16_t *)bytes + i;
        uint32_t *total = (uint32_t *)bytes + i;
        uint64_t *reason = (uint64_t *)bytes + i;
        if (compare) same &= n == (size == 2 ? *pair : size == 4 ? *total : *reason);
        else if (size == 2) *pair = (uint16_t)n;
        else if (size == 4) *total = (uint32_t)n;
        else *reason = n;
    }
    return same;
}

static int size_of(char kind) { return kind == 'n' || kind == 'N' ? 2 : kind == 'R' ? 8 : 4; }
static int is_string(char kind) { return kind == 's' || kind == 'S' || kind == 'p'; }
/* What is lent for reading only is compared with what was given. */
static int is_read_only(char kind) { return kind == 's' || kind == 'n'; }

/* Memory for a slice of so many bytes, with guards. */
static uint8_t *lend(size_t bytes) {
    size_t whole = (bytes + 2 * GUARD + 7) / 8 * 8;
    if (sizeof room - used < whole) { malformed = 1; return room + GUARD; }
    uint8_t *slice = room + used + GUARD;
    memset(slice - GUARD, GUARDED, GUARD);
    memset(slice + bytes, GUARDED, GUARD);
    used += whole;
    return slice;
}

static int guarded(const uint8_t *slice, size_t bytes) {
    for (int i = 0; i < GUARD; i++) if (slice[-1 - i] != GUARDED || slice[bytes + (size_t)i] != GUARDED) return 0;
    return 1;
}

static size_t bytes_of(const struct part *part) { return is_string(part->kind) ? part->len : part->len * (size_t)size_of(part->kind); }

/* Reads what the function is given, or compares what was lent for reading only with it. */
static int take(const char *given, int compare) {
    int same = 1;
    for (int i = 0; given[i]; i++) {
        struct part *part = &parts[i];
        char kind = given[i];
        if (!compare) *part = (struct part){kind, 0, room + GUARD, 0};
        /* What was written is compared with what is expected; here it is passed over. */
        int skip = compare && !is_read_only(kind);
        if (kind == 'b' || kind == 'h' || kind == 'w') {
            part->number = (uint32_t)number(kind == 'b' ? 1 : kind == 'h' ? 2 : 4);
        } else if (kind == 'k') {
            for (int w = 0; w < WORK; w++) {
                work_len[w] = (size_t)number(1);
                if (work_len[w] > NUMBERS) { malformed = 1; return 0; }
                uint16_t passed[NUMBERS];
                numbers((uint8_t *)(compare ? passed : work[w]), work_len[w], 2, 0);
            }
        } else {
            part->len = (size_t)number(is_string(kind) ? 4 : 1);
            if (part->len > STRING) { malformed = 1; return 0; }
            if (!compare) part->bytes = lend(bytes_of(part));
            if (malformed) return 0;
            static _Alignas(8) uint8_t passed[STRING];
            uint8_t *bytes = skip ? passed : part->bytes;
            int check = compare && !skip;
            same &= is_string(kind) ? string(bytes, part->len, check) : numbers(bytes, part->len, size_of(kind), check);
            if (compare) same &= guarded(part->bytes, bytes_of(part));
        }
    }
    return same;
}

/* The n-th part of this kind. */
static struct part *written(const char *given, char kind, int n) {
    for (int i = 0; given[i]; i++) if (given[i] == kind && n-- == 0) return &parts[i];
    return NULL;
}

static int after(struct part *part) {
    if (!part) return 1;
    size_t len = (size_t)number(is_string(part->kind) ? 4 : 1);
    if (len != part->len) { malformed = 1; return 0; }
    return is_string(part->kind) ? string(part->bytes, len, 1) : numbers(part->bytes, len, size_of(part->kind), 1);
}

#define BYTES(i) parts[i].bytes, parts[i].len
#define PAIRS(i) (uint16_t *)parts[i].bytes, parts[i].len
#define WORDS(i) (uint32_t *)parts[i].bytes, parts[i].len
#define LONGS(i) (uint64_t *)parts[i].bytes, parts[i].len
#define BYTE(i) (uint8_t)parts[i].number
#define PAIR(i) (uint16_t)parts[i].number
#define WORD(i) parts[i].number
#define LENT(w) work[w], work_len[w]

static uint64_t call(int kind) {
    switch (kind) {
    case 1: return groovepawn_prepare(BYTE(0), BYTES(1), BYTES(2));
    case 2: return groovepawn_input(BYTE(0), BYTES(1), BYTES(2), PAIRS(3), BYTE(4));
    case 3: return groovepawn_output(BYTE(0), BYTES(1), BYTES(2), PAIRS(3), BYTE(4), BYTE(5));
    case 4: return groovepawn_run(BYTE(0), BYTES(1), BYTES(2), PAIRS(3), BYTES(4), BYTES(5));
    case 5: return groovepawn_join(BYTES(0), BYTES(1), BYTES(2));
    case 6: return groovepawn_ticks(WORD(0), WORD(1), BYTE(2));
    case 7: return groovepawn_wave_write(BYTES(0), BYTES(1), BYTES(2));
    case 8: return groovepawn_wave_read(BYTES(0), BYTES(1), BYTES(2));
    case 9: return groovepawn_index(BYTES(0), PAIRS(1));
    case 10: return groovepawn_input_indexed(BYTE(0), BYTES(1), PAIRS(4), BYTES(2), PAIRS(3), BYTE(5));
    case 11: return groovepawn_output_indexed(BYTE(0), BYTES(1), PAIRS(4), BYTES(2), PAIRS(3), BYTE(5), BYTE(6));
    case 12: return groovepawn_bays_new(PAIRS(0));
    case 13: return groovepawn_bay_input(BYTE(0), BYTES(1), BYTES(2), PAIRS(3), WORD(4), BYTE(5));
    case 14: return groovepawn_bay_output(BYTE(0), BYTES(1), BYTES(2), PAIRS(3), WORD(4), BYTE(5), BYTE(6));
    case 15: return groovepawn_meter_new(PAIRS(0), WORDS(1), PAIR(2));
    case 16: return groovepawn_meter_input(BYTE(0), BYTES(1), BYTES(2), PAIRS(3), PAIR(4), BYTE(5));
    case 17: return groovepawn_meter_output(BYTE(0), BYTES(1), BYTES(2), PAIRS(3), WORDS(4), PAIR(5), BYTE(6), BYTE(7));
    case 18: return groovepawn_prepare_fast(BYTE(0), BYTES(1), BYTES(2), LENT(0), LENT(1), LENT(2), LENT(3), LENT(4));
    case 19: return groovepawn_clean(BYTE(0), BYTES(1), BYTES(2), BYTES(3));
    case 20: return groovepawn_why(BYTE(0), BYTES(1), BYTES(2), PAIRS(3), BYTE(4), BYTE(5));
    case 21: return groovepawn_check(BYTES(0));
    case 23: return groovepawn_text_read(BYTES(0), BYTES(1));
    case 24: return groovepawn_text_write(BYTES(0), BYTES(1));
    case 25: return groovepawn_text_line_of_rule(BYTES(0), WORD(1));
    case 26: return groovepawn_text_name_of_signal(BYTES(0), WORD(1));
    case 27: return groovepawn_text_name_of_clock(BYTES(0), WORD(1));
    case 28: return groovepawn_text_name_of_location(BYTES(0), WORD(1));
    default:
        return groovepawn_why_run(BYTE(0), BYTES(1), BYTES(2), PAIRS(3), BYTES(4), LONGS(5), WORDS(6), WORDS(7), BYTES(8), LENT(0), LENT(1), LENT(2),
                                  LENT(3), LENT(4));
    }
}

/* One record; says whether it came out as it should. */
static int record(int kind) {
    const char *given = kinds[kind - 1].given;
    const uint8_t *begin = at;
    used = 0;
    take(given, 0);
    if (malformed) return 0;
    uint64_t answer = call(kind);
    const uint8_t *expected = at;
    at = begin;
    int same = take(given, 1);
    at = expected;
    same &= answer == number(8);
    same &= after(written(given, 'S', 0));
    same &= after(written(given, 'N', 0));
    same &= after(written(given, 'T', 0));
    same &= after(written(given, 'R', 0));
    same &= after(written(given, 'S', 1));
    return same;
}

/* How many records came out different, or -1 for a file that is none. */
static long replay(const char *title, const uint8_t *begin, const uint8_t *file_end) {
    static long counts[KINDS];
    long different = 0;
    memset(counts, 0, sizeof counts);
    at = begin, end = file_end, malformed = 0;
    if (number(4) != 0x47505632) return -1;
    for (uint64_t left = number(4); left > 0 && !malformed; left--) {
        int kind = (int)number(1);
        uint64_t length = number(4);
        if (kind < 1 || kind > KINDS || length > (uint64_t)(file_end - at)) return -1;
        const uint8_t *body_end = at + length;
        end = body_end;
        if (!record(kind)) different++;
        if (at != body_end) malformed = 1;
        end = file_end;
        counts[kind - 1]++;
    }
    if (malformed || at != file_end) return -1;
    printf("%s:", title);
    for (int kind = 0; kind < KINDS; kind++) printf(" %s %ld", kinds[kind].name, counts[kind]);
    printf("; different %ld\n", different);
    return different;
}

int main(void) {
    long different = replay("stored cases", cases_begin, cases_end);
    long wrong = replay("wrong expectations", wrong_begin, wrong_end);
    if (different < 0 || wrong < 0) {
        printf("malformed\n");
        return 1;
    }
    const uint8_t *count = wrong_begin + 4;
    long all = (long)count[0] << 24 | (long)count[1] << 16 | (long)count[2] << 8 | count[3];
    printf("%ld different, %ld of %ld wrong ones noticed\n", different, wrong, all);
    return different != 0 || wrong != all;
}
