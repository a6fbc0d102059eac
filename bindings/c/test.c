/* Calls every function of include/bruncadorza.h and checks what comes back. Exit status 1 where something differs. */
#include <stdio.h>
#include <string.h>

#include "bruncadorza.h"

/* The bytes of a string literal without its final 0, as the two arguments of a slice. */
#define BYTES(literal) (const uint8_t *)(literal), sizeof(literal) - 1

#define CHECK(true_thing) check((true_thing), #true_thing, __LINE__)

static int checks = 0;
static int wrong = 0;

static void check(int holds, const char *thing, int line) {
    checks += 1;
    if (!holds) {
        wrong += 1;
        printf("bindings/c/test.c:%d: does not hold: %s\n", line, thing);
    }
}

/* Whether `values` are these: how many follow, and so many values. */
static int are(const uint64_t *values, uint64_t count, const uint64_t *expected) {
    uint64_t i;
    if (values[0] != count) {
        return 0;
    }
    for (i = 0; i < count; i += 1) {
        if (values[i + 1] != expected[i]) {
            return 0;
        }
    }
    return 1;
}

static int none(const uint64_t *values) {
    return values[0] == 0;
}

static int one(const uint64_t *values, uint64_t a) {
    return are(values, 1, &a);
}

static int two(const uint64_t *values, uint64_t a, uint64_t b) {
    const uint64_t expected[2] = {a, b};
    return are(values, 2, expected);
}

static void leaves(void) {
    uint64_t values[BRUNCADORZA_VALUES];
    uint8_t out[4] = {0xEE, 0xEE, 0xEE, 0xEE};

    CHECK(bruncadorza_check_utf8(BYTES("\xC3\xA9")) == BRUNCADORZA_DONE);
    CHECK(bruncadorza_check_utf8(BYTES("\xC3")) == BRUNCADORZA_NOT_UTF8);
    CHECK(bruncadorza_find_space(BYTES("a b"), values) == BRUNCADORZA_DONE && one(values, 1));
    CHECK(bruncadorza_find_space(BYTES("ab"), values) == BRUNCADORZA_DONE && one(values, 0));
    CHECK(bruncadorza_find_space(BYTES("\xFF"), values) == BRUNCADORZA_NOT_UTF8 && none(values));
    CHECK(bruncadorza_read_decimal(BYTES("18446744073709551615"), values) == BRUNCADORZA_DONE && one(values, UINT64_MAX));
    CHECK(bruncadorza_read_decimal(BYTES("18446744073709551616"), values) == BRUNCADORZA_BAD_NUMBER && one(values, 19));
    CHECK(bruncadorza_read_decimal(BYTES("18446744073709551616a"), values) == BRUNCADORZA_BAD_NUMBER && one(values, 19));
    CHECK(bruncadorza_read_decimal(BYTES("+0018446744073709551616"), values) == BRUNCADORZA_BAD_NUMBER && one(values, 22));
    CHECK(bruncadorza_read_decimal(BYTES("184467440737095516150"), values) == BRUNCADORZA_BAD_NUMBER && one(values, 20));
    CHECK(bruncadorza_read_decimal(BYTES("+"), values) == BRUNCADORZA_BAD_NUMBER && one(values, 1));
    CHECK(bruncadorza_read_decimal(BYTES("+-"), values) == BRUNCADORZA_BAD_NUMBER && one(values, 1));
    CHECK(bruncadorza_read_decimal(BYTES("1a"), values) == BRUNCADORZA_BAD_NUMBER && one(values, 1));
    CHECK(bruncadorza_print_decimal(12345, out, 4, values) == BRUNCADORZA_SHORT && none(values));
    CHECK(memcmp(out, "\xEE\xEE\xEE\xEE", 4) == 0);
    CHECK(bruncadorza_print_decimal(123, out, 4, values) == BRUNCADORZA_DONE && one(values, 3));
    CHECK(memcmp(out, "123\xEE", 4) == 0);
}

/* Whether bruncadorza_split_line answers as bruncadorza_read_line does, and both change nothing behind the values. */
static int split_alike(const uint8_t *s, size_t n, size_t at) {
    uint64_t read[BRUNCADORZA_LINE_VALUES];
    uint64_t split[BRUNCADORZA_LINE_VALUES];
    uint64_t i;
    for (i = 0; i < BRUNCADORZA_LINE_VALUES; i += 1) {
        read[i] = 77;
        split[i] = 77;
    }
    if (bruncadorza_read_line(s, n, at, read) != bruncadorza_split_line(s, n, at, split)) {
        return 0;
    }
    for (i = 0; i < BRUNCADORZA_LINE_VALUES; i += 1) {
        if (split[i] != read[i] || (i > read[0] && read[i] != 77)) {
            return 0;
        }
    }
    return 1;
}

/* bruncadorza_read_line, and a check that the other reader answers the same. */
#define READ_LINE(...) read_line(__LINE__, __VA_ARGS__)

static uint64_t read_line(int line, const uint8_t *s, size_t n, size_t at, uint64_t *values) {
    check(split_alike(s, n, at), "bruncadorza_split_line answers the same", line);
    return bruncadorza_read_line(s, n, at, values);
}

static void lines(void) {
    static const char text[] = "1\t7\t.\tA\tC,G\t.\tPASS\tDP=9;DB\tGT\t0|2\t./1\r\n#";
    const uint8_t *s = (const uint8_t *)text;
    const size_t n = sizeof text - 1;
    const uint64_t expected[22] = {39, BRUNCADORZA_ENDING_RETURN_FEED, 0, 1, 2, 1, 4, 1, 6, 1, 8, 3, 12, 1, 14, 4, 19, 7, 27, 2, 30, 7};
    uint64_t values[BRUNCADORZA_LINE_VALUES];
    uint64_t place[BRUNCADORZA_VALUES];

    CHECK(READ_LINE(s, n, 0, values) == BRUNCADORZA_DONE && are(values, 22, expected));
    CHECK(bruncadorza_field_text(s, n, BRUNCADORZA_INFO, 19, 7, place) == BRUNCADORZA_DONE && two(place, 19, 7));
    CHECK(bruncadorza_field_text(s, n, BRUNCADORZA_ID, 4, 1, place) == BRUNCADORZA_DONE && two(place, 5, 0));
    CHECK(bruncadorza_field_text(s, n, BRUNCADORZA_QUAL, 12, 1, place) == BRUNCADORZA_DONE && none(place));
    CHECK(bruncadorza_field_text(s, n, BRUNCADORZA_CHROM, n, 1, place) == BRUNCADORZA_BEYOND && none(place));
    CHECK(bruncadorza_field_text(s, n, 10, 0, 1, place) == BRUNCADORZA_NOTHING && none(place));
    CHECK(READ_LINE(s, n, 39, values) == BRUNCADORZA_COLUMN_CUT && one(values, n));
    CHECK(READ_LINE(s, n, n, values) == BRUNCADORZA_END && one(values, n));
    CHECK(READ_LINE(s, n, n + 1, values) == BRUNCADORZA_BEYOND && one(values, n + 1));
    CHECK(READ_LINE(BYTES("\t"), 0, values) == BRUNCADORZA_EMPTY_COLUMN && one(values, 1));
    CHECK(READ_LINE(BYTES("1\n"), 0, values) == BRUNCADORZA_COLUMN_FED && one(values, 2));
    CHECK(bruncadorza_place_in(s, n, 1, n - 1, place) == BRUNCADORZA_DONE && two(place, 1, n - 1));
    CHECK(bruncadorza_place_in(s, n, 1, SIZE_MAX, place) == BRUNCADORZA_BEYOND && none(place));
    CHECK(bruncadorza_read_pos(BYTES("7"), values) == BRUNCADORZA_DONE && one(values, 7));
    CHECK(bruncadorza_read_pos(BYTES("0"), values) == BRUNCADORZA_DONE && none(values));
    CHECK(bruncadorza_read_pos(BYTES("00"), values) == BRUNCADORZA_BAD_POS && one(values, 2));
    CHECK(bruncadorza_read_pos(BYTES("+0"), values) == BRUNCADORZA_BAD_POS && one(values, 2));
    CHECK(bruncadorza_read_pos(BYTES("0a"), values) == BRUNCADORZA_BAD_POS && one(values, 1));
    CHECK(bruncadorza_read_pos(BYTES("+"), values) == BRUNCADORZA_BAD_POS && one(values, 1));
    CHECK(bruncadorza_read_pos(BYTES("18446744073709551616"), values) == BRUNCADORZA_BAD_POS && one(values, 19));
}

/* A line of eight columns of one byte each, without an ending. */
#define LINE "1\t7\t.\tA\tC\t.\t.\tx"
#define LINE_N 15

/* Whether `values` are those of LINE at the place `at`, with an ending of so many bytes. */
static int are_line(const uint64_t *values, uint64_t at, uint64_t ending) {
    uint64_t expected[22];
    uint64_t i;
    expected[0] = at + LINE_N + ending;
    expected[1] = ending;
    for (i = 0; i < 10; i += 1) {
        expected[2 + 2 * i] = i < 8 ? at + 2 * i : at + LINE_N;
        expected[3 + 2 * i] = i < 8 ? 1 : 0;
    }
    return are(values, 22, expected);
}

static void read_endings(void) {
    uint64_t values[BRUNCADORZA_LINE_VALUES];

    values[23] = 77;
    CHECK(READ_LINE(BYTES(LINE "\n" LINE "\r\n" LINE), 0, values) == BRUNCADORZA_DONE && are_line(values, 0, BRUNCADORZA_ENDING_FEED));
    CHECK(READ_LINE(BYTES(LINE "\n" LINE "\r\n" LINE), 16, values) == BRUNCADORZA_DONE && are_line(values, 16, BRUNCADORZA_ENDING_RETURN_FEED));
    CHECK(READ_LINE(BYTES(LINE "\n" LINE "\r\n" LINE), 33, values) == BRUNCADORZA_DONE && are_line(values, 33, BRUNCADORZA_ENDING_NOTHING));
    CHECK(READ_LINE(BYTES(LINE "\n"), 0, values) == BRUNCADORZA_DONE && are_line(values, 0, BRUNCADORZA_ENDING_FEED));
    CHECK(READ_LINE(BYTES(LINE "\r\n"), 0, values) == BRUNCADORZA_DONE && are_line(values, 0, BRUNCADORZA_ENDING_RETURN_FEED));
    CHECK(READ_LINE(BYTES(LINE), 0, values) == BRUNCADORZA_DONE && are_line(values, 0, BRUNCADORZA_ENDING_NOTHING));
    /* A CR that no LF follows, and one before a CR LF, belong to INFO. */
    CHECK(READ_LINE(BYTES(LINE "\r"), 0, values) == BRUNCADORZA_DONE && values[0] == 22);
    CHECK(values[1] == 16 && values[2] == BRUNCADORZA_ENDING_NOTHING && values[17] == 14 && values[18] == 2);
    CHECK(READ_LINE(BYTES(LINE "\r\r\n"), 0, values) == BRUNCADORZA_DONE && values[0] == 22);
    CHECK(values[1] == 18 && values[2] == BRUNCADORZA_ENDING_RETURN_FEED && values[17] == 14 && values[18] == 2);
    CHECK(values[23] == 77);
}

/* From each place of a text with every refusal in it, and from beyond its end. */
static void split_lines(void) {
    static const char text[] = LINE "\n\t\n1\n\xFF\t" LINE "\tGT\t0|1\r\n#";
    uint64_t values[BRUNCADORZA_LINE_VALUES];
    int seen[BRUNCADORZA_BEYOND + 1] = {0};
    uint64_t number;
    size_t at;

    for (at = 0; at <= sizeof text; at += 1) {
        number = READ_LINE((const uint8_t *)text, sizeof text - 1, at, values);
        if (number <= BRUNCADORZA_BEYOND) {
            seen[number] = 1;
        }
    }
    for (number = BRUNCADORZA_DONE; number <= BRUNCADORZA_BEYOND; number += 1) {
        CHECK(seen[number]);
    }
}

/* A line's record in both forms. First of LINE and `GT` and `0|1` behind it, at the place 5; then of LINE alone, at the place 0. */
static const size_t sampled_numbers[BRUNCADORZA_NUMBERS] = {5, 6, 8, 10, 12, 14, 16, 18, 20, 23, 27};
static const size_t sampled_places[BRUNCADORZA_PLACES] = {5, 1, 7, 1, 9, 1, 11, 1, 13, 1, 15, 1, 17, 1, 19, 1, 21, 2, 24, 3};
static const size_t bare_numbers[BRUNCADORZA_NUMBERS] = {0, 1, 3, 5, 7, 9, 11, 13, 15, 15, 15};
static const size_t bare_places[BRUNCADORZA_PLACES] = {0, 1, 2, 1, 4, 1, 6, 1, 8, 1, 10, 1, 12, 1, 14, 1, 15, 0, 15, 0};

/* Whether `values` are an ending and the numbers of a form. */
static int are_form(const uint64_t *values, uint64_t ending, const size_t *form, uint64_t count) {
    uint64_t i;
    if (values[0] != count + 1 || values[1] != ending) {
        return 0;
    }
    for (i = 0; i < count; i += 1) {
        if (values[i + 2] != form[i]) {
            return 0;
        }
    }
    return 1;
}

/* Each ending, with FORMAT and without, both ways. */
static void record_forms(void) {
    uint64_t values[BRUNCADORZA_LINE_VALUES];
    uint64_t ending;

    values[22] = 77;
    values[23] = 77;
    for (ending = BRUNCADORZA_ENDING_NOTHING; ending <= BRUNCADORZA_ENDING_RETURN_FEED; ending += 1) {
        values[13] = 77;
        CHECK(bruncadorza_narrow(ending, sampled_places, values) == BRUNCADORZA_DONE && are_form(values, ending, sampled_numbers, 11));
        CHECK(bruncadorza_narrow(ending, bare_places, values) == BRUNCADORZA_DONE && are_form(values, ending, bare_numbers, 11));
        CHECK(values[13] == 77);
        CHECK(bruncadorza_widen(ending, sampled_numbers, values) == BRUNCADORZA_DONE && are_form(values, ending, sampled_places, 20));
        CHECK(bruncadorza_widen(ending, bare_numbers, values) == BRUNCADORZA_DONE && are_form(values, ending, bare_places, 20));
        CHECK(values[22] == 77 && values[23] == 77);
    }
}

/* A line that is read, kept small, and its places again. */
static void kept_records(void) {
    uint64_t read[BRUNCADORZA_LINE_VALUES];
    uint64_t kept[BRUNCADORZA_LINE_VALUES];
    uint64_t back[BRUNCADORZA_LINE_VALUES];

    CHECK(READ_LINE(BYTES("#\r\n#\n" LINE "\tGT\t0|1\r\n#"), 5, read) == BRUNCADORZA_DONE && read[0] == 22);
    CHECK(bruncadorza_narrow(read[2], &read[3], kept) == BRUNCADORZA_DONE);
    CHECK(are_form(kept, BRUNCADORZA_ENDING_RETURN_FEED, sampled_numbers, 11));
    CHECK(bruncadorza_widen(kept[1], &kept[2], back) == BRUNCADORZA_DONE && are(back, 21, &read[2]));
    CHECK(READ_LINE(BYTES(LINE), 0, read) == BRUNCADORZA_DONE && read[0] == 22);
    CHECK(bruncadorza_narrow(read[2], &read[3], kept) == BRUNCADORZA_DONE);
    CHECK(are_form(kept, BRUNCADORZA_ENDING_NOTHING, bare_numbers, 11));
    CHECK(bruncadorza_widen(kept[1], &kept[2], back) == BRUNCADORZA_DONE && are(back, 21, &read[2]));
}

/* Whether a form is refused, and of `values` nothing is changed but how many follow. */
static int refuses(uint64_t turn(uint64_t, const size_t *, uint64_t *), uint64_t ending, const size_t *form) {
    uint64_t values[BRUNCADORZA_LINE_VALUES];
    uint64_t i;
    for (i = 0; i < BRUNCADORZA_LINE_VALUES; i += 1) {
        values[i] = 77;
    }
    if (turn(ending, form, values) != BRUNCADORZA_NOT_MADE || !none(values)) {
        return 0;
    }
    for (i = 1; i < BRUNCADORZA_LINE_VALUES; i += 1) {
        if (values[i] != 77) {
            return 0;
        }
    }
    return 1;
}

/* The same of places with number i set to n. */
static int refuses_place(const size_t *places, size_t i, size_t n) {
    size_t changed[BRUNCADORZA_PLACES];
    memcpy(changed, places, sizeof changed);
    changed[i] = n;
    return refuses(bruncadorza_narrow, BRUNCADORZA_ENDING_FEED, changed);
}

/* The same of the small form. */
static int refuses_number(const size_t *numbers, size_t i, size_t n) {
    size_t changed[BRUNCADORZA_NUMBERS];
    memcpy(changed, numbers, sizeof changed);
    changed[i] = n;
    return refuses(bruncadorza_widen, BRUNCADORZA_ENDING_FEED, changed);
}

static void refused_places(void) {
    size_t most[BRUNCADORZA_PLACES];
    size_t i;

    CHECK(refuses(bruncadorza_narrow, 3, bare_places));
    CHECK(refuses(bruncadorza_narrow, UINT64_MAX, bare_places));
    CHECK(refuses(bruncadorza_narrow, (UINT64_C(1) << 32) + 1, bare_places));
    for (i = 0; i < BRUNCADORZA_PLACES; i += 1) {
        most[i] = SIZE_MAX;
        CHECK(refuses_place(sampled_places, i, SIZE_MAX));
        CHECK(refuses_place(bare_places, i, SIZE_MAX));
        /* A start off by one, or a field longer by one. */
        CHECK(refuses_place(bare_places, i, bare_places[i] + 1));
    }
    CHECK(refuses(bruncadorza_narrow, BRUNCADORZA_ENDING_FEED, most));
    /* The same with FORMAT; the samples alone may be longer. */
    for (i = 0; i < 19; i += 1) {
        CHECK(refuses_place(sampled_places, i, sampled_places[i] + 1));
    }
    for (i = 0; i < 10; i += 1) {
        CHECK(refuses_place(sampled_places, 2 * i, sampled_places[2 * i] - 1));
        /* An empty field. */
        CHECK(refuses_place(sampled_places, 2 * i + 1, 0));
    }
}

static void refused_numbers(void) {
    size_t most[BRUNCADORZA_NUMBERS];
    size_t i;

    CHECK(refuses(bruncadorza_widen, 3, bare_numbers));
    CHECK(refuses(bruncadorza_widen, UINT64_MAX, bare_numbers));
    CHECK(refuses(bruncadorza_widen, (UINT64_C(1) << 32) + 1, bare_numbers));
    for (i = 0; i < BRUNCADORZA_NUMBERS; i += 1) {
        most[i] = SIZE_MAX;
        CHECK(refuses_number(sampled_numbers, i, SIZE_MAX));
        CHECK(refuses_number(bare_numbers, i, SIZE_MAX));
        /* A start or an end off by one, which makes a field empty or parts FORMAT and the samples from INFO's end. */
        CHECK(refuses_number(bare_numbers, i, bare_numbers[i] + 1));
    }
    CHECK(refuses(bruncadorza_widen, BRUNCADORZA_ENDING_FEED, most));
    /* An empty field: each starts past one tab behind the end before it. */
    CHECK(refuses_number(sampled_numbers, 0, sampled_numbers[1]));
    CHECK(refuses_number(sampled_numbers, 1, sampled_numbers[0]));
    for (i = 2; i < BRUNCADORZA_NUMBERS; i += 1) {
        CHECK(refuses_number(sampled_numbers, i, sampled_numbers[i - 1] + 1));
        /* No tab between, which only FORMAT's absence allows. */
        CHECK(refuses_number(sampled_numbers, i, sampled_numbers[i - 1]));
    }
}

/* A text and its ending end where the longest input ends, and one byte further on. */
static void farthest_forms(void) {
    size_t numbers[BRUNCADORZA_NUMBERS];
    size_t places[BRUNCADORZA_PLACES];
    uint64_t values[BRUNCADORZA_LINE_VALUES];
    uint64_t ending;
    size_t i;

    for (ending = BRUNCADORZA_ENDING_NOTHING; ending <= BRUNCADORZA_ENDING_RETURN_FEED; ending += 1) {
        const size_t by = (size_t)INT64_MAX - (size_t)ending - LINE_N;
        for (i = 0; i < BRUNCADORZA_NUMBERS; i += 1) {
            numbers[i] = bare_numbers[i] + by;
        }
        for (i = 0; i < BRUNCADORZA_PLACES; i += 1) {
            places[i] = i % 2 == 0 ? bare_places[i] + by : bare_places[i];
        }
        CHECK(bruncadorza_narrow(ending, places, values) == BRUNCADORZA_DONE && are_form(values, ending, numbers, 11));
        CHECK(bruncadorza_widen(ending, numbers, values) == BRUNCADORZA_DONE && are_form(values, ending, places, 20));
        for (i = 0; i < BRUNCADORZA_NUMBERS; i += 1) {
            numbers[i] += 1;
        }
        for (i = 0; i < BRUNCADORZA_PLACES; i += 2) {
            places[i] += 1;
        }
        CHECK(refuses(bruncadorza_narrow, ending, places));
        CHECK(refuses(bruncadorza_widen, ending, numbers));
    }
}

static void infos(void) {
    const uint64_t with_value[5] = {5, 0, 2, 3, 1};
    const uint64_t without[3] = {7, 5, 2};
    uint64_t values[BRUNCADORZA_VALUES];

    CHECK(bruncadorza_info_step(BYTES("DP=9;DB"), 0, values) == BRUNCADORZA_DONE && are(values, 5, with_value));
    CHECK(bruncadorza_info_step(BYTES("DP=9;DB"), 5, values) == BRUNCADORZA_DONE && are(values, 3, without));
    CHECK(bruncadorza_info_step(BYTES("DP=9;DB"), 7, values) == BRUNCADORZA_NOTHING && one(values, 7));
    CHECK(bruncadorza_info_step(BYTES("DP=9;DB"), 8, values) == BRUNCADORZA_BEYOND && one(values, 8));
    CHECK(bruncadorza_info_step(BYTES("a;"), 0, values) == BRUNCADORZA_INFO_AFTER_KEY && one(values, 2));
    CHECK(bruncadorza_info_step(BYTES("=b"), 0, values) == BRUNCADORZA_INFO_NO_KEY && one(values, 1));
    CHECK(bruncadorza_info_step(BYTES("a=b;"), 0, values) == BRUNCADORZA_INFO_AFTER_VALUE && one(values, 4));
    CHECK(bruncadorza_info_find(BYTES("DP=9;DB"), BYTES("DB"), values) == BRUNCADORZA_DONE && are(values, 3, without));
    CHECK(bruncadorza_info_find(BYTES("DP=9;DB"), BYTES("D"), values) == BRUNCADORZA_NOTHING && one(values, 7));
    CHECK(bruncadorza_info_value(BYTES("DP=9;DB"), BYTES("DP"), values) == BRUNCADORZA_DONE && two(values, 3, 1));
    CHECK(bruncadorza_info_value(BYTES("DP=9;DB"), BYTES("DB"), values) == BRUNCADORZA_DONE && two(values, 7, 0));
    CHECK(bruncadorza_info_count(BYTES("DP=9;DB")) == 2);
    CHECK(bruncadorza_info_count(BYTES("")) == 0);
}

static void samples(void) {
    const uint64_t more[3] = {0, 3, 4};
    uint64_t values[BRUNCADORZA_VALUES];

    CHECK(bruncadorza_samples_count(BYTES("0|2\t./1")) == 2);
    CHECK(bruncadorza_sample_at(BYTES("0|2\t./1"), 0, values) == BRUNCADORZA_DONE && are(values, 3, more));
    CHECK(bruncadorza_sample_at(BYTES("0|2\t./1"), 4, values) == BRUNCADORZA_DONE && two(values, 4, 3));
    CHECK(bruncadorza_sample_at(BYTES("0|2\t./1"), 8, values) == BRUNCADORZA_BEYOND && none(values));
    CHECK(bruncadorza_sample_at(BYTES(""), 0, values) == BRUNCADORZA_NOTHING && none(values));
    CHECK(bruncadorza_sample(BYTES("0|2\t./1"), 1, values) == BRUNCADORZA_DONE && two(values, 4, 3));
    CHECK(bruncadorza_sample(BYTES("0|2\t./1"), 2, values) == BRUNCADORZA_NOTHING && none(values));
    CHECK(bruncadorza_subfield(BYTES("9:0|2"), 1, values) == BRUNCADORZA_DONE && two(values, 2, 3));
    CHECK(bruncadorza_subfield(BYTES("9:0|2"), 2, values) == BRUNCADORZA_NOTHING && none(values));
    CHECK(bruncadorza_key_index(BYTES("DP:GT"), BYTES("GT"), values) == BRUNCADORZA_DONE && one(values, 1));
    CHECK(bruncadorza_key_index(BYTES("DP:GT"), BYTES("G"), values) == BRUNCADORZA_NOTHING && none(values));
}

static void judged_genotypes(void) {
    const uint64_t first[4] = {1, 0, 1, 0};
    const uint64_t second[4] = {4, 12, 0, 0};
    uint64_t values[BRUNCADORZA_VALUES];

    CHECK(bruncadorza_genotype_step(BYTES("./12"), 0, values) == BRUNCADORZA_DONE && are(values, 4, first));
    CHECK(bruncadorza_genotype_step(BYTES("./12"), 1, values) == BRUNCADORZA_DONE && are(values, 4, second));
    CHECK(bruncadorza_genotype_step(BYTES("./12"), 4, values) == BRUNCADORZA_NOTHING && none(values));
    CHECK(bruncadorza_genotype_step(BYTES("./12"), 5, values) == BRUNCADORZA_BEYOND && none(values));
    CHECK(bruncadorza_genotype_step(BYTES(""), 0, values) == BRUNCADORZA_GENOTYPE_EMPTY && none(values));
    CHECK(bruncadorza_genotype_step(BYTES("x"), 0, values) == BRUNCADORZA_BAD_NUMBER && one(values, 0));
    CHECK(bruncadorza_genotype_step(BYTES(".5"), 0, values) == BRUNCADORZA_BAD_NUMBER && one(values, 0));
    CHECK(bruncadorza_genotype_step(BYTES("0|1a"), 1, values) == BRUNCADORZA_BAD_NUMBER && one(values, 3));
    CHECK(bruncadorza_genotype_step(BYTES("0|"), 1, values) == BRUNCADORZA_BAD_NUMBER && one(values, 2));
    CHECK(bruncadorza_genotype_step(BYTES("0//1"), 1, values) == BRUNCADORZA_BAD_NUMBER && one(values, 2));
    CHECK(bruncadorza_genotype_step(BYTES("0|18446744073709551616"), 1, values) == BRUNCADORZA_BAD_NUMBER && one(values, 21));
    CHECK(bruncadorza_genotype_judge(BYTES("./12"), 2, values) == BRUNCADORZA_DONE && one(values, 2));
    CHECK(bruncadorza_genotype_judge(BYTES("./12"), 1, values) == BRUNCADORZA_SHORT && none(values));
    CHECK(bruncadorza_genotype_judge(BYTES("/"), 2, values) == BRUNCADORZA_BAD_NUMBER && two(values, 0, 1));
    CHECK(bruncadorza_genotype_judge(BYTES(".5"), 2, values) == BRUNCADORZA_BAD_NUMBER && two(values, 0, 0));
    CHECK(bruncadorza_genotype_judge(BYTES("0|"), 2, values) == BRUNCADORZA_BAD_NUMBER && two(values, 1, 2));
    CHECK(bruncadorza_genotype_judge(BYTES("0//1"), 0, values) == BRUNCADORZA_BAD_NUMBER && two(values, 1, 2));
    CHECK(bruncadorza_genotype_judge(BYTES("0|1a|b"), 2, values) == BRUNCADORZA_BAD_NUMBER && two(values, 1, 3));
    CHECK(bruncadorza_genotype_judge(BYTES("0|18446744073709551616"), 2, values) == BRUNCADORZA_BAD_NUMBER && two(values, 1, 21));
    CHECK(bruncadorza_genotype_judge_checked(BYTES("0/2"), BYTES("C,G"), 2, values) == BRUNCADORZA_DONE && one(values, 2));
    CHECK(bruncadorza_genotype_judge_checked(BYTES("0/3"), BYTES("C,G"), 2, values) == BRUNCADORZA_ABOVE_ALT && one(values, 1));
    CHECK(bruncadorza_genotype_judge_checked(BYTES("3|1|"), BYTES("C,G"), 2, values) == BRUNCADORZA_BAD_NUMBER && two(values, 2, 4));
    CHECK(bruncadorza_genotype_judge_checked(BYTES("3|1a"), BYTES("C,G"), 2, values) == BRUNCADORZA_BAD_NUMBER && two(values, 1, 3));
    CHECK(bruncadorza_genotype_judge_checked(BYTES("3|18446744073709551616"), BYTES("C,G"), 2, values) == BRUNCADORZA_BAD_NUMBER && two(values, 1, 21));
    CHECK(bruncadorza_genotype_judge_checked(BYTES("0/1"), BYTES("."), 2, values) == BRUNCADORZA_ABOVE_ALT && one(values, 1));
    CHECK(bruncadorza_genotype_judge_checked(BYTES("0/1"), BYTES(""), 2, values) == BRUNCADORZA_ABOVE_ALT && one(values, 1));
    CHECK(bruncadorza_genotype_judge_checked(BYTES("0|0"), BYTES("."), 2, values) == BRUNCADORZA_DONE && one(values, 2));
    CHECK(bruncadorza_genotype_judge_checked(BYTES("0|0"), BYTES(""), 2, values) == BRUNCADORZA_DONE && one(values, 2));
}

static void read_genotypes(void) {
    uint64_t numbers[3] = {7, 7, 7};
    uint8_t missing[3] = {7, 7, 7};
    uint8_t phased[3] = {7, 7, 7};
    uint64_t values[BRUNCADORZA_VALUES];

    CHECK(bruncadorza_read_genotype(BYTES(""), numbers, 3, missing, 3, phased, 3, values) == BRUNCADORZA_GENOTYPE_EMPTY && none(values));
    CHECK(bruncadorza_read_genotype(BYTES("0|x"), numbers, 3, missing, 3, phased, 3, values) == BRUNCADORZA_BAD_NUMBER && two(values, 1, 2));
    CHECK(bruncadorza_read_genotype(BYTES("0|1|"), numbers, 3, missing, 3, phased, 3, values) == BRUNCADORZA_BAD_NUMBER && two(values, 2, 4));
    CHECK(bruncadorza_read_genotype(BYTES("0|18446744073709551616"), numbers, 3, missing, 3, phased, 3, values) == BRUNCADORZA_BAD_NUMBER && two(values, 1, 21));
    CHECK(bruncadorza_read_genotype(BYTES("0|1"), numbers, 3, missing, 2, phased, 3, values) == BRUNCADORZA_BAD_LENGTHS && none(values));
    CHECK(bruncadorza_read_genotype(BYTES("0|1"), numbers, 1, missing, 1, phased, 1, values) == BRUNCADORZA_SHORT && none(values));
    CHECK(bruncadorza_read_genotype(BYTES("x"), numbers, 0, missing, 1, phased, 0, values) == BRUNCADORZA_BAD_LENGTHS && none(values));
    CHECK(bruncadorza_read_genotype(BYTES("x"), numbers, 0, missing, 0, phased, 0, values) == BRUNCADORZA_BAD_NUMBER && two(values, 0, 0));
    CHECK(numbers[0] == 7 && missing[0] == 7 && phased[0] == 7);
    CHECK(bruncadorza_read_genotype(BYTES(".|5"), numbers, 3, missing, 3, phased, 3, values) == BRUNCADORZA_DONE && one(values, 2));
    CHECK(numbers[0] == 0 && numbers[1] == 5 && numbers[2] == 7);
    CHECK(missing[0] == 1 && missing[1] == 0 && missing[2] == 7);
    CHECK(phased[0] == 1 && phased[1] == 1 && phased[2] == 7);
    CHECK(bruncadorza_read_genotype_checked(BYTES("3|0"), BYTES("C,G"), numbers, 3, missing, 3, phased, 3, values) == BRUNCADORZA_ABOVE_ALT && one(values, 0));
    CHECK(bruncadorza_read_genotype_checked(BYTES("3|1a"), BYTES("C,G"), numbers, 3, missing, 3, phased, 3, values) == BRUNCADORZA_BAD_NUMBER && two(values, 1, 3));
    CHECK(bruncadorza_read_genotype_checked(BYTES("3|1|"), BYTES("C,G"), numbers, 3, missing, 3, phased, 3, values) == BRUNCADORZA_BAD_NUMBER && two(values, 2, 4));
    CHECK(bruncadorza_read_genotype_checked(BYTES("3|18446744073709551616"), BYTES("C,G"), numbers, 3, missing, 3, phased, 3, values) == BRUNCADORZA_BAD_NUMBER && two(values, 1, 21));
    CHECK(numbers[0] == 0 && missing[0] == 1);
    CHECK(bruncadorza_read_genotype_checked(BYTES("2|0"), BYTES("C,G"), numbers, 3, missing, 3, phased, 3, values) == BRUNCADORZA_DONE && one(values, 2));
    CHECK(numbers[0] == 2 && missing[0] == 0 && numbers[2] == 7);
    CHECK(bruncadorza_read_genotype_checked(BYTES("0/1"), BYTES("."), numbers, 3, missing, 3, phased, 3, values) == BRUNCADORZA_ABOVE_ALT && one(values, 1));
    CHECK(bruncadorza_read_genotype_checked(BYTES("0/1"), BYTES(""), numbers, 3, missing, 3, phased, 3, values) == BRUNCADORZA_ABOVE_ALT && one(values, 1));
    CHECK(numbers[0] == 2 && numbers[1] == 0 && phased[1] == 1);
    CHECK(bruncadorza_read_genotype_checked(BYTES("0|0"), BYTES("."), numbers, 3, missing, 3, phased, 3, values) == BRUNCADORZA_DONE && one(values, 2));
    CHECK(numbers[0] == 0 && missing[0] == 0 && numbers[2] == 7);
    CHECK(bruncadorza_read_genotype_checked(BYTES("0|0"), BYTES(""), numbers, 3, missing, 3, phased, 3, values) == BRUNCADORZA_DONE && one(values, 2));
}

static void written_genotypes(void) {
    const uint64_t numbers[2] = {0, 12};
    const uint8_t missing[2] = {9, 0};
    const uint8_t phased[2] = {1, 0};
    const uint8_t both[2] = {1, 1};
    uint8_t out[8] = "eeeeeee";
    uint64_t values[BRUNCADORZA_VALUES];

    CHECK(bruncadorza_write_genotype(numbers, 2, missing, 2, phased, 2, 4, 3, out, 8, 1, values) == BRUNCADORZA_BAD_PHASING && none(values));
    CHECK(bruncadorza_write_genotype(numbers, 2, both, 2, phased, 2, 4, 4, out, 8, 1, values) == BRUNCADORZA_BAD_NUMBER && one(values, 1));
    CHECK(bruncadorza_write_genotype(numbers, 2, missing, 1, phased, 2, 4, 4, out, 8, 1, values) == BRUNCADORZA_BAD_LENGTHS && none(values));
    CHECK(bruncadorza_write_genotype(numbers, 2, missing, 2, phased, 2, 4, 4, out, 8, 9, values) == BRUNCADORZA_BEYOND && none(values));
    CHECK(bruncadorza_write_genotype(numbers, 2, missing, 2, phased, 2, 4, 4, out, 8, 4, values) == BRUNCADORZA_SHORT && none(values));
    CHECK(bruncadorza_write_genotype(numbers, 0, missing, 0, phased, 0, 4, 4, out, 8, 1, values) == BRUNCADORZA_GENOTYPE_EMPTY && none(values));
    CHECK(memcmp(out, "eeeeeee", 8) == 0);
    CHECK(bruncadorza_write_genotype(numbers, 2, missing, 2, phased, 2, 4, 4, out, 8, 1, values) == BRUNCADORZA_DONE && one(values, 5));
    CHECK(memcmp(out, "e|./12e", 8) == 0);
}

/* How many genotypes there are, at each limit and one past it. */
static void counted_genotypes(void) {
    uint64_t values[BRUNCADORZA_VALUES];

    CHECK(bruncadorza_count_genotypes(2, 3, values) == BRUNCADORZA_DONE && one(values, 6));
    CHECK(bruncadorza_count_genotypes(1, 1, values) == BRUNCADORZA_DONE && one(values, 1));
    CHECK(bruncadorza_count_genotypes(1, 64, values) == BRUNCADORZA_DONE && one(values, 64));
    CHECK(bruncadorza_count_genotypes(8, 1, values) == BRUNCADORZA_DONE && one(values, 1));
    CHECK(bruncadorza_count_genotypes(8, 64, values) == BRUNCADORZA_DONE && one(values, UINT64_C(10639125640)));
    CHECK(bruncadorza_count_genotypes(0, 2, values) == BRUNCADORZA_OUT_OF_RANGE && none(values));
    CHECK(bruncadorza_count_genotypes(9, 2, values) == BRUNCADORZA_OUT_OF_RANGE && none(values));
    CHECK(bruncadorza_count_genotypes(2, 0, values) == BRUNCADORZA_OUT_OF_RANGE && none(values));
    CHECK(bruncadorza_count_genotypes(2, 65, values) == BRUNCADORZA_OUT_OF_RANGE && none(values));
    CHECK(bruncadorza_count_genotypes((UINT64_C(1) << 32) + 1, 2, values) == BRUNCADORZA_OUT_OF_RANGE && none(values));
    CHECK(bruncadorza_count_genotypes(UINT64_MAX, UINT64_MAX, values) == BRUNCADORZA_OUT_OF_RANGE && none(values));
}

static void numbered_genotypes(void) {
    const uint64_t zeros[9] = {0, 0, 0, 0, 0, 0, 0, 0, 0};
    const uint64_t last[8] = {63, 63, 63, 63, 63, 63, 63, 63};
    const uint64_t rising[3] = {0, 1, 1};
    const uint64_t falling[3] = {1, 1, 0};
    const uint64_t far[2] = {0, UINT64_MAX};
    uint64_t values[BRUNCADORZA_VALUES];

    CHECK(bruncadorza_genotype_number(zeros, 1, 1, values) == BRUNCADORZA_DONE && one(values, 0));
    CHECK(bruncadorza_genotype_number(zeros, 8, 64, values) == BRUNCADORZA_DONE && one(values, 0));
    CHECK(bruncadorza_genotype_number(rising, 2, 2, values) == BRUNCADORZA_DONE && one(values, 1));
    CHECK(bruncadorza_genotype_number(rising, 3, 2, values) == BRUNCADORZA_DONE && one(values, 2));
    CHECK(bruncadorza_genotype_number(rising, 3, 64, values) == BRUNCADORZA_DONE && one(values, 2));
    CHECK(bruncadorza_genotype_number(last, 1, 64, values) == BRUNCADORZA_DONE && one(values, 63));
    CHECK(bruncadorza_genotype_number(last, 8, 64, values) == BRUNCADORZA_DONE && one(values, UINT64_C(10639125639)));
    CHECK(bruncadorza_genotype_number(falling, 3, 2, values) == BRUNCADORZA_OUT_OF_RANGE && none(values));
    CHECK(bruncadorza_genotype_number(rising, 3, 1, values) == BRUNCADORZA_OUT_OF_RANGE && none(values));
    CHECK(bruncadorza_genotype_number(last, 8, 63, values) == BRUNCADORZA_OUT_OF_RANGE && none(values));
    CHECK(bruncadorza_genotype_number(far, 2, 64, values) == BRUNCADORZA_OUT_OF_RANGE && none(values));
    CHECK(bruncadorza_genotype_number(zeros, 0, 2, values) == BRUNCADORZA_OUT_OF_RANGE && none(values));
    CHECK(bruncadorza_genotype_number(zeros, 9, 2, values) == BRUNCADORZA_OUT_OF_RANGE && none(values));
    CHECK(bruncadorza_genotype_number(zeros, 2, 0, values) == BRUNCADORZA_OUT_OF_RANGE && none(values));
    CHECK(bruncadorza_genotype_number(zeros, 2, 65, values) == BRUNCADORZA_OUT_OF_RANGE && none(values));
}

/* Whether a row holds these numbers, and then so many times 77. */
static int row_is(const uint64_t *row, size_t count, const uint64_t *expected, size_t rest) {
    size_t i;
    for (i = 0; i < count + rest; i += 1) {
        if (row[i] != (i < count ? expected[i] : 77)) {
            return 0;
        }
    }
    return 1;
}

static void placed_genotypes(void) {
    const uint64_t second[2] = {0, 1};
    const uint64_t last[8] = {63, 63, 63, 63, 63, 63, 63, 63};
    uint64_t row[9] = {77, 77, 77, 77, 77, 77, 77, 77, 77};
    uint64_t values[BRUNCADORZA_VALUES];

    CHECK(bruncadorza_genotype_at(3, 2, 2, row, 9, values) == BRUNCADORZA_OUT_OF_RANGE && none(values));
    CHECK(bruncadorza_genotype_at(UINT64_MAX, 2, 2, row, 9, values) == BRUNCADORZA_OUT_OF_RANGE && none(values));
    CHECK(bruncadorza_genotype_at(UINT64_C(10639125640), 8, 64, row, 9, values) == BRUNCADORZA_OUT_OF_RANGE && none(values));
    CHECK(bruncadorza_genotype_at(0, 0, 2, row, 9, values) == BRUNCADORZA_OUT_OF_RANGE && none(values));
    CHECK(bruncadorza_genotype_at(0, 9, 2, row, 9, values) == BRUNCADORZA_OUT_OF_RANGE && none(values));
    CHECK(bruncadorza_genotype_at(0, 2, 0, row, 9, values) == BRUNCADORZA_OUT_OF_RANGE && none(values));
    CHECK(bruncadorza_genotype_at(0, 2, 65, row, 9, values) == BRUNCADORZA_OUT_OF_RANGE && none(values));
    CHECK(bruncadorza_genotype_at(2, 2, 2, row, 1, values) == BRUNCADORZA_SHORT && none(values));
    CHECK(bruncadorza_genotype_at(0, 8, 64, row, 7, values) == BRUNCADORZA_SHORT && none(values));
    /* What is out of range goes before a short row. */
    CHECK(bruncadorza_genotype_at(3, 2, 2, row, 1, values) == BRUNCADORZA_OUT_OF_RANGE && none(values));
    CHECK(bruncadorza_genotype_at(0, 9, 2, row, 1, values) == BRUNCADORZA_OUT_OF_RANGE && none(values));
    CHECK(row_is(row, 0, NULL, 9));
    CHECK(bruncadorza_genotype_at(1, 2, 2, row, 2, values) == BRUNCADORZA_DONE && one(values, 2));
    CHECK(row_is(row, 2, second, 7));
    CHECK(bruncadorza_genotype_at(UINT64_C(10639125639), 8, 64, row, 9, values) == BRUNCADORZA_DONE && one(values, 8));
    CHECK(row_is(row, 8, last, 1));
}

static void listed_genotypes(void) {
    const uint64_t one_each[3] = {0, 1, 2};
    const uint64_t pairs[12] = {0, 0, 0, 1, 1, 1, 0, 2, 1, 2, 2, 2};
    const uint64_t triples[12] = {0, 0, 0, 0, 0, 1, 0, 1, 1, 1, 1, 1};
    uint64_t row[14];
    uint64_t values[BRUNCADORZA_VALUES];
    size_t i;

    for (i = 0; i < 14; i += 1) {
        row[i] = 77;
    }
    CHECK(bruncadorza_list_genotypes(0, 2, row, 14, values) == BRUNCADORZA_OUT_OF_RANGE && none(values));
    CHECK(bruncadorza_list_genotypes(9, 2, row, 14, values) == BRUNCADORZA_OUT_OF_RANGE && none(values));
    CHECK(bruncadorza_list_genotypes(2, 0, row, 14, values) == BRUNCADORZA_OUT_OF_RANGE && none(values));
    CHECK(bruncadorza_list_genotypes(2, 65, row, 14, values) == BRUNCADORZA_OUT_OF_RANGE && none(values));
    CHECK(bruncadorza_list_genotypes(UINT64_MAX, UINT64_MAX, row, 14, values) == BRUNCADORZA_OUT_OF_RANGE && none(values));
    CHECK(bruncadorza_list_genotypes(1, 3, row, 2, values) == BRUNCADORZA_SHORT && none(values));
    CHECK(bruncadorza_list_genotypes(2, 3, row, 11, values) == BRUNCADORZA_SHORT && none(values));
    CHECK(bruncadorza_list_genotypes(3, 2, row, 11, values) == BRUNCADORZA_SHORT && none(values));
    CHECK(bruncadorza_list_genotypes(8, 64, row, 14, values) == BRUNCADORZA_SHORT && none(values));
    /* What is out of range goes before a short row. */
    CHECK(bruncadorza_list_genotypes(9, 2, row, 0, values) == BRUNCADORZA_OUT_OF_RANGE && none(values));
    CHECK(row_is(row, 0, NULL, 14));
    CHECK(bruncadorza_list_genotypes(1, 3, row, 14, values) == BRUNCADORZA_DONE && one(values, 3));
    CHECK(row_is(row, 3, one_each, 11));
    CHECK(bruncadorza_list_genotypes(2, 3, row, 12, values) == BRUNCADORZA_DONE && one(values, 6));
    CHECK(row_is(row, 12, pairs, 2));
    CHECK(bruncadorza_list_genotypes(3, 2, row, 14, values) == BRUNCADORZA_DONE && one(values, 4));
    CHECK(row_is(row, 12, triples, 2));
    CHECK(bruncadorza_list_genotypes(8, 1, row, 7, values) == BRUNCADORZA_SHORT && none(values));
    CHECK(row_is(row, 12, triples, 2));
}

/* Each ploidy with 1 to 4 alleles: every genotype of the list has its place as its number, and is what its number gives. */
static void genotypes_there_and_back(void) {
    uint64_t row[165 * 8];
    uint64_t genotype[8];
    uint64_t values[BRUNCADORZA_VALUES];
    uint64_t ploidy;
    uint64_t alleles;
    uint64_t count;
    uint64_t i;

    for (ploidy = 1; ploidy <= 8; ploidy += 1) {
        for (alleles = 1; alleles <= 4; alleles += 1) {
            CHECK(bruncadorza_list_genotypes(ploidy, alleles, row, 165 * 8, values) == BRUNCADORZA_DONE && values[0] == 1);
            count = values[1];
            CHECK(bruncadorza_count_genotypes(ploidy, alleles, values) == BRUNCADORZA_DONE && one(values, count));
            for (i = 0; i < count; i += 1) {
                CHECK(bruncadorza_genotype_number(&row[i * ploidy], ploidy, alleles, values) == BRUNCADORZA_DONE && one(values, i));
                CHECK(bruncadorza_genotype_at(i, ploidy, alleles, genotype, 8, values) == BRUNCADORZA_DONE && one(values, ploidy));
                CHECK(memcmp(genotype, &row[i * ploidy], ploidy * sizeof(uint64_t)) == 0);
            }
        }
    }
}

static void read_vectors(void) {
    uint64_t numbers[3] = {7, 7, 7};
    uint8_t missing[3] = {7, 7, 7};
    uint8_t phased[3] = {7, 7, 7};
    uint64_t values[BRUNCADORZA_VALUES];

    CHECK(bruncadorza_read_vector(BYTES("\x02\x05"), 1, numbers, 3, missing, 2, phased, 3, values) == BRUNCADORZA_BAD_LENGTHS && none(values));
    CHECK(bruncadorza_read_vector(BYTES("\x02\x05"), 1, numbers, 3, missing, 3, phased, 2, values) == BRUNCADORZA_BAD_LENGTHS && none(values));
    CHECK(bruncadorza_read_vector(BYTES("\x02\x05"), 1, numbers, 2, missing, 3, phased, 3, values) == BRUNCADORZA_BAD_LENGTHS && none(values));
    CHECK(bruncadorza_read_vector(BYTES(""), 1, numbers, 3, missing, 3, phased, 3, values) == BRUNCADORZA_NO_VECTOR && none(values));
    CHECK(bruncadorza_read_vector(BYTES("\x81\x81"), 1, numbers, 3, missing, 3, phased, 3, values) == BRUNCADORZA_NO_VECTOR && none(values));
    CHECK(bruncadorza_read_vector(BYTES("\x80\x81"), 1, numbers, 3, missing, 3, phased, 3, values) == BRUNCADORZA_NO_VECTOR && none(values));
    CHECK(bruncadorza_read_vector(BYTES("\x02\x80"), 1, numbers, 3, missing, 3, phased, 3, values) == BRUNCADORZA_NO_VECTOR && none(values));
    CHECK(bruncadorza_read_vector(BYTES("\x02\xFF"), 1, numbers, 3, missing, 3, phased, 3, values) == BRUNCADORZA_NO_VECTOR && none(values));
    CHECK(bruncadorza_read_vector(BYTES("\x02\x81\x04"), 1, numbers, 3, missing, 3, phased, 3, values) == BRUNCADORZA_NO_VECTOR && none(values));
    CHECK(bruncadorza_read_vector(BYTES("\x02\x81\x80"), 1, numbers, 3, missing, 3, phased, 3, values) == BRUNCADORZA_NO_VECTOR && none(values));
    CHECK(bruncadorza_read_vector(BYTES("\x02\x04\x06\x08"), 1, numbers, 3, missing, 3, phased, 3, values) == BRUNCADORZA_SHORT && none(values));
    CHECK(bruncadorza_read_vector(BYTES("\x02\x81"), 1, numbers, 0, missing, 0, phased, 0, values) == BRUNCADORZA_SHORT && none(values));
    /* Lengths that differ are refused first, and a short row last. */
    CHECK(bruncadorza_read_vector(BYTES("\x80"), 1, numbers, 0, missing, 1, phased, 0, values) == BRUNCADORZA_BAD_LENGTHS && none(values));
    CHECK(bruncadorza_read_vector(BYTES("\x02\x04\x80"), 1, numbers, 1, missing, 1, phased, 1, values) == BRUNCADORZA_NO_VECTOR && none(values));
    CHECK(numbers[0] == 7 && numbers[1] == 7 && numbers[2] == 7);
    CHECK(missing[0] == 7 && missing[1] == 7 && missing[2] == 7);
    CHECK(phased[0] == 7 && phased[1] == 7 && phased[2] == 7);
    CHECK(bruncadorza_read_vector(BYTES("\x01\x0C\x81"), 1, numbers, 3, missing, 3, phased, 3, values) == BRUNCADORZA_DONE && one(values, 2));
    CHECK(numbers[0] == 0 && numbers[1] == 5 && numbers[2] == 7);
    CHECK(missing[0] == 1 && missing[1] == 0 && missing[2] == 7);
    CHECK(phased[0] == 1 && phased[1] == 0 && phased[2] == 7);
    CHECK(bruncadorza_read_vector(BYTES("\x7F\x00\x7E"), 1, numbers, 3, missing, 3, phased, 3, values) == BRUNCADORZA_DONE && one(values, 3));
    CHECK(numbers[0] == 62 && numbers[1] == 0 && numbers[2] == 62);
    CHECK(missing[0] == 0 && missing[1] == 1 && missing[2] == 0);
    CHECK(phased[0] == 1 && phased[1] == 0 && phased[2] == 0);
    /* Padding needs no room. */
    CHECK(bruncadorza_read_vector(BYTES("\x04\x81\x81\x81\x81"), 1, numbers, 1, missing, 1, phased, 1, values) == BRUNCADORZA_DONE && one(values, 1));
    CHECK(numbers[0] == 1 && numbers[1] == 0 && numbers[2] == 62);
    CHECK(missing[0] == 0 && missing[1] == 1 && missing[2] == 0);
    CHECK(phased[0] == 0 && phased[1] == 0 && phased[2] == 0);
}

/* The width is judged before all else. */
static void refused_widths(void) {
    const size_t widths[8] = {0, 3, 5, 6, 8, 257, ((size_t)1 << 32) + 1, SIZE_MAX};
    uint64_t numbers[1] = {7};
    uint8_t missing[1] = {7};
    uint8_t phased[1] = {7};
    uint64_t values[BRUNCADORZA_VALUES];
    size_t i;

    for (i = 0; i < 8; i += 1) {
        CHECK(bruncadorza_read_vector(BYTES("\x02\x81\x81\x81"), widths[i], numbers, 1, missing, 1, phased, 1, values) == BRUNCADORZA_BAD_WIDTH && none(values));
        CHECK(bruncadorza_read_vector(BYTES("\x02"), widths[i], numbers, 1, missing, 0, phased, 1, values) == BRUNCADORZA_BAD_WIDTH && none(values));
        CHECK(bruncadorza_read_vector(BYTES("\x80"), widths[i], numbers, 1, missing, 1, phased, 1, values) == BRUNCADORZA_BAD_WIDTH && none(values));
        CHECK(bruncadorza_read_vector(BYTES("\x80"), widths[i], numbers, 1, missing, 1, phased, 0, values) == BRUNCADORZA_BAD_WIDTH && none(values));
        CHECK(bruncadorza_read_vector(BYTES("\x02"), widths[i], numbers, 0, missing, 0, phased, 0, values) == BRUNCADORZA_BAD_WIDTH && none(values));
    }
    CHECK(numbers[0] == 7 && missing[0] == 7 && phased[0] == 7);
}

/* Bytes that are not a whole number of entries are no vector. */
static void left_over_bytes(void) {
    const uint8_t bytes[9] = {2, 0, 0, 0, 2, 0, 0, 0, 2};
    uint64_t numbers[4] = {7, 7, 7, 7};
    uint8_t missing[4] = {7, 7, 7, 7};
    uint8_t phased[4] = {7, 7, 7, 7};
    uint64_t values[BRUNCADORZA_VALUES];
    size_t n;

    for (n = 1; n <= 9; n += 1) {
        if (n % 2 != 0) {
            CHECK(bruncadorza_read_vector(bytes, n, 2, numbers, 4, missing, 4, phased, 4, values) == BRUNCADORZA_NO_VECTOR && none(values));
            CHECK(bruncadorza_read_vector(bytes, n, 2, numbers, 0, missing, 0, phased, 0, values) == BRUNCADORZA_NO_VECTOR && none(values));
            CHECK(bruncadorza_read_vector(bytes, n, 2, numbers, 0, missing, 1, phased, 0, values) == BRUNCADORZA_BAD_LENGTHS && none(values));
        }
        if (n % 4 != 0) {
            CHECK(bruncadorza_read_vector(bytes, n, 4, numbers, 4, missing, 4, phased, 4, values) == BRUNCADORZA_NO_VECTOR && none(values));
            CHECK(bruncadorza_read_vector(bytes, n, 4, numbers, 0, missing, 0, phased, 0, values) == BRUNCADORZA_NO_VECTOR && none(values));
            CHECK(bruncadorza_read_vector(bytes, n, 4, numbers, 0, missing, 0, phased, 1, values) == BRUNCADORZA_BAD_LENGTHS && none(values));
        }
    }
    CHECK(numbers[0] == 7 && missing[0] == 7 && phased[0] == 7);
    CHECK(bruncadorza_read_vector(bytes, 8, 2, numbers, 4, missing, 4, phased, 4, values) == BRUNCADORZA_DONE && one(values, 4));
    CHECK(numbers[0] == 0 && missing[0] == 0 && missing[1] == 1 && missing[2] == 0 && missing[3] == 1);
    CHECK(bruncadorza_read_vector(bytes, 8, 4, numbers, 4, missing, 4, phased, 4, values) == BRUNCADORZA_DONE && one(values, 2));
    CHECK(missing[0] == 0 && missing[1] == 0 && missing[2] == 0 && missing[3] == 1);
}

/* Whether the reader refuses these bytes by 26, with a row of two, and changes nothing. */
static int no_vector(const uint8_t *bytes, size_t n, size_t width) {
    uint64_t numbers[2] = {7, 7};
    uint8_t missing[2] = {7, 7};
    uint8_t phased[2] = {7, 7};
    uint64_t values[BRUNCADORZA_VALUES];
    return bruncadorza_read_vector(bytes, n, width, numbers, 2, missing, 2, phased, 2, values) == BRUNCADORZA_NO_VECTOR && none(values)
        && numbers[0] == 7 && numbers[1] == 7 && missing[0] == 7 && missing[1] == 7 && phased[0] == 7 && phased[1] == 7;
}

/* Whether the reader reads two alleles that are not missing: these numbers, the first unphased and the second phased. */
static int reads_two(const uint8_t *bytes, size_t n, size_t width, uint64_t a, uint64_t b) {
    uint64_t numbers[3] = {7, 7, 7};
    uint8_t missing[3] = {7, 7, 7};
    uint8_t phased[3] = {7, 7, 7};
    uint64_t values[BRUNCADORZA_VALUES];
    return bruncadorza_read_vector(bytes, n, width, numbers, 3, missing, 3, phased, 3, values) == BRUNCADORZA_DONE && one(values, 2)
        && numbers[0] == a && numbers[1] == b && numbers[2] == 7
        && missing[0] == 0 && missing[1] == 0 && missing[2] == 7
        && phased[0] == 0 && phased[1] == 1 && phased[2] == 7;
}

static void read_wide_vectors(void) {
    /* A list that a smaller width holds is read in each. */
    CHECK(reads_two(BYTES("\x02\x0D\x81"), 1, 0, 5));
    CHECK(reads_two(BYTES("\x02\x00\x0D\x00\x01\x80"), 2, 0, 5));
    CHECK(reads_two(BYTES("\x02\x00\x00\x00\x0D\x00\x00\x00\x01\x00\x00\x80"), 4, 0, 5));
    /* The lowest byte comes first. */
    CHECK(reads_two(BYTES("\x80\x00\x01\x02"), 2, 63, 255));
    CHECK(reads_two(BYTES("\x00\x80\x00\x00\x05\x04\x03\x02"), 4, 16383, 0x01018201));
    /* The largest that an entry holds. */
    CHECK(reads_two(BYTES("\x7E\x7F"), 1, 62, 62));
    CHECK(reads_two(BYTES("\xFE\x7F\xFF\x7F"), 2, 16382, 16382));
    CHECK(reads_two(BYTES("\xFE\xFF\xFF\x7F\xFF\xFF\xFF\x7F"), 4, 1073741822, 1073741822));
    /* The padding of a smaller width is a code. */
    CHECK(reads_two(BYTES("\x02\x00\x81\x00"), 2, 0, 63));
    CHECK(reads_two(BYTES("\x02\x00\x00\x00\x81\x00\x00\x00"), 4, 0, 63));
    CHECK(reads_two(BYTES("\x02\x00\x00\x00\x01\x80\x00\x00"), 4, 0, 16383));

    /* Padding alone. */
    CHECK(no_vector(BYTES("\x01\x80\x01\x80"), 2));
    CHECK(no_vector(BYTES("\x01\x00\x00\x80"), 4));
    /* An entry that is negative, and no padding. */
    CHECK(no_vector(BYTES("\x02\x00\x00\x80"), 2));
    CHECK(no_vector(BYTES("\x02\x00\x02\x80"), 2));
    CHECK(no_vector(BYTES("\x02\x00\x81\x81"), 2));
    CHECK(no_vector(BYTES("\x02\x00\x81\xFF"), 2));
    CHECK(no_vector(BYTES("\x02\x00\x00\x00\x00\x00\x00\x80"), 4));
    CHECK(no_vector(BYTES("\x02\x00\x00\x00\x02\x00\x00\x80"), 4));
    CHECK(no_vector(BYTES("\x02\x00\x00\x00\x01\x80\x01\x80"), 4));
    CHECK(no_vector(BYTES("\x02\x00\x00\x00\x01\x80\xFF\xFF"), 4));
    CHECK(no_vector(BYTES("\x02\x00\x00\x00\x81\xFF\xFF\xFF"), 4));
    /* A code behind padding. */
    CHECK(no_vector(BYTES("\x02\x00\x01\x80\x02\x00"), 2));
    CHECK(no_vector(BYTES("\x02\x00\x00\x00\x01\x00\x00\x80\x02\x00\x00\x00"), 4));
}

static void written_vectors(void) {
    const uint64_t numbers[3] = {0, 12, 62};
    const uint64_t large[2] = {0, 1073741823};
    const uint64_t far[2] = {UINT64_MAX, 0};
    const uint8_t missing[3] = {9, 0, 0};
    const uint8_t both[2] = {1, 1};
    const uint8_t phased[3] = {200, 0, 1};
    uint8_t out[8] = "eeeeeee";
    uint64_t values[BRUNCADORZA_VALUES];

    CHECK(bruncadorza_write_vector(numbers, 2, missing, 2, phased, 2, 3, out, 8, 9, values) == BRUNCADORZA_BEYOND && none(values));
    CHECK(bruncadorza_write_vector(numbers, 2, missing, 2, phased, 2, 3, out, 8, SIZE_MAX, values) == BRUNCADORZA_BEYOND && none(values));
    CHECK(bruncadorza_write_vector(numbers, 2, missing, 1, phased, 2, 3, out, 8, 1, values) == BRUNCADORZA_BAD_LENGTHS && none(values));
    CHECK(bruncadorza_write_vector(numbers, 2, missing, 2, phased, 3, 3, out, 8, 1, values) == BRUNCADORZA_BAD_LENGTHS && none(values));
    CHECK(bruncadorza_write_vector(numbers, 0, missing, 0, phased, 0, 3, out, 8, 1, values) == BRUNCADORZA_GENOTYPE_EMPTY && none(values));
    CHECK(bruncadorza_write_vector(numbers, 2, both, 2, phased, 2, 3, out, 8, 1, values) == BRUNCADORZA_BAD_NUMBER && one(values, 1));
    CHECK(bruncadorza_write_vector(large, 2, missing, 2, phased, 2, 2, out, 8, 0, values) == BRUNCADORZA_LARGE_ALLELE && none(values));
    CHECK(bruncadorza_write_vector(far, 2, &missing[1], 2, phased, 2, 2, out, 8, 0, values) == BRUNCADORZA_LARGE_ALLELE && none(values));
    CHECK(bruncadorza_write_vector(numbers, 2, missing, 2, phased, 2, 1, out, 8, 1, values) == BRUNCADORZA_LONG_LIST && none(values));
    CHECK(bruncadorza_write_vector(numbers, 2, missing, 2, phased, 2, 0, out, 8, 8, values) == BRUNCADORZA_LONG_LIST && none(values));
    CHECK(bruncadorza_write_vector(numbers, 2, missing, 2, phased, 2, 8, out, 8, 1, values) == BRUNCADORZA_SHORT && none(values));
    CHECK(bruncadorza_write_vector(numbers, 2, missing, 2, phased, 2, 2, out, 8, 7, values) == BRUNCADORZA_SHORT && none(values));
    /* No sum of a place and a length can wrap. */
    CHECK(bruncadorza_write_vector(numbers, 2, missing, 2, phased, 2, SIZE_MAX, out, 8, 0, values) == BRUNCADORZA_SHORT && none(values));
    CHECK(bruncadorza_write_vector(numbers, 2, missing, 2, phased, 2, SIZE_MAX, out, 8, 1, values) == BRUNCADORZA_SHORT && none(values));
    CHECK(bruncadorza_write_vector(numbers, 2, missing, 2, phased, 2, SIZE_MAX - 1, out, 8, 4, values) == BRUNCADORZA_SHORT && none(values));
    CHECK(bruncadorza_write_vector(numbers, 2, missing, 2, phased, 2, SIZE_MAX / 2 + 1, out, 8, 8, values) == BRUNCADORZA_SHORT && none(values));
    CHECK(memcmp(out, "eeeeeee", 8) == 0);
    CHECK(bruncadorza_write_vector(numbers, 2, missing, 2, phased, 2, 4, out, 8, 1, values) == BRUNCADORZA_DONE && two(values, 1, 4));
    CHECK(memcmp(out, "e\x01\x1A\x81\x81" "ee", 8) == 0);
    CHECK(bruncadorza_write_vector(numbers, 3, missing, 3, phased, 3, 3, out, 8, 5, values) == BRUNCADORZA_DONE && two(values, 1, 3));
    CHECK(memcmp(out, "e\x01\x1A\x81\x81\x01\x1A\x7F", 8) == 0);
}

/* Whether a phased allele is written as a vector of one entry with these bytes, and nothing around it is changed. */
static int writes_as(uint64_t number, const uint8_t *bytes, size_t width) {
    const uint8_t missing = 0;
    const uint8_t phased = 1;
    uint8_t out[8] = "eeeeeee";
    uint8_t expected[8] = "eeeeeee";
    uint64_t values[BRUNCADORZA_VALUES];
    memcpy(&expected[1], bytes, width);
    return bruncadorza_write_vector(&number, 1, &missing, 1, &phased, 1, 1, out, 8, 1, values) == BRUNCADORZA_DONE
        && two(values, width, width) && memcmp(out, expected, 8) == 0;
}

/* The largest allele says the width of every entry. */
static void written_widths(void) {
    const uint64_t first[3] = {16383, 0, 1};
    const uint64_t last[3] = {1, 0, 63};
    const uint8_t missing[3] = {0, 1, 0};
    const uint8_t phased[3] = {0, 0, 1};
    uint8_t out[17];
    uint64_t values[BRUNCADORZA_VALUES];

    CHECK(writes_as(0, BYTES("\x03")));
    CHECK(writes_as(62, BYTES("\x7F")));
    CHECK(writes_as(63, BYTES("\x81\x00")));
    CHECK(writes_as(255, BYTES("\x01\x02")));
    CHECK(writes_as(16382, BYTES("\xFF\x7F")));
    CHECK(writes_as(16383, BYTES("\x01\x80\x00\x00")));
    CHECK(writes_as(0x01018201, BYTES("\x05\x04\x03\x02")));
    CHECK(writes_as(1073741822, BYTES("\xFF\xFF\xFF\x7F")));

    memset(out, 0xEE, 17);
    CHECK(bruncadorza_write_vector(last, 3, missing, 3, phased, 3, 4, out, 9, 1, values) == BRUNCADORZA_DONE && two(values, 2, 8));
    CHECK(memcmp(out, "\xEE\x04\x00\x00\x00\x81\x00\x01\x80\xEE\xEE\xEE\xEE\xEE\xEE\xEE\xEE", 17) == 0);
    CHECK(bruncadorza_write_vector(first, 3, missing, 3, phased, 3, 4, out, 17, 1, values) == BRUNCADORZA_DONE && two(values, 4, 16));
    CHECK(memcmp(out, "\xEE\x00\x80\x00\x00\x00\x00\x00\x00\x05\x00\x00\x00\x01\x00\x00\x80", 17) == 0);
}

/* Room is asked for in bytes. No product of a length and a width can wrap, nor a sum with a place. */
static void room_of_widths(void) {
    const uint64_t largest[3] = {62, 16382, 1073741822};
    const uint8_t mark = 0;
    uint8_t out[12];
    uint64_t values[BRUNCADORZA_VALUES];
    size_t i;

    memset(out, 0xEE, 12);
    for (i = 0; i < 3; i += 1) {
        const size_t width = (size_t)1 << i;
        const size_t far = SIZE_MAX / width;
        size_t room;
        for (room = 0; room < 3 * width; room += 1) {
            CHECK(bruncadorza_write_vector(&largest[i], 1, &mark, 1, &mark, 1, 3, out, room, 0, values) == BRUNCADORZA_SHORT && none(values));
            CHECK(bruncadorza_write_vector(&largest[i], 1, &mark, 1, &mark, 1, 3, out, 12, 12 - room, values) == BRUNCADORZA_SHORT && none(values));
        }
        CHECK(bruncadorza_write_vector(&largest[i], 1, &mark, 1, &mark, 1, far, out, 12, 0, values) == BRUNCADORZA_SHORT && none(values));
        CHECK(bruncadorza_write_vector(&largest[i], 1, &mark, 1, &mark, 1, far, out, 12, 12, values) == BRUNCADORZA_SHORT && none(values));
        if (i > 0) {
            CHECK(bruncadorza_write_vector(&largest[i], 1, &mark, 1, &mark, 1, far + 1, out, 12, 0, values) == BRUNCADORZA_SHORT && none(values));
            CHECK(bruncadorza_write_vector(&largest[i], 1, &mark, 1, &mark, 1, far + 2, out, 12, 0, values) == BRUNCADORZA_SHORT && none(values));
            CHECK(bruncadorza_write_vector(&largest[i], 1, &mark, 1, &mark, 1, far + 2, out, 12, 12, values) == BRUNCADORZA_SHORT && none(values));
        }
        CHECK(bruncadorza_write_vector(&largest[i], 1, &mark, 1, &mark, 1, SIZE_MAX / 2, out, 12, 0, values) == BRUNCADORZA_SHORT && none(values));
        CHECK(bruncadorza_write_vector(&largest[i], 1, &mark, 1, &mark, 1, SIZE_MAX / 2 + 1, out, 12, 0, values) == BRUNCADORZA_SHORT && none(values));
        CHECK(bruncadorza_write_vector(&largest[i], 1, &mark, 1, &mark, 1, SIZE_MAX / 2 + 2, out, 12, 0, values) == BRUNCADORZA_SHORT && none(values));
        CHECK(bruncadorza_write_vector(&largest[i], 1, &mark, 1, &mark, 1, SIZE_MAX - 1, out, 12, 0, values) == BRUNCADORZA_SHORT && none(values));
        CHECK(bruncadorza_write_vector(&largest[i], 1, &mark, 1, &mark, 1, SIZE_MAX, out, 12, 12, values) == BRUNCADORZA_SHORT && none(values));
    }
    for (i = 0; i < 12; i += 1) {
        CHECK(out[i] == 0xEE);
    }
    CHECK(bruncadorza_write_vector(&largest[0], 1, &mark, 1, &mark, 1, 3, out, 12, 9, values) == BRUNCADORZA_DONE && two(values, 1, 3));
    CHECK(bruncadorza_write_vector(&largest[1], 1, &mark, 1, &mark, 1, 3, out, 12, 6, values) == BRUNCADORZA_DONE && two(values, 2, 6));
    CHECK(bruncadorza_write_vector(&largest[2], 1, &mark, 1, &mark, 1, 3, out, 12, 0, values) == BRUNCADORZA_DONE && two(values, 4, 12));
}

/* Lays out one entry, and then padding, n entries in all. */
static void lay(uint8_t *bytes, size_t width, uint64_t entry, size_t n) {
    const uint64_t padding = ((uint64_t)1 << (8 * width - 1)) + 1;
    size_t i;
    for (i = 0; i < n * width; i += 1) {
        bytes[i] = (uint8_t)((i < width ? entry : padding) >> (8 * (i % width)));
    }
}

/* Whether an entry alone, and before padding, is refused where it is no code, and else is read, written in the smallest width that
   holds it and read again from there. */
static int there_and_back(size_t width, uint64_t entry) {
    const uint64_t number = entry < 2 ? 0 : entry / 2 - 1;
    const size_t smallest = number <= 62 ? 1 : number <= 16382 ? 2 : 4;
    size_t n;
    for (n = 1; n <= 3; n += 1) {
        uint8_t vector[12];
        uint8_t expected[12];
        uint8_t out[12];
        uint64_t numbers[2] = {7, 7};
        uint8_t missing[2] = {7, 7};
        uint8_t phased[2] = {7, 7};
        uint64_t values[BRUNCADORZA_VALUES];
        lay(vector, width, entry, n);
        if (entry >> (8 * width - 1) != 0) {
            if (!no_vector(vector, n * width, width)) {
                return 0;
            }
            continue;
        }
        lay(expected, smallest, entry, n);
        if (bruncadorza_read_vector(vector, n * width, width, numbers, 1, missing, 1, phased, 1, values) != BRUNCADORZA_DONE
            || !one(values, 1) || numbers[0] != number || missing[0] != (entry < 2) || phased[0] != entry % 2) {
            return 0;
        }
        if (bruncadorza_write_vector(numbers, 1, missing, 1, phased, 1, n, out, n * smallest, 0, values) != BRUNCADORZA_DONE
            || !two(values, smallest, n * smallest) || memcmp(out, expected, n * smallest) != 0) {
            return 0;
        }
        if (bruncadorza_read_vector(out, n * smallest, smallest, &numbers[1], 1, &missing[1], 1, &phased[1], 1, values) != BRUNCADORZA_DONE
            || !one(values, 1) || numbers[1] != numbers[0] || missing[1] != missing[0] || phased[1] != phased[0]) {
            return 0;
        }
    }
    return 1;
}

/* Each entry of one byte and of two, and of four those about each power of two. */
static void vectors_there_and_back(void) {
    uint64_t entry;
    unsigned power;

    for (entry = 0; entry < 256; entry += 1) {
        CHECK(there_and_back(1, entry));
    }
    for (entry = 0; entry < 65536; entry += 1) {
        CHECK(there_and_back(2, entry));
    }
    for (power = 2; power < 32; power += 1) {
        for (entry = ((uint64_t)1 << power) - 2; entry <= ((uint64_t)1 << power) + 3; entry += 1) {
            CHECK(there_and_back(4, entry));
        }
    }
    CHECK(there_and_back(4, 0) && there_and_back(4, 1) && there_and_back(4, UINT32_MAX - 1) && there_and_back(4, UINT32_MAX));
}

static void written_lists(void) {
    const size_t ends[2] = {2, 4};
    const size_t fallen[2] = {2, 1};
    uint8_t out[8] = "eeeeeee";
    uint64_t values[BRUNCADORZA_VALUES];

    CHECK(bruncadorza_judge_filter(BYTES("q1")) == BRUNCADORZA_DONE);
    CHECK(bruncadorza_judge_filter(BYTES("0")) == BRUNCADORZA_BAD_FILTER);
    CHECK(bruncadorza_judge_alt(BYTES("<DEL>")) == BRUNCADORZA_DONE);
    CHECK(bruncadorza_judge_alt(BYTES("<>")) == BRUNCADORZA_BAD_ALT);
    CHECK(bruncadorza_judge_alt(BYTES("\xFF")) == BRUNCADORZA_NOT_UTF8);
    CHECK(bruncadorza_alt_count(BYTES("C,G")) == 2);
    CHECK(bruncadorza_alt_count(BYTES("A")) == 1);
    CHECK(bruncadorza_alt_count(BYTES(".")) == 0);
    CHECK(bruncadorza_alt_count(BYTES(".,")) == 2);
    CHECK(bruncadorza_write_filters(BYTES("q1q2"), fallen, 2, out, 8, 1, values) == BRUNCADORZA_BAD_LENGTHS && none(values));
    CHECK(bruncadorza_write_filters(BYTES("q1; "), ends, 2, out, 8, 1, values) == BRUNCADORZA_BAD_FILTER && one(values, 1));
    CHECK(bruncadorza_write_filters(BYTES("q1q2"), ends, 2, out, 8, 4, values) == BRUNCADORZA_SHORT && none(values));
    CHECK(bruncadorza_write_filters(BYTES("q1q2"), ends, 2, out, 8, 9, values) == BRUNCADORZA_BEYOND && none(values));
    CHECK(memcmp(out, "eeeeeee", 8) == 0);
    CHECK(bruncadorza_write_filters(BYTES("q1q2"), ends, 2, out, 8, 1, values) == BRUNCADORZA_DONE && one(values, 5));
    CHECK(memcmp(out, "eq1;q2e", 8) == 0);
    CHECK(bruncadorza_write_alts(BYTES("CC,G"), ends, 2, out, 8, 0, values) == BRUNCADORZA_BAD_ALT && one(values, 1));
    CHECK(bruncadorza_write_alts(BYTES("CCGG"), ends, 2, out, 8, 0, values) == BRUNCADORZA_DONE && one(values, 5));
    CHECK(memcmp(out, "CC,GG2e", 8) == 0);
    CHECK(bruncadorza_write_alts(BYTES(""), ends, 0, out, 8, 6, values) == BRUNCADORZA_DONE && one(values, 1));
    CHECK(memcmp(out, "CC,GG2.", 8) == 0);
}

static void joined_columns(void) {
    const size_t ends[8] = {1, 2, 3, 4, 5, 6, 7, 8};
    uint8_t out[17] = "eeeeeeeeeeeeeeee";
    uint64_t values[BRUNCADORZA_VALUES];

    CHECK(bruncadorza_join(BYTES("17.AC..x"), ends, 7, BRUNCADORZA_ENDING_FEED, out, 17, 0, values) == BRUNCADORZA_FEW_COLUMNS && none(values));
    CHECK(bruncadorza_join(BYTES("17\tAC..x"), ends, 8, BRUNCADORZA_ENDING_FEED, out, 17, 0, values) == BRUNCADORZA_BAD_COLUMN && one(values, 2));
    CHECK(bruncadorza_join(BYTES("17.AC..\xFF"), ends, 8, BRUNCADORZA_ENDING_FEED, out, 17, 0, values) == BRUNCADORZA_NOT_UTF8 && one(values, 7));
    CHECK(bruncadorza_join(BYTES("17.AC..x"), ends, 8, BRUNCADORZA_ENDING_FEED, out, 17, 2, values) == BRUNCADORZA_SHORT && none(values));
    CHECK(memcmp(out, "eeeeeeeeeeeeeeee", 17) == 0);
    CHECK(bruncadorza_join(BYTES("17.AC..x"), ends, 8, BRUNCADORZA_ENDING_FEED, out, 17, 0, values) == BRUNCADORZA_DONE && one(values, 16));
    CHECK(memcmp(out, LINE "\n", 17) == 0);
}

/* The three endings, and numbers that are none. */
static void joined_endings(void) {
    const size_t ends[8] = {1, 2, 3, 4, 5, 6, 7, 8};
    uint8_t out[18] = "eeeeeeeeeeeeeeeee";
    uint64_t values[BRUNCADORZA_VALUES];

    CHECK(bruncadorza_join(BYTES("17.AC..x"), ends, 8, BRUNCADORZA_ENDING_NOTHING, out, 14, 0, values) == BRUNCADORZA_SHORT && none(values));
    CHECK(bruncadorza_join(BYTES("17.AC..x"), ends, 8, BRUNCADORZA_ENDING_FEED, out, 15, 0, values) == BRUNCADORZA_SHORT && none(values));
    CHECK(bruncadorza_join(BYTES("17.AC..x"), ends, 8, BRUNCADORZA_ENDING_RETURN_FEED, out, 16, 0, values) == BRUNCADORZA_SHORT && none(values));
    CHECK(bruncadorza_join(BYTES("17.AC..x"), ends, 8, 3, out, 18, 0, values) == BRUNCADORZA_NOTHING && none(values));
    CHECK(bruncadorza_join(BYTES("17.AC..x"), ends, 8, UINT64_MAX, out, 18, 0, values) == BRUNCADORZA_NOTHING && none(values));
    CHECK(bruncadorza_join(BYTES("17.AC..x"), ends, 8, (UINT64_C(1) << 32) + 1, out, 18, 0, values) == BRUNCADORZA_NOTHING && none(values));
    CHECK(memcmp(out, "eeeeeeeeeeeeeeeee", 18) == 0);
    CHECK(bruncadorza_join(BYTES("17.AC..x"), ends, 8, BRUNCADORZA_ENDING_NOTHING, out, 15, 0, values) == BRUNCADORZA_DONE && one(values, 15));
    CHECK(memcmp(out, LINE "ee", 18) == 0);
    CHECK(bruncadorza_join(BYTES("17.AC..x"), ends, 8, BRUNCADORZA_ENDING_FEED, out, 16, 0, values) == BRUNCADORZA_DONE && one(values, 16));
    CHECK(memcmp(out, LINE "\ne", 18) == 0);
    CHECK(bruncadorza_join(BYTES("17.AC..x"), ends, 8, BRUNCADORZA_ENDING_RETURN_FEED, out, 17, 0, values) == BRUNCADORZA_DONE && one(values, 17));
    CHECK(memcmp(out, LINE "\r\n", 18) == 0);
    CHECK(bruncadorza_join(BYTES("17.AC..x"), ends, 8, BRUNCADORZA_ENDING_NOTHING, out, 18, 3, values) == BRUNCADORZA_DONE && one(values, 15));
    CHECK(memcmp(out, "1\t7" LINE, 18) == 0);

    /* A last column that ends in CR is refused before an LF alone. */
    CHECK(bruncadorza_join(BYTES("17.AC..\r"), ends, 8, BRUNCADORZA_ENDING_FEED, out, 18, 0, values) == BRUNCADORZA_BAD_COLUMN && one(values, 7));
    CHECK(memcmp(out, "1\t7" LINE, 18) == 0);
    CHECK(bruncadorza_join(BYTES("17.AC..\r"), ends, 8, BRUNCADORZA_ENDING_NOTHING, out, 18, 0, values) == BRUNCADORZA_DONE && one(values, 15));
    CHECK(memcmp(out, "1\t7\t.\tA\tC\t.\t.\t\r.\tx", 18) == 0);
    CHECK(bruncadorza_join(BYTES("17.AC..\r"), ends, 8, BRUNCADORZA_ENDING_RETURN_FEED, out, 18, 0, values) == BRUNCADORZA_DONE && one(values, 17));
    CHECK(memcmp(out, "1\t7\t.\tA\tC\t.\t.\t\r\r\nx", 18) == 0);
    /* At the end of any other column a CR is taken. */
    CHECK(bruncadorza_join(BYTES("17.AC.\rx"), ends, 8, BRUNCADORZA_ENDING_FEED, out, 18, 0, values) == BRUNCADORZA_DONE && one(values, 16));
    CHECK(memcmp(out, "1\t7\t.\tA\tC\t.\t\r\tx\n\nx", 18) == 0);
}

/* Behind the values nothing is changed. */
static void behind_values(void) {
    const uint64_t number = 5;
    const uint8_t mark = 1;
    uint64_t values[BRUNCADORZA_VALUES] = {77, 77, 77, 77, 77, 77, 77, 77};

    CHECK(bruncadorza_read_decimal(BYTES("12"), values) == BRUNCADORZA_DONE && one(values, 12));
    CHECK(values[2] == 77 && values[7] == 77);
    CHECK(bruncadorza_read_pos(BYTES("0"), values) == BRUNCADORZA_DONE && none(values));
    CHECK(values[1] == 12 && values[2] == 77);
    CHECK(bruncadorza_read_decimal(BYTES("x"), values) == BRUNCADORZA_BAD_NUMBER && one(values, 0));
    CHECK(values[2] == 77 && values[7] == 77);
    /* The writer's 12 has no offset. */
    CHECK(bruncadorza_write_genotype(&number, 1, &mark, 1, &mark, 1, 4, 4, NULL, 0, 0, values) == BRUNCADORZA_BAD_NUMBER && one(values, 0));
    CHECK(values[2] == 77 && values[7] == 77);
    CHECK(bruncadorza_genotype_judge(BYTES("0|x"), 2, values) == BRUNCADORZA_BAD_NUMBER && two(values, 1, 2));
    CHECK(values[3] == 77 && values[7] == 77);
    CHECK(bruncadorza_join(NULL, 0, NULL, 0, 3, NULL, 0, 0, values) == BRUNCADORZA_NOTHING && none(values));
    CHECK(values[1] == 1 && values[2] == 2 && values[3] == 77 && values[7] == 77);
}

/* Nor behind those of the four functions on genotype numbers. */
static void behind_numbers(void) {
    const uint64_t genotype[2] = {0, 1};
    uint64_t row[4];
    uint64_t values[BRUNCADORZA_VALUES] = {77, 77, 77, 77, 77, 77, 77, 77};

    CHECK(bruncadorza_count_genotypes(0, 2, values) == BRUNCADORZA_OUT_OF_RANGE && none(values));
    CHECK(bruncadorza_genotype_number(genotype, 2, 1, values) == BRUNCADORZA_OUT_OF_RANGE && none(values));
    CHECK(bruncadorza_genotype_at(3, 2, 2, row, 4, values) == BRUNCADORZA_OUT_OF_RANGE && none(values));
    CHECK(bruncadorza_genotype_at(2, 2, 2, row, 1, values) == BRUNCADORZA_SHORT && none(values));
    CHECK(bruncadorza_list_genotypes(2, 65, row, 4, values) == BRUNCADORZA_OUT_OF_RANGE && none(values));
    CHECK(bruncadorza_list_genotypes(2, 2, row, 4, values) == BRUNCADORZA_SHORT && none(values));
    CHECK(row_is(&values[1], 0, NULL, 7));
    CHECK(bruncadorza_count_genotypes(2, 2, values) == BRUNCADORZA_DONE && one(values, 3));
    CHECK(bruncadorza_genotype_number(genotype, 2, 2, values) == BRUNCADORZA_DONE && one(values, 1));
    CHECK(bruncadorza_genotype_at(2, 2, 2, row, 4, values) == BRUNCADORZA_DONE && one(values, 2));
    CHECK(bruncadorza_list_genotypes(1, 4, row, 4, values) == BRUNCADORZA_DONE && one(values, 4));
    CHECK(row_is(&values[2], 0, NULL, 6));
}

/* Nor behind those of the reader and the writer of vectors. */
static void behind_vectors(void) {
    uint64_t number = 63;
    uint8_t missing = 1;
    uint8_t phased = 1;
    uint8_t out[1];
    uint64_t values[BRUNCADORZA_VALUES] = {77, 77, 77, 77, 77, 77, 77, 77};

    CHECK(bruncadorza_read_vector(BYTES("\x80"), 1, &number, 1, &missing, 1, &phased, 1, values) == BRUNCADORZA_NO_VECTOR && none(values));
    CHECK(bruncadorza_read_vector(BYTES("\x02\x04"), 1, &number, 1, &missing, 1, &phased, 1, values) == BRUNCADORZA_SHORT && none(values));
    CHECK(bruncadorza_read_vector(BYTES("\x02"), 0, &number, 1, &missing, 1, &phased, 1, values) == BRUNCADORZA_BAD_WIDTH && none(values));
    CHECK(row_is(&values[1], 0, NULL, 7));
    CHECK(bruncadorza_write_vector(&number, 1, &missing, 1, &phased, 1, 1, out, 1, 0, values) == BRUNCADORZA_BAD_NUMBER && one(values, 0));
    CHECK(row_is(&values[2], 0, NULL, 6));
    CHECK(bruncadorza_read_vector(BYTES("\x06"), 1, &number, 1, &missing, 1, &phased, 1, values) == BRUNCADORZA_DONE && one(values, 1));
    CHECK(row_is(&values[2], 0, NULL, 6));
    CHECK(bruncadorza_write_vector(&number, 1, &missing, 1, &phased, 1, 1, out, 1, 0, values) == BRUNCADORZA_DONE && two(values, 1, 1));
    CHECK(row_is(&values[3], 0, NULL, 5));
}

/* A place beyond the output is refused first and missing room last, whatever else is wrong. Only the joiner has a refusal before
   these: of a number that is no ending. */
static void order_of_writers(void) {
    const size_t ends[8] = {1, 2, 3, 4, 5, 6, 7, 8};
    const size_t fallen[2] = {2, 1};
    const uint64_t numbers[2] = {0, 12};
    const uint8_t none_missing[2] = {0, 0};
    const uint8_t both_missing[2] = {1, 1};
    const uint8_t phased[2] = {1, 0};
    uint8_t out[1] = {0xEE};
    uint64_t values[BRUNCADORZA_VALUES];

    CHECK(bruncadorza_write_filters(BYTES("q;"), fallen, 2, out, 1, 2, values) == BRUNCADORZA_BEYOND && none(values));
    CHECK(bruncadorza_write_filters(BYTES("q;"), fallen, 2, out, 1, 1, values) == BRUNCADORZA_BAD_LENGTHS && none(values));
    CHECK(bruncadorza_write_filters(BYTES("q;"), ends, 2, out, 1, 1, values) == BRUNCADORZA_BAD_FILTER && one(values, 1));
    CHECK(bruncadorza_write_filters(BYTES("qr"), ends, 2, out, 1, 1, values) == BRUNCADORZA_SHORT && none(values));

    CHECK(bruncadorza_write_alts(BYTES("C,"), fallen, 2, out, 1, 2, values) == BRUNCADORZA_BEYOND && none(values));
    CHECK(bruncadorza_write_alts(BYTES("C,"), fallen, 2, out, 1, 1, values) == BRUNCADORZA_BAD_LENGTHS && none(values));
    CHECK(bruncadorza_write_alts(BYTES("C,"), ends, 2, out, 1, 1, values) == BRUNCADORZA_BAD_ALT && one(values, 1));
    CHECK(bruncadorza_write_alts(BYTES("CG"), ends, 2, out, 1, 1, values) == BRUNCADORZA_SHORT && none(values));

    CHECK(bruncadorza_join(BYTES("17\tAC..x"), fallen, 2, 3, out, 1, 2, values) == BRUNCADORZA_NOTHING && none(values));
    CHECK(bruncadorza_join(BYTES("17\tAC..x"), fallen, 2, UINT64_MAX, out, 1, 2, values) == BRUNCADORZA_NOTHING && none(values));
    CHECK(bruncadorza_join(BYTES("17\tAC..x"), fallen, 2, 3, out, 1, 1, values) == BRUNCADORZA_NOTHING && none(values));
    CHECK(bruncadorza_join(BYTES("17\tAC..x"), ends, 8, 3, out, 1, 2, values) == BRUNCADORZA_NOTHING && none(values));
    CHECK(bruncadorza_join(BYTES("17\tAC..x"), ends, 7, 3, out, 1, 1, values) == BRUNCADORZA_NOTHING && none(values));
    CHECK(bruncadorza_join(BYTES("17\tAC..x"), ends, 8, 3, out, 1, 1, values) == BRUNCADORZA_NOTHING && none(values));
    CHECK(bruncadorza_join(BYTES("17\tAC..x"), fallen, 2, BRUNCADORZA_ENDING_FEED, out, 1, 2, values) == BRUNCADORZA_BEYOND && none(values));
    CHECK(bruncadorza_join(BYTES("17\tAC..x"), fallen, 2, BRUNCADORZA_ENDING_FEED, out, 1, 1, values) == BRUNCADORZA_BAD_LENGTHS && none(values));
    CHECK(bruncadorza_join(BYTES("17\tAC..x"), ends, 7, BRUNCADORZA_ENDING_FEED, out, 1, 1, values) == BRUNCADORZA_FEW_COLUMNS && none(values));
    CHECK(bruncadorza_join(BYTES("17\tAC..x"), ends, 8, BRUNCADORZA_ENDING_FEED, out, 1, 1, values) == BRUNCADORZA_BAD_COLUMN && one(values, 2));
    CHECK(bruncadorza_join(BYTES("17.AC..x"), ends, 8, BRUNCADORZA_ENDING_FEED, out, 1, 1, values) == BRUNCADORZA_SHORT && none(values));

    CHECK(bruncadorza_write_genotype(numbers, 2, both_missing, 1, phased, 2, 4, 3, out, 1, 2, values) == BRUNCADORZA_BEYOND && none(values));
    CHECK(bruncadorza_write_genotype(numbers, 2, both_missing, 1, phased, 2, 4, 3, out, 1, 1, values) == BRUNCADORZA_BAD_LENGTHS && none(values));
    CHECK(bruncadorza_write_genotype(numbers, 2, both_missing, 2, phased, 2, 4, 3, out, 1, 1, values) == BRUNCADORZA_BAD_NUMBER && one(values, 1));
    CHECK(bruncadorza_write_genotype(numbers, 2, none_missing, 2, phased, 2, 4, 3, out, 1, 1, values) == BRUNCADORZA_BAD_PHASING && none(values));
    CHECK(bruncadorza_write_genotype(numbers, 2, none_missing, 2, phased, 2, 4, 4, out, 1, 1, values) == BRUNCADORZA_SHORT && none(values));
    CHECK(out[0] == 0xEE);
}

/* The same of the writer of vectors: each refusal before those below it. */
static void order_of_vectors(void) {
    const uint64_t large[2] = {0, 1073741823};
    const uint64_t numbers[2] = {0, 1073741822};
    const uint8_t none_missing[2] = {0, 0};
    const uint8_t both_missing[2] = {1, 1};
    uint8_t out[1] = {0xEE};
    uint64_t values[BRUNCADORZA_VALUES];

    CHECK(bruncadorza_write_vector(large, 2, both_missing, 1, none_missing, 2, 1, out, 1, 2, values) == BRUNCADORZA_BEYOND && none(values));
    CHECK(bruncadorza_write_vector(large, 2, both_missing, 1, none_missing, 2, 1, out, 1, 1, values) == BRUNCADORZA_BAD_LENGTHS && none(values));
    CHECK(bruncadorza_write_vector(large, 0, both_missing, 1, none_missing, 0, 0, out, 1, 1, values) == BRUNCADORZA_BAD_LENGTHS && none(values));
    CHECK(bruncadorza_write_vector(large, 0, both_missing, 0, none_missing, 0, 1, out, 1, 1, values) == BRUNCADORZA_GENOTYPE_EMPTY && none(values));
    CHECK(bruncadorza_write_vector(large, 2, both_missing, 2, none_missing, 2, 1, out, 1, 1, values) == BRUNCADORZA_BAD_NUMBER && one(values, 1));
    CHECK(bruncadorza_write_vector(large, 2, none_missing, 2, none_missing, 2, 1, out, 1, 1, values) == BRUNCADORZA_LARGE_ALLELE && none(values));
    CHECK(bruncadorza_write_vector(numbers, 2, none_missing, 2, none_missing, 2, 1, out, 1, 1, values) == BRUNCADORZA_LONG_LIST && none(values));
    CHECK(bruncadorza_write_vector(numbers, 2, none_missing, 2, none_missing, 2, 2, out, 1, 1, values) == BRUNCADORZA_SHORT && none(values));
    CHECK(out[0] == 0xEE);
}

/* Where the count of a slice is 0, its pointer may be null. */
static void empty_slices(void) {
    uint64_t values[BRUNCADORZA_LINE_VALUES];

    CHECK(bruncadorza_check_utf8(NULL, 0) == BRUNCADORZA_DONE);
    CHECK(bruncadorza_find_space(NULL, 0, values) == BRUNCADORZA_DONE && one(values, 0));
    CHECK(bruncadorza_read_decimal(NULL, 0, values) == BRUNCADORZA_BAD_NUMBER && one(values, 0));
    CHECK(bruncadorza_print_decimal(0, NULL, 0, values) == BRUNCADORZA_SHORT && none(values));
    CHECK(READ_LINE(NULL, 0, 0, values) == BRUNCADORZA_END && one(values, 0));
    CHECK(bruncadorza_field_text(NULL, 0, BRUNCADORZA_CHROM, 0, 0, values) == BRUNCADORZA_DONE && two(values, 0, 0));
    CHECK(bruncadorza_place_in(NULL, 0, 0, 0, values) == BRUNCADORZA_DONE && two(values, 0, 0));
    CHECK(bruncadorza_read_pos(NULL, 0, values) == BRUNCADORZA_BAD_POS && one(values, 0));
    CHECK(bruncadorza_info_step(NULL, 0, 0, values) == BRUNCADORZA_NOTHING && one(values, 0));
    CHECK(bruncadorza_info_find(NULL, 0, NULL, 0, values) == BRUNCADORZA_NOTHING && one(values, 0));
    CHECK(bruncadorza_info_value(NULL, 0, NULL, 0, values) == BRUNCADORZA_DONE && two(values, 0, 0));
    CHECK(bruncadorza_info_count(NULL, 0) == 0);
    CHECK(bruncadorza_samples_count(NULL, 0) == 0);
    CHECK(bruncadorza_sample_at(NULL, 0, 0, values) == BRUNCADORZA_NOTHING && none(values));
    CHECK(bruncadorza_sample(NULL, 0, 0, values) == BRUNCADORZA_NOTHING && none(values));
    CHECK(bruncadorza_subfield(NULL, 0, 0, values) == BRUNCADORZA_NOTHING && none(values));
    CHECK(bruncadorza_key_index(NULL, 0, NULL, 0, values) == BRUNCADORZA_NOTHING && none(values));
    CHECK(bruncadorza_genotype_step(NULL, 0, 0, values) == BRUNCADORZA_GENOTYPE_EMPTY && none(values));
    CHECK(bruncadorza_genotype_judge(NULL, 0, 0, values) == BRUNCADORZA_GENOTYPE_EMPTY && none(values));
    CHECK(bruncadorza_genotype_judge_checked(NULL, 0, NULL, 0, 0, values) == BRUNCADORZA_GENOTYPE_EMPTY && none(values));
    CHECK(bruncadorza_read_genotype(BYTES("0"), NULL, 0, NULL, 0, NULL, 0, values) == BRUNCADORZA_SHORT && none(values));
    CHECK(bruncadorza_read_genotype_checked(BYTES("1"), NULL, 0, NULL, 0, NULL, 0, NULL, 0, values) == BRUNCADORZA_ABOVE_ALT && one(values, 0));
    CHECK(bruncadorza_write_genotype(NULL, 0, NULL, 0, NULL, 0, 4, 4, NULL, 0, 0, values) == BRUNCADORZA_GENOTYPE_EMPTY && none(values));
    CHECK(bruncadorza_genotype_number(NULL, 0, 2, values) == BRUNCADORZA_OUT_OF_RANGE && none(values));
    CHECK(bruncadorza_genotype_at(0, 1, 1, NULL, 0, values) == BRUNCADORZA_SHORT && none(values));
    CHECK(bruncadorza_list_genotypes(1, 1, NULL, 0, values) == BRUNCADORZA_SHORT && none(values));
    CHECK(bruncadorza_read_vector(NULL, 0, 1, NULL, 0, NULL, 0, NULL, 0, values) == BRUNCADORZA_NO_VECTOR && none(values));
    CHECK(bruncadorza_read_vector(NULL, 0, 2, NULL, 0, NULL, 0, NULL, 0, values) == BRUNCADORZA_NO_VECTOR && none(values));
    CHECK(bruncadorza_read_vector(NULL, 0, 4, NULL, 0, NULL, 0, NULL, 0, values) == BRUNCADORZA_NO_VECTOR && none(values));
    CHECK(bruncadorza_read_vector(NULL, 0, 0, NULL, 0, NULL, 0, NULL, 0, values) == BRUNCADORZA_BAD_WIDTH && none(values));
    CHECK(bruncadorza_write_vector(NULL, 0, NULL, 0, NULL, 0, 0, NULL, 0, 0, values) == BRUNCADORZA_GENOTYPE_EMPTY && none(values));
    CHECK(bruncadorza_judge_filter(NULL, 0) == BRUNCADORZA_BAD_FILTER);
    CHECK(bruncadorza_judge_alt(NULL, 0) == BRUNCADORZA_BAD_ALT);
    CHECK(bruncadorza_alt_count(NULL, 0) == 0);
    CHECK(bruncadorza_write_filters(NULL, 0, NULL, 0, NULL, 0, 0, values) == BRUNCADORZA_SHORT && none(values));
    CHECK(bruncadorza_write_alts(NULL, 0, NULL, 0, NULL, 0, 0, values) == BRUNCADORZA_SHORT && none(values));
    CHECK(bruncadorza_join(NULL, 0, NULL, 0, BRUNCADORZA_ENDING_FEED, NULL, 0, 0, values) == BRUNCADORZA_FEW_COLUMNS && none(values));
    CHECK(bruncadorza_join(NULL, 0, NULL, 0, 3, NULL, 0, 0, values) == BRUNCADORZA_NOTHING && none(values));
}

int main(void) {
    leaves();
    lines();
    read_endings();
    split_lines();
    record_forms();
    kept_records();
    refused_places();
    refused_numbers();
    farthest_forms();
    infos();
    samples();
    judged_genotypes();
    read_genotypes();
    written_genotypes();
    counted_genotypes();
    numbered_genotypes();
    placed_genotypes();
    listed_genotypes();
    genotypes_there_and_back();
    read_vectors();
    refused_widths();
    left_over_bytes();
    read_wide_vectors();
    written_vectors();
    written_widths();
    room_of_widths();
    vectors_there_and_back();
    written_lists();
    joined_columns();
    joined_endings();
    behind_values();
    behind_numbers();
    behind_vectors();
    order_of_writers();
    order_of_vectors();
    empty_slices();
    printf("%d of %d checks hold\n", checks - wrong, checks);
    return wrong == 0 ? 0 : 1;
}
