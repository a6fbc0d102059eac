/*
 * Bruncadorza from C: lines of VCF 4.4 text, read and written.
 *
 * The archive is crates/exports/out/libexports.a, for x86-64 Linux; bindings/README.md says how it is built and linked. Each
 * function takes all inputs, keeps nothing between calls, allocates nothing and can be called from several threads.
 *
 * How a slice crosses. As two arguments: a pointer, and how many elements (not bytes) it points to. A caller must keep this,
 * since no function can see whether it was kept:
 *
 *   - the pointer is aligned for its type, and so many elements can be read there and, where it is not const, written;
 *   - where the count is 0 the pointer is not used: it may be null, or any other;
 *   - what can be written overlaps no other slice of the same call; slices that are only read may overlap each other.
 *
 * A text is bytes, and no 0 byte ends it.
 *
 * What comes back. Each function returns a number: BRUNCADORZA_DONE, or a refusal below. The three that end in `_count` return
 * the count itself. A place is two values, a start and a length in bytes, counted from the start of the text that was given.
 *
 * The offset says which byte makes a text no number, counted from the start of the text that was given: the first that is not
 * allowed, or the digit at which the value passes 18446744073709551615, whichever comes first. Where a digit is missing it is the
 * end of the text, or of the piece of a genotype. So it can be the text's length, where there is no byte.
 *
 * How values cross. A function that answers more than its number is lent an array `values`, always of the same length:
 * BRUNCADORZA_VALUES numbers, and BRUNCADORZA_LINE_VALUES for the four functions on whole lines: bruncadorza_read_line,
 * bruncadorza_split_line, bruncadorza_narrow and bruncadorza_widen. In C such a parameter is a plain pointer, so a caller must
 * keep that so many numbers are there, aligned, and in no slice and no other array of the same call. The function sets values[0]
 * to how many values follow and values[1], values[2], .. to the values, and changes nothing behind them. How many there are tells
 * an absent thing from a present one. No function fills its array: there is room for values that are added later, so that a
 * caller's arrays can stay as they are. The arrays `places` and `numbers` of the last two cross in the same way, and are only
 * read.
 *
 * In the comments below `0: next, start, length` says that the number 0 comes with these three values, and `6` that it comes
 * with none.
 */
#ifndef BRUNCADORZA_H
#define BRUNCADORZA_H

#include <stddef.h>
#include <stdint.h>

#ifdef __cplusplus
extern "C" {
#endif

/* The numbers that are answered (docs/RULES.md, section 2). */
enum bruncadorza_number {
    BRUNCADORZA_DONE = 0,
    BRUNCADORZA_END = 1,              /* the line reader is at the end of its input */
    BRUNCADORZA_EMPTY_COLUMN = 2,     /* an empty column */
    BRUNCADORZA_COLUMN_FED = 3,       /* a column ended by LF that must be ended by a tab */
    BRUNCADORZA_COLUMN_CUT = 4,       /* a column cut by the end of the input */
    BRUNCADORZA_NOT_UTF8 = 5,         /* not UTF-8 */
    BRUNCADORZA_BEYOND = 6,           /* a given place lies beyond the buffer */
    BRUNCADORZA_INFO_AFTER_KEY = 7,   /* INFO: the `;` after a key is the last byte */
    BRUNCADORZA_INFO_NO_KEY = 8,      /* INFO: an empty key */
    BRUNCADORZA_INFO_AFTER_VALUE = 9, /* INFO: the `;` after a value is the last byte */
    BRUNCADORZA_NOTHING = 10,         /* no such entry, sample, key, subfield, field or ending; the steps over INFO or a genotype
                                         are done */
    BRUNCADORZA_GENOTYPE_EMPTY = 11,  /* the genotype text or list is empty */
    BRUNCADORZA_BAD_NUMBER = 12,      /* a number is bad, or an allele's is not 0 beside a missing mark */
    BRUNCADORZA_BAD_PHASING = 13,     /* the file format is below 4.4 and the first phasing is not the implied one */
    BRUNCADORZA_BAD_FILTER = 14,      /* a filter is invalid */
    BRUNCADORZA_BAD_ALT = 15,         /* an ALT entry is invalid */
    BRUNCADORZA_BAD_LENGTHS = 16,     /* the ends of a list fall or pass its text; parallel slices differ in length */
    BRUNCADORZA_SHORT = 17,           /* the output or the lent row is too short */
    BRUNCADORZA_BAD_COLUMN = 18,      /* joiner: a column is empty, holds a tab or an LF, or is the last, ends in CR, and the ending
                                         is LF */
    BRUNCADORZA_FEW_COLUMNS = 19,     /* joiner: fewer than eight columns, or nine */
    BRUNCADORZA_ABOVE_ALT = 20,       /* checked reader: an allele number is above the ALT count */
    BRUNCADORZA_BAD_POS = 21,         /* POS is bad */
    BRUNCADORZA_OUT_OF_RANGE = 23,    /* a ploidy, allele count, allele or genotype number out of range */
    BRUNCADORZA_LARGE_ALLELE = 24,    /* BCF: an allele is above the largest that any entry holds */
    BRUNCADORZA_LONG_LIST = 25,       /* BCF: the list is longer than the vector */
    BRUNCADORZA_NO_VECTOR = 26,       /* BCF: the bytes are no vector */
    BRUNCADORZA_BAD_WIDTH = 27,       /* BCF: no entry has so many bytes */
    BRUNCADORZA_NOT_MADE = 32         /* a form of a line's record that bruncadorza_read_line makes on no input */
};

/* The ten fields of a line, as bruncadorza_field_text takes them and in the order in which bruncadorza_read_line answers. */
enum bruncadorza_name {
    BRUNCADORZA_CHROM = 0,
    BRUNCADORZA_POS = 1,
    BRUNCADORZA_ID = 2,
    BRUNCADORZA_REF = 3,
    BRUNCADORZA_ALT = 4,
    BRUNCADORZA_QUAL = 5,
    BRUNCADORZA_FILTER = 6,
    BRUNCADORZA_INFO = 7,
    BRUNCADORZA_FORMAT = 8,
    BRUNCADORZA_SAMPLES = 9
};

/* How a line ends, as bruncadorza_read_line answers it and bruncadorza_join, bruncadorza_narrow and bruncadorza_widen take it: the
   number is how many bytes it has. */
enum bruncadorza_ending {
    BRUNCADORZA_ENDING_NOTHING = 0,    /* the end of the input */
    BRUNCADORZA_ENDING_FEED = 1,       /* LF */
    BRUNCADORZA_ENDING_RETURN_FEED = 2 /* CR LF */
};

/* How long the array `values` is: for bruncadorza_read_line, bruncadorza_split_line, bruncadorza_narrow and bruncadorza_widen, and
   for every other function that has values. */
#define BRUNCADORZA_LINE_VALUES 24
#define BRUNCADORZA_VALUES 8

/* How many numbers a line's record has beside its ending: the start and the length of each field; and kept small. */
#define BRUNCADORZA_PLACES 20
#define BRUNCADORZA_NUMBERS 11

/* Characters and decimal numbers */

/* Whether the text is UTF-8: 0, or 5. */
uint64_t bruncadorza_check_utf8(const uint8_t *text, size_t text_n);

/* Whether the text holds white space. 0: 1 where it does, else 0. Or 5. */
uint64_t bruncadorza_find_space(const uint8_t *text, size_t text_n,
                                uint64_t values[BRUNCADORZA_VALUES]);

/* What a decimal text is worth. 0: the number. 12: the offset. */
uint64_t bruncadorza_read_decimal(const uint8_t *text, size_t text_n,
                                  uint64_t values[BRUNCADORZA_VALUES]);

/* Writes the shortest decimal of n at the start of `out`. 0: how many bytes were written. Or 17. Only 0 changes `out`. */
uint64_t bruncadorza_print_decimal(uint64_t n, uint8_t *out, size_t out_n,
                                   uint64_t values[BRUNCADORZA_VALUES]);

/* Lines */

/* Reads the line at the place `at`. 0: the next place, the ending (enum bruncadorza_ending), then the start and the length of each
   of the ten fields. 1 to 6: the next place, from which to go on. */
uint64_t bruncadorza_read_line(const uint8_t *s, size_t s_n, size_t at,
                               uint64_t values[BRUNCADORZA_LINE_VALUES]);

/* Answers as bruncadorza_read_line does, whatever it is given, in three plain steps. It is slower, and goes to the end of the line
   also where an early column is refused. */
uint64_t bruncadorza_split_line(const uint8_t *s, size_t s_n, size_t at,
                                uint64_t values[BRUNCADORZA_LINE_VALUES]);

/* The text of a field (enum bruncadorza_name) at the place that bruncadorza_read_line gave for it in the same `s`. 0: its start
   and length, or no value where it is absent (`.` in QUAL). 6 where the place does not fit `s`; 10 where `name` is above 9. */
uint64_t bruncadorza_field_text(const uint8_t *s, size_t s_n, uint64_t name, size_t start, size_t len,
                                uint64_t values[BRUNCADORZA_VALUES]);

/* Whether a place fits `s`. 0: its start and length. Or 6. */
uint64_t bruncadorza_place_in(const uint8_t *s, size_t s_n, size_t start, size_t len,
                              uint64_t values[BRUNCADORZA_VALUES]);

/* What the text of POS says. 0: the position, or no value for `0`, which means none. 21: the offset, which is text_n where the
   number is 0 in another spelling. */
uint64_t bruncadorza_read_pos(const uint8_t *text, size_t text_n,
                              uint64_t values[BRUNCADORZA_VALUES]);

/* Records kept. Who keeps many records of lines keeps them small: the ending, and eleven numbers in place of the twenty that
   bruncadorza_read_line answers. The eleven are where the line starts, where each of its first nine fields ends, and where its text
   ends. Each other field starts past one tab behind the end before it; without FORMAT the ninth end is that of INFO, and FORMAT and
   the samples are empty there, with no tab between. Both functions refuse by 32 exactly what bruncadorza_read_line makes on no
   input, so that each gives back what the other was given. Neither changes anything but `values`. */

/* The small form of an ending (enum bruncadorza_ending) and the start and the length of each of ten fields. 0: the ending, where
   the line starts, the ends of nine fields, where the text ends. 32 where bruncadorza_read_line makes them on no input, and where
   `ending` is above 2. Behind 0 of bruncadorza_read_line its values[2] is the ending, and `places` may be &values[3]; `values` is
   then another array. */
uint64_t bruncadorza_narrow(uint64_t ending, const size_t places[BRUNCADORZA_PLACES],
                            uint64_t values[BRUNCADORZA_LINE_VALUES]);

/* The way back: the places of an ending (enum bruncadorza_ending) and the eleven numbers. 0: the ending, then the start and the
   length of each of the ten fields. 32 where bruncadorza_read_line makes them on no input, and where `ending` is above 2. Behind 0
   of bruncadorza_narrow its values[1] is the ending, and `numbers` may be &values[2]. */
uint64_t bruncadorza_widen(uint64_t ending, const size_t numbers[BRUNCADORZA_NUMBERS],
                           uint64_t values[BRUNCADORZA_LINE_VALUES]);

/* INFO. The column is the field's text: a `.` comes as the empty text. */

/* The entry at the place `at`. 0: the next place, the key's start and length and, where there is a value, its start and length.
   6 to 10: the next place. */
uint64_t bruncadorza_info_step(const uint8_t *column, size_t column_n, size_t at,
                               uint64_t values[BRUNCADORZA_VALUES]);

/* The first entry whose key is equal, or the first refusal before it, or 10 with the column's length; as bruncadorza_info_step. */
uint64_t bruncadorza_info_find(const uint8_t *column, size_t column_n, const uint8_t *key, size_t key_n,
                               uint64_t values[BRUNCADORZA_VALUES]);

/* The value of the first entry whose key is equal, as a place in the column. Always 0: its start and length; column_n and 0 where
   there is no value to show. bruncadorza_info_find tells an absent value, an empty one and a refusal apart. */
uint64_t bruncadorza_info_value(const uint8_t *column, size_t column_n, const uint8_t *key, size_t key_n,
                                uint64_t values[BRUNCADORZA_VALUES]);

/* How many entries the column claims: the count itself. */
uint64_t bruncadorza_info_count(const uint8_t *column, size_t column_n);

/* Samples. `samples` is the text of that field, `sample` the text of one sample, `format` the text of FORMAT. */

/* How many samples there are: the count itself. */
uint64_t bruncadorza_samples_count(const uint8_t *samples, size_t samples_n);

/* The sample at the place `at`. 0: its start and length and, where it is not the last, the next place. 10 where the text is empty;
   6. */
uint64_t bruncadorza_sample_at(const uint8_t *samples, size_t samples_n, size_t at,
                               uint64_t values[BRUNCADORZA_VALUES]);

/* Sample n, counted from 0. 0: its start and length. Or 10. */
uint64_t bruncadorza_sample(const uint8_t *samples, size_t samples_n, size_t n,
                            uint64_t values[BRUNCADORZA_VALUES]);

/* Subfield n of a sample, counted from 0. 0: its start and length. Or 10. */
uint64_t bruncadorza_subfield(const uint8_t *sample, size_t sample_n, size_t n,
                              uint64_t values[BRUNCADORZA_VALUES]);

/* The first key of FORMAT that is equal. 0: its index, from 0. Or 10. */
uint64_t bruncadorza_key_index(const uint8_t *format, size_t format_n, const uint8_t *key, size_t key_n,
                               uint64_t values[BRUNCADORZA_VALUES]);

/* Genotypes. A list of alleles is three slices of one length: the numbers, the missing marks and the phasings. Readers write 0 or
   1 for a mark or a phasing; the writer takes any other value than 0 as 1. An allele that is missing has the number 0. Only `.`
   alone is missing: `.5` is read as a number, so its `.` is the byte that is not allowed. */

/* The allele at the place `at`, as the first of the text from there on. 0: the next place, the number, the missing mark, the
   phasing. 12: the offset, from the start of `text` and not from `at`. Or 6, 10 at the text's end, 11 where it is empty. */
uint64_t bruncadorza_genotype_step(const uint8_t *text, size_t text_n, size_t at,
                                   uint64_t values[BRUNCADORZA_VALUES]);

/* What reading the text into slices of the length `room` answers. 0: how many alleles. 12: the index of the first piece that is
   no allele, then the offset, from the start of `text`. Or 11, 17. */
uint64_t bruncadorza_genotype_judge(const uint8_t *text, size_t text_n, size_t room,
                                    uint64_t values[BRUNCADORZA_VALUES]);

/* The same where no number may be above the count of the ALT column `alt` (bruncadorza_alt_count). Also 20: the index of the
   first that is. */
uint64_t bruncadorza_genotype_judge_checked(const uint8_t *text, size_t text_n, const uint8_t *alt, size_t alt_n, size_t room,
                                            uint64_t values[BRUNCADORZA_VALUES]);

/* Reads a genotype. 0: how many alleles. 12: the index of the first piece that is no allele, then the offset, from the start of
   `text`. Or 11; 16 where the lengths of the three slices differ; 17. Only 0 changes the slices, and only their first entries. */
uint64_t bruncadorza_read_genotype(const uint8_t *text, size_t text_n,
                                   uint64_t *numbers, size_t numbers_n, uint8_t *missing, size_t missing_n,
                                   uint8_t *phased, size_t phased_n,
                                   uint64_t values[BRUNCADORZA_VALUES]);

/* The same where no number may be above the count of the ALT column `alt` (bruncadorza_alt_count). Also 20: the index of the
   first that is. */
uint64_t bruncadorza_read_genotype_checked(const uint8_t *text, size_t text_n, const uint8_t *alt, size_t alt_n,
                                           uint64_t *numbers, size_t numbers_n, uint8_t *missing, size_t missing_n,
                                           uint8_t *phased, size_t phased_n,
                                           uint64_t values[BRUNCADORZA_VALUES]);

/* Writes the shortest spelling that the file format major.minor permits, from the place `at` of `out` on. 0: how many bytes were
   written. 12: the index of the first allele that is missing and has a number. Or 6, 11, 13, 16, 17. Only 0 changes `out`. */
uint64_t bruncadorza_write_genotype(const uint64_t *numbers, size_t numbers_n, const uint8_t *missing, size_t missing_n,
                                    const uint8_t *phased, size_t phased_n, uint32_t major, uint32_t minor,
                                    uint8_t *out, size_t out_n, size_t at,
                                    uint64_t values[BRUNCADORZA_VALUES]);

/* Genotype numbers. A genotype here is its alleles alone, as numbers in an order that never falls; how many there are is its
   ploidy, 1 to 8. The alleles are 0 to alleles - 1, for an allele count `alleles` of 1 to 64. The genotypes of one ploidy are
   numbered from 0 in the order in which VCF 4.4 lists the likelihoods of a sample: 0/0, 0/1, 1/1, 0/2, .. for ploidy 2. Anything
   out of range answers 23, whatever the length of `row`: 23 comes before 17. Only 0 changes `row`, and a longer one keeps its
   rest. */

/* How many genotypes there are, which is how many likelihoods a sample has. 0: how many. Or 23. */
uint64_t bruncadorza_count_genotypes(uint64_t ploidy, uint64_t alleles,
                                     uint64_t values[BRUNCADORZA_VALUES]);

/* The number of a genotype, whose ploidy is genotype_n. 0: the number. 23 also where the alleles fall, or one is no allele. */
uint64_t bruncadorza_genotype_number(const uint64_t *genotype, size_t genotype_n, uint64_t alleles,
                                     uint64_t values[BRUNCADORZA_VALUES]);

/* Writes the genotype with the number `number` at the start of `row`. 0: the ploidy, which is how many were written. 23 also where
   no genotype has that number. 17 where row_n is below the ploidy. */
uint64_t bruncadorza_genotype_at(uint64_t number, uint64_t ploidy, uint64_t alleles, uint64_t *row, size_t row_n,
                                 uint64_t values[BRUNCADORZA_VALUES]);

/* Writes all genotypes at the start of `row`, one after the other in the order of their numbers, so that genotype i starts at
   row[i * ploidy]. 0: how many genotypes. Or 23; 17 where row_n is below their count (bruncadorza_count_genotypes) times the
   ploidy. */
uint64_t bruncadorza_list_genotypes(uint64_t ploidy, uint64_t alleles, uint64_t *row, size_t row_n,
                                    uint64_t values[BRUNCADORZA_VALUES]);

/* Genotypes in BCF. A vector is one sample's genotype in entries of one width: 1, 2 or 4 bytes each, the lowest byte first. First
   comes an entry for each allele, one at least: its number + 1, or 0 where it is missing, shifted left once, and the low bit 1
   where it is phased. So no allele is above 62, 16382 or 1073741822. What is left of the vector is padding: 81, 8001 or 80000001
   hex. The list of alleles is three slices, as above. */

/* Reads a vector whose entries have `width` bytes each, also where a smaller width would hold every allele. 0: how many alleles. 27
   where `width` is not 1, 2 or 4, whatever else is wrong; 16 where the lengths of the three slices differ; 26 where the bytes are
   no vector, or not a whole number of entries; 17. Only 0 changes the slices, and only their first entries. */
uint64_t bruncadorza_read_vector(const uint8_t *bytes, size_t bytes_n, size_t width,
                                 uint64_t *numbers, size_t numbers_n, uint8_t *missing, size_t missing_n,
                                 uint8_t *phased, size_t phased_n,
                                 uint64_t values[BRUNCADORZA_VALUES]);

/* Writes the vector of `entries` entries, of the smallest width that holds every allele, from the place `at` of `out` on. 0: the
   width, then how many bytes were written, which is `entries` times the width. 12: the index of the first allele that is missing
   and has a number. 24 where an allele is above 1073741822; 25 where the list is longer than the vector. Or 6, 11, 16, 17. Only 0
   changes `out`. */
uint64_t bruncadorza_write_vector(const uint64_t *numbers, size_t numbers_n, const uint8_t *missing, size_t missing_n,
                                  const uint8_t *phased, size_t phased_n, size_t entries,
                                  uint8_t *out, size_t out_n, size_t at,
                                  uint64_t values[BRUNCADORZA_VALUES]);

/* Filters, ALT and joining. A list is one text and the end of each entry: the first entry starts at 0, each later one at the end
   before it. */

/* Whether a filter is valid: 0, 5 or 14. */
uint64_t bruncadorza_judge_filter(const uint8_t *filter, size_t filter_n);

/* Whether an ALT entry is valid: 0, 5 or 15. */
uint64_t bruncadorza_judge_alt(const uint8_t *alt, size_t alt_n);

/* How many alternate alleles an ALT column has, none where it is `.` or empty, else its commas plus one: the count itself. */
uint64_t bruncadorza_alt_count(const uint8_t *column, size_t column_n);

/* Writes filters with `;` between, from the place `at` of `out` on. 0: how many bytes were written. 5, 14: the index of the
   filter. Or 6, 16, 17. Only 0 changes `out`. */
uint64_t bruncadorza_write_filters(const uint8_t *text, size_t text_n, const size_t *ends, size_t ends_n,
                                   uint8_t *out, size_t out_n, size_t at,
                                   uint64_t values[BRUNCADORZA_VALUES]);

/* Writes ALT entries with `,` between, from the place `at` of `out` on. 0: how many bytes were written. 5, 15: the index of the
   entry. Or 6, 16, 17. Only 0 changes `out`. */
uint64_t bruncadorza_write_alts(const uint8_t *text, size_t text_n, const size_t *ends, size_t ends_n,
                                uint8_t *out, size_t out_n, size_t at,
                                uint64_t values[BRUNCADORZA_VALUES]);

/* Writes columns with tabs between and an ending (enum bruncadorza_ending) behind, from the place `at` of `out` on. 0: how many
   bytes were written. 5, 18: the index of the column. 10 where `ending` is above 2, whatever else is wrong. Or 6, 16, 17, 19. Only
   0 changes `out`. */
uint64_t bruncadorza_join(const uint8_t *text, size_t text_n, const size_t *ends, size_t ends_n, uint64_t ending,
                          uint8_t *out, size_t out_n, size_t at,
                          uint64_t values[BRUNCADORZA_VALUES]);

#ifdef __cplusplus
}
#endif

#endif
