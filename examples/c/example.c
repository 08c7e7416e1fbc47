/* Encodes two messages, damages a symbol on the way or erases some, decodes what arrives, once by both
 * decoders, and keeps it on a sheet. Then the same messages go to a box of the 2018 edition, and its word is
 * converted to the 2013 edition and back. At the end two messages are encoded by either line rule.
 *
 * At the top of the repository, after tools/staticlib:
 *   cc -std=c11 -Iinclude examples/c/example.c target/staticlib/libfogzurt.a -o target/example
 *   target/example
 */
#include <stdio.h>
#include <stdlib.h>
#include <string.h>

#include "fogzurt.h"

/* Boxes 1 to 12 have profile 1. */
enum {
    PROFILE = 1,
    LEVELS = 3,
    MESSAGE = FOGZURT_MESSAGE_BYTES(PROFILE),
    WORD = FOGZURT_WORD_BYTES(PROFILE),
    BOX = 7,
    RECORDS = 4
};

/* Ends the program where a call that has to succeed is refused. */
static void expect_ok(const char *call, uint64_t answer) {
    if (FOGZURT_NUMBER(answer) != FOGZURT_OK) {
        fprintf(stderr, "%s was refused with number %u\n", call, FOGZURT_NUMBER(answer));
        exit(EXIT_FAILURE);
    }
}

/* Prints a label and symbols as digits, an erasure as a question mark. */
static void print_symbols(const char *label, const uint8_t *symbols, size_t length) {
    printf("%s", label);
    for (size_t i = 0; i < length; i++) {
        putchar(symbols[i] == FOGZURT_ERASURE ? '?' : '0' + symbols[i]);
    }
    printf("\n");
}

/* Prints how many positions were tried for the symbol that is wrong. */
static void print_tried(unsigned tried) {
    printf("  positions tried: %u\n", tried);
}

/* Prints the error of a corrected symbol: received minus sent. */
static void print_error(int error) {
    printf("  error %+d: it arrived %d too %s\n", error, abs(error), error > 0 ? "high" : "low");
}

/* Prints what decoding a word of an edition says about it, and its messages. */
static void print_decoded_as(uint64_t edition, const uint8_t *word) {
    uint8_t first[MESSAGE], second[MESSAGE];
    uint64_t answer = fogzurt_decode(edition, PROFILE, word, WORD, first, MESSAGE, second, MESSAGE);
    if (FOGZURT_NUMBER(answer) != FOGZURT_OK) {
        printf("  cannot be read: number %u\n", FOGZURT_NUMBER(answer));
        if (FOGZURT_NUMBER(answer) == FOGZURT_ERR_UNREADABLE) {
            print_tried(FOGZURT_TRIED(answer));
        }
        return;
    }
    if (FOGZURT_KIND(answer) == FOGZURT_KIND_CORRECTED) {
        printf("  corrected: a %u was sent at position %u\n", FOGZURT_SENT_SYMBOL(answer),
               FOGZURT_POSITION(answer));
        print_error(FOGZURT_ERROR(answer));
        print_tried(FOGZURT_TRIED(answer));
    } else if (FOGZURT_KIND(answer) == FOGZURT_KIND_FILLED) {
        printf("  filled: a %u was sent at position %u", FOGZURT_SENT_SYMBOL(answer),
               FOGZURT_POSITION(answer));
        if (FOGZURT_SECOND_POSITION(answer) != 0) {
            printf(", a %u at position %u", FOGZURT_SECOND_SENT_SYMBOL(answer),
                   FOGZURT_SECOND_POSITION(answer));
        }
        printf("\n");
    } else {
        printf("  clean: a codeword, with no symbol corrected\n");
    }
    print_symbols("  first message   ", first, MESSAGE);
    print_symbols("  second message  ", second, MESSAGE);
}

/* The same of a box of the 2013 edition. */
static void print_decoded(const uint8_t *word) {
    print_decoded_as(FOGZURT_EDITION_2013, word);
}

/* Decodes a word of the 2013 edition by both decoders, and prints whether they agree: in the whole answer but
 * for how many positions were tried, which only the first counts, and in the messages. */
static void print_agreement(const uint8_t *word) {
    uint8_t first[2][MESSAGE], second[2][MESSAGE];
    uint64_t answer = fogzurt_decode(FOGZURT_EDITION_2013, PROFILE, word, WORD, first[0], MESSAGE,
                                     second[0], MESSAGE);
    uint64_t other = fogzurt_syndrome_decode(FOGZURT_EDITION_2013, PROFILE, word, WORD, first[1],
                                             MESSAGE, second[1], MESSAGE);
    expect_ok("fogzurt_decode", answer);
    expect_ok("fogzurt_syndrome_decode", other);
    int agree = FOGZURT_KIND(answer) == FOGZURT_KIND(other)
                && FOGZURT_POSITION(answer) == FOGZURT_POSITION(other)
                && FOGZURT_SENT_SYMBOL(answer) == FOGZURT_SENT_SYMBOL(other)
                && FOGZURT_ERROR(answer) == FOGZURT_ERROR(other)
                && memcmp(first[0], first[1], MESSAGE) == 0
                && memcmp(second[0], second[1], MESSAGE) == 0;
    printf("  by syndromes: %s, positions tried: %u\n", agree ? "the same" : "NOT THE SAME",
           FOGZURT_TRIED(other));
    if (!agree || FOGZURT_TRIED(other) != 0) {
        exit(EXIT_FAILURE);
    }
}

/* Encodes for an edition by a line rule, and prints the word. */
static void print_sent_by(uint64_t edition, uint64_t rule, const uint8_t *first, const uint8_t *second,
                          uint8_t *word) {
    expect_ok("fogzurt_encode",
              fogzurt_encode(edition, PROFILE, rule, first, MESSAGE, second, MESSAGE, word, WORD));
    print_symbols("sent              ", word, WORD);
}

/* The same by line rule 1, as boxes already sold have it. */
static void print_sent(uint64_t edition, const uint8_t *first, const uint8_t *second, uint8_t *word) {
    print_sent_by(edition, FOGZURT_RULE_1, first, second, word);
}

/* Prints the peak of a word: how far its running digital sum goes from 0. */
static void print_peak(const uint8_t *word) {
    int sum = 0, peak = 0;
    for (size_t i = 0; i < WORD; i++) {
        sum += 2 * word[i] - (LEVELS - 1);
        if (peak < abs(sum)) {
            peak = abs(sum);
        }
    }
    printf("  peak %d\n", peak);
}

/* Converts a word of an edition, and prints the other edition's word. */
static void print_converted(const char *label, uint64_t edition, const uint8_t *word, uint8_t *out) {
    expect_ok("fogzurt_convert", fogzurt_convert(edition, PROFILE, word, WORD, out, WORD));
    print_symbols(label, out, WORD);
}

/* Prints the box number and the word of a record that was copied out. */
static void print_record(const char *label, const uint8_t *record) {
    printf("%s box %u, profile %u, ", label, record[FOGZURT_RECORD_BOX],
           record[FOGZURT_RECORD_PROFILE]);
    print_symbols("word ", record + FOGZURT_RECORD_WORD, WORD);
}

int main(void) {
    const uint8_t opening[MESSAGE] = {0, 0, 0, 0, 1}, seal[MESSAGE] = {0, 0, 0, 0, 0};
    uint8_t word[WORD], converted[WORD], back[WORD];
    uint8_t sheet[FOGZURT_SHEET_BYTES(RECORDS)], record[FOGZURT_CELL];

    print_sent(FOGZURT_EDITION_2013, opening, seal, word);
    print_decoded(word);

    word[6 - 1] = 2; /* positions count from 1 */
    print_symbols("received          ", word, WORD);
    print_decoded(word);
    print_agreement(word);

    word[6 - 1] = 0;
    print_symbols("received          ", word, WORD);
    print_decoded(word);

    word[8 - 1] = 0; /* a second one: no codeword is within one position */
    print_symbols("received          ", word, WORD);
    print_decoded(word);
    word[8 - 1] = 1;

    word[6 - 1] = FOGZURT_ERASURE;
    print_symbols("received          ", word, WORD);
    print_decoded(word);

    word[17 - 1] = FOGZURT_ERASURE;
    print_symbols("received          ", word, WORD);
    print_decoded(word);

    expect_ok("fogzurt_sheet_format", fogzurt_sheet_format(sheet, sizeof sheet));
    expect_ok("fogzurt_sheet_enqueue",
              fogzurt_sheet_enqueue(sheet, sizeof sheet, BOX, PROFILE, word, WORD));
    expect_ok("fogzurt_sheet_peek",
              fogzurt_sheet_peek(sheet, sizeof sheet, 1, record, sizeof record));
    print_record("on the sheet:    ", record);
    expect_ok("fogzurt_sheet_dequeue",
              fogzurt_sheet_dequeue(sheet, sizeof sheet, record, sizeof record));
    print_record("taken off:       ", record);

    uint64_t answer = fogzurt_sheet_peek(sheet, sizeof sheet, 1, record, sizeof record);
    printf("a second look is refused with number %u: the sheet is empty\n", FOGZURT_NUMBER(answer));
    if (FOGZURT_NUMBER(answer) != FOGZURT_ERR_NO_RECORD) {
        return EXIT_FAILURE;
    }

    /* The same messages, for a box of the 2018 edition. Only the caller knows that it is one. */
    printf("edition 2018\n");
    print_sent(FOGZURT_EDITION_2018, opening, seal, word);
    print_decoded_as(FOGZURT_EDITION_2018, word);
    printf("the same word as one of edition 2013\n");
    print_decoded(word);

    /* The box changes docks: its word for the 2013 edition, and that one's for the 2018 edition again. */
    print_converted("for edition 2013  ", FOGZURT_EDITION_2018, word, converted);
    print_converted("for edition 2018  ", FOGZURT_EDITION_2013, converted, back);

    /* A word that could be read by correcting a symbol is not passed on: read the box again. */
    word[6 - 1] = 0;
    print_symbols("received          ", word, WORD);
    answer = fogzurt_convert(FOGZURT_EDITION_2018, PROFILE, word, WORD, converted, WORD);
    printf("  not converted: number %u\n", FOGZURT_NUMBER(answer));
    if (FOGZURT_NUMBER(answer) != FOGZURT_ERR_NOT_CLEAN) {
        return EXIT_FAILURE;
    }

    /* By line rule 2 the word swings less. It is read as the same messages, and no rule is told. */
    const uint8_t later[MESSAGE] = {2, 0, 0, 0, 0}, other[MESSAGE] = {0, 0, 0, 0, 1};
    printf("line rule 1, then line rule 2\n");
    print_sent(FOGZURT_EDITION_2013, later, other, word);
    print_peak(word);
    print_sent_by(FOGZURT_EDITION_2013, FOGZURT_RULE_2, later, other, word);
    print_peak(word);
    print_decoded(word);
    return EXIT_SUCCESS;
}
