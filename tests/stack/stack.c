/* Measures how deep the stack grows under each entry point: the call runs on a stack that was filled
 * with a pattern, and what is no longer the pattern afterwards was used. -z now has the C library found
 * before: at its first call its search would count as 3 KB of encode's.
 *
 * At the top of the repository, after tools/staticlib:
 *   cc -std=c11 -O2 -Wl,-z,now -Iinclude tests/stack/stack.c target/staticlib/libfogzurt.a -o target/stack
 *   target/stack
 */
#include <stdio.h>
#include <stdlib.h>
#include <string.h>
#include <ucontext.h>

#include "fogzurt.h"

enum { STACK = 1 << 16, PATTERN = 0xa5, RECORDS = 255 };

static uint8_t word[FOGZURT_LONGEST_WORD], converted[FOGZURT_LONGEST_WORD];
static uint8_t first[FOGZURT_LONGEST_MESSAGE], second[FOGZURT_LONGEST_MESSAGE];
static uint8_t sheet[FOGZURT_SHEET_BYTES(RECORDS)], record[FOGZURT_CELL];

/* Every call of encode, of either decoder and of convert is measured in both editions. */
static uint64_t edition;

static void encode_by(uint64_t rule) {
    fogzurt_encode(edition, 4, rule, first, sizeof first, second, sizeof second, word, sizeof word);
}

static void encode_by_rule_1(void) { encode_by(1); }

static void encode_by_rule_2(void) { encode_by(2); }

static void decode(void) {
    fogzurt_decode(edition, 4, word, sizeof word, first, sizeof first, second, sizeof second);
}

static void decode_corrected(void) {
    word[50] = word[50] == 0 ? 1 : 0;
    decode();
}

static void decode_filled(void) {
    word[50] = word[51] = FOGZURT_ERASURE;
    decode();
}

/* Decodes by syndromes the word that was decoded last. */
static void syndrome_decode(void) {
    fogzurt_syndrome_decode(edition, 4, word, sizeof word, first, sizeof first, second, sizeof second);
}

/* Converts the word that was decoded last: clean, or as the damage left it, which is refused. */
static void convert(void) {
    fogzurt_convert(edition, 4, word, sizeof word, converted, sizeof converted);
}

static void format(void) { fogzurt_sheet_format(sheet, sizeof sheet); }

static void enqueue(void) {
    fogzurt_sheet_enqueue(sheet, sizeof sheet, 40, 4, word, sizeof word);
}

static void peek(void) { fogzurt_sheet_peek(sheet, sizeof sheet, 1, record, sizeof record); }

static void dequeue(void) { fogzurt_sheet_dequeue(sheet, sizeof sheet, record, sizeof record); }

static uint8_t stack[STACK];
static ucontext_t here, there;

/* The bytes of the stack that the call used, with the return from it. */
static size_t used(void (*call)(void)) {
    memset(stack, PATTERN, sizeof stack);
    if (getcontext(&there) != 0) {
        exit(EXIT_FAILURE);
    }
    there.uc_stack.ss_sp = stack;
    there.uc_stack.ss_size = sizeof stack;
    there.uc_link = &here;
    makecontext(&there, call, 0);
    if (swapcontext(&here, &there) != 0) {
        exit(EXIT_FAILURE);
    }
    size_t untouched = 0;
    while (untouched < sizeof stack && stack[untouched] == PATTERN) {
        untouched++;
    }
    return sizeof stack - untouched;
}

static void print_used(const char *name, void (*call)(void)) {
    printf("%-34s %6zu bytes of stack\n", name, used(call));
}

int main(void) {
    const uint64_t editions[] = {FOGZURT_EDITION_2013, FOGZURT_EDITION_2018};
    for (size_t i = 0; i < sizeof editions / sizeof editions[0]; i++) {
        edition = editions[i];
        printf("edition %u\n", (unsigned)edition);
        print_used("fogzurt_encode, rule 2", encode_by_rule_2);
        print_used("fogzurt_encode, rule 1", encode_by_rule_1);
        print_used("fogzurt_decode, clean", decode);
        print_used("fogzurt_syndrome_decode, clean", syndrome_decode);
        print_used("fogzurt_convert, clean", convert);
        print_used("fogzurt_decode, corrected", decode_corrected);
        print_used("fogzurt_syndrome_decode, corrected", syndrome_decode);
        print_used("fogzurt_convert, corrected", convert);
        print_used("fogzurt_decode, filled", decode_filled);
        print_used("fogzurt_syndrome_decode, filled", syndrome_decode);
        print_used("fogzurt_convert, filled", convert);
    }
    printf("sheets\n");
    print_used("fogzurt_sheet_format", format);
    print_used("fogzurt_sheet_enqueue", enqueue);
    print_used("fogzurt_sheet_peek", peek);
    print_used("fogzurt_sheet_dequeue", dequeue);
    return EXIT_SUCCESS;
}
