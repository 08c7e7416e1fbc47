/* Fogzurt: the C entry points of the dock's coder.
 *
 * A codeword (the request's "lawful word") carries two messages (its "user words") in symbols of q
 * levels, one symbol a byte, 0 to q - 1. Where at most one symbol of a codeword is wrong, it is
 * corrected and never taken for other messages. Where more are wrong, the word may be refused or be
 * read as other messages. A symbol of a received word that fell between two levels is an erasure,
 * 255 (the request's "mark"). Where one or two symbols of a codeword are erased and all others are
 * right, the erased ones are filled, and the word is never taken for other messages; in a word with
 * erasures no other symbol is corrected. A sheet keeps received words in a buffer that the caller
 * lends, first in first out.
 *
 * Boxes have an edition, 13 or 18, and the same messages have as a rule another word in each. The edition
 * is a property of the box, and a word on the line does not tell it: see FOGZURT_EDITION_2013. Where a box
 * changes docks, fogzurt_convert makes the word of the other edition.
 *
 *   profile    levels q    message    word
 *      1          3            5       19      lengths in symbols, that is in bytes
 *      2          3           22       55
 *      3          5           21       51
 *      4          7           45       99
 *
 * Link target/staticlib/libfogzurt.a, which tools/staticlib writes. The functions allocate
 * nothing and keep nothing between calls, so calls with buffers of their own may run at the same
 * time.
 *
 * ONE RULE FOR ALL EIGHT FUNCTIONS. The lowest byte of an answer is the number: FOGZURT_NUMBER is 0
 * where the call was done, and else one of FOGZURT_ERR_.. below. Every argument may have any value,
 * and what is wrong with it is answered by its number. A refused call writes no buffer. An accepted
 * call writes only what its comment says. Where several things are wrong, the number is the one that
 * stands first in the order given with the function. Edition, profile, rule, box and record numbers are 64
 * bits wide, so that 257 is refused and not taken for 1.
 *
 * WHAT NO FUNCTION CAN CHECK, and the caller must see to, or anything may happen:
 *   - no pointer is null, also where its length is 0;
 *   - behind each pointer there are as many bytes as the length after it says;
 *   - a buffer that is not const overlaps no other buffer of the same call;
 *   - while a call runs, nobody else writes its buffers, and nobody else reads those that are not
 *     const.
 */
#ifndef FOGZURT_H
#define FOGZURT_H

#include <stddef.h>
#include <stdint.h>

#ifdef __cplusplus
extern "C" {
#endif

/* Major, minor: a major step breaks a caller. 4.1 added fogzurt_syndrome_decode, and no more: a caller of 4.0
 * stays as it is. 4.0 put the line rule after the profile in fogzurt_encode: every call of it has to be
 * changed, by FOGZURT_RULE_1 as a third argument, and then answers as before; a caller without a declaration
 * would hand over a pointer for it. 3.1 added fogzurt_convert and FOGZURT_ERR_NOT_CLEAN, which no other
 * function answers, and no more: a caller of 3.0 stays as it is. 3.0 put the edition before the profile in
 * fogzurt_encode and fogzurt_decode: every call of the two has to be changed, by FOGZURT_EDITION_2013 as a
 * first argument, and then answers as before. 2.1 added FOGZURT_ERROR and 2.2 FOGZURT_TRIED, and no more:
 * each macro masks its own byte of an answer, so a caller of 2.0 that asks by the macros stays as it is.
 * Since 2.2 an answer of fogzurt_decode with the number 4 may have more than its lowest byte. A caller that
 * compares the whole answer with 4, and not FOGZURT_NUMBER of it, as the rule above has always said, has to
 * be changed. */
#define FOGZURT_VERSION_MAJOR 4
#define FOGZURT_VERSION_MINOR 1

/* The number in an answer: 0, or why the call was refused. Compare this, and never a whole answer. */
#define FOGZURT_NUMBER(answer) ((unsigned)((uint64_t)(answer) & 0xff))

/* The numbers. 9, the form of a line, is the program boxlines' alone. */
enum {
    FOGZURT_OK = 0,
    FOGZURT_ERR_PROFILE = 1,       /* the profile is not 1 to 4 */
    FOGZURT_ERR_LENGTH = 2,        /* a message, a word or an output has another length than it must */
    FOGZURT_ERR_SYMBOL = 3,        /* a symbol is not below q, nor an erasure in a received word */
    FOGZURT_ERR_UNREADABLE = 4,    /* no codeword differs from the word in at most one position or,
                                      where symbols are erased, agrees with it at all others */
    FOGZURT_ERR_SHEET_LENGTH = 5,  /* the sheet's length is not 104 times a number from 2 to 256 */
    FOGZURT_ERR_SHEET_UNSOUND = 6, /* the sheet's bytes are not those of a sheet */
    FOGZURT_ERR_BOX_NUMBER = 7,    /* the box number is not 1 to 40 */
    FOGZURT_ERR_SHEET_FULL = 8,    /* the sheet has no free cell */
    FOGZURT_ERR_NO_RECORD = 10,    /* the sheet has no record of that number */
    FOGZURT_ERR_ERASURES = 11,     /* more than two symbols are erased */
    FOGZURT_ERR_EDITION = 12,      /* the edition is neither 13 nor 18 */
    FOGZURT_ERR_NOT_CLEAN = 13,    /* the word is read, but as corrected or filled */
    FOGZURT_ERR_RULE = 14          /* the line rule is neither 1 nor 2 */
};

/* The editions of boxes. Both have the profiles, the lengths and the two check symbols above; how messages
 * become a word is different. Which edition a box has the caller must know: no word tells it. A word of one
 * edition that is decoded as one of the other is refused with 4 or, without any sign of it, read as other
 * messages, save for a word of two messages of zeros, which is refused or read as them. With random messages
 * it is read in about 7, 2, 1 and 0.4 of a hundred words of 18 decoded as 13, for profiles 1 to 4, and in
 * about 40, 21, 5 and 2 of a hundred words of 13 decoded as 18, where FOGZURT_RULE_1 made them; where
 * FOGZURT_RULE_2 did, in about 9, 2, 2 and 0.9, and in about 21, 8, 5 and 3. */
#define FOGZURT_EDITION_2013 13
#define FOGZURT_EDITION_2018 18

/* The line rules. The same messages have several codewords, and the rule says which of them fogzurt_encode
 * makes: by rule 1 the one of the first choice that balances it, which is what boxes already sold are given;
 * by rule 2 one whose running digital sum on the line stays closest to 0. That sum (the request's "swing") is,
 * after each symbol, twice the sum of the symbols so far less q - 1 for each of them; its largest size over a
 * whole word, check symbols included, is the word's peak, and rule 2 makes a word with the least peak. Both
 * are codewords of the same messages: fogzurt_decode reads either, is told no rule, and does not say by which
 * a word was made; where both rules make the same word for two messages, it cannot be told. */
#define FOGZURT_RULE_1 1
#define FOGZURT_RULE_2 2

/* The bytes of a profile's message and of its word; 0 where there is no such profile. */
#define FOGZURT_MESSAGE_BYTES(profile) \
    ((profile) == 1 ? 5 : (profile) == 2 ? 22 : (profile) == 3 ? 21 : (profile) == 4 ? 45 : 0)
#define FOGZURT_WORD_BYTES(profile) \
    ((profile) == 1 ? 19 : (profile) == 2 ? 55 : (profile) == 3 ? 51 : (profile) == 4 ? 99 : 0)

/* Those of the longest, profile 4's. */
#define FOGZURT_LONGEST_MESSAGE 45
#define FOGZURT_LONGEST_WORD 99

/* What a received word holds in place of a symbol that fell between two levels. */
#define FOGZURT_ERASURE 255

/* Encodes two messages into their word (the request's "write").
 *   edition              FOGZURT_EDITION_2013 or FOGZURT_EDITION_2018
 *   profile              1 to 4
 *   rule                 FOGZURT_RULE_1 or FOGZURT_RULE_2
 *   first, second        the messages
 *   out                  where the word goes; its length is the word's
 * Answers 0, and out then holds the word. Refusals, in this order:
 *   12 edition; 1 profile; 14 line rule; 2 a message or out has not its length; 3 a symbol of a message is
 *   not below q, as FOGZURT_ERASURE is not.
 */
uint64_t fogzurt_encode(uint64_t edition, uint64_t profile, uint64_t rule, const uint8_t *first,
                        size_t first_len, const uint8_t *second, size_t second_len, uint8_t *out,
                        size_t out_len);

/* Decodes a received word (the request's "read").
 *   edition              the box's: FOGZURT_EDITION_2013 or FOGZURT_EDITION_2018
 *   profile              1 to 4
 *   word                 the word as received, with FOGZURT_ERASURE for each erased symbol
 *   first, second        where the messages go; their lengths are the messages'
 * FOGZURT_NUMBER of the answer is 0 where the word was read, and first and second then hold the
 * messages. Refusals, in this order:
 *   12 edition; 1 profile; 2 the word, first or second has not its length; 3 a symbol is neither below q
 *   nor an erasure; 11 more than two symbols are erased; 4 no codeword of that edition differs from the
 *   word in at most one position or, where symbols are erased, agrees with it at all others.
 */
uint64_t fogzurt_decode(uint64_t edition, uint64_t profile, const uint8_t *word, size_t word_len,
                        uint8_t *first, size_t first_len, uint8_t *second, size_t second_len);

/* Decodes a received word as fogzurt_decode does, but tries no positions: it works out from sums over the
 * whole word where the wrong symbol is (the request's "reader that doesn't try places"). The arguments, the
 * messages, the refusals and their order are those of fogzurt_decode, and so is every byte of the answer but
 * that of FOGZURT_TRIED, which is always 0, with FOGZURT_ERR_UNREADABLE too. Where the count is not wanted,
 * either will do. This one takes nearly the same time wherever in the word the wrong symbol is. */
uint64_t fogzurt_syndrome_decode(uint64_t edition, uint64_t profile, const uint8_t *word,
                                 size_t word_len, uint8_t *first, size_t first_len, uint8_t *second,
                                 size_t second_len);

/* The parts of both decoders' answer, a byte each, above the number. Where the call was refused they are
 * 0, but for FOGZURT_TRIED with FOGZURT_ERR_UNREADABLE, of fogzurt_decode. */

/* What the word turned out to be. */
#define FOGZURT_KIND(answer) ((unsigned)((uint64_t)(answer) >> 8 & 0xff))
enum {
    FOGZURT_KIND_NONE = 0,      /* it was refused */
    FOGZURT_KIND_CLEAN = 1,     /* it is a codeword */
    FOGZURT_KIND_CORRECTED = 2, /* it differs from a codeword in one position (the request's "mended") */
    FOGZURT_KIND_FILLED = 3     /* its erased symbols were filled, one or two (the request's "F") */
};

/* The position that was corrected or filled, counted from 1, and the symbol sent there; 0 where none
 * was. Where two were filled, this is the lower one. */
#define FOGZURT_POSITION(answer) ((unsigned)((uint64_t)(answer) >> 16 & 0xff))
#define FOGZURT_SENT_SYMBOL(answer) ((unsigned)((uint64_t)(answer) >> 24 & 0xff))

/* The second position that was filled, and the symbol sent there; 0 where no second one was. */
#define FOGZURT_SECOND_POSITION(answer) ((unsigned)((uint64_t)(answer) >> 32 & 0xff))
#define FOGZURT_SECOND_SENT_SYMBOL(answer) ((unsigned)((uint64_t)(answer) >> 40 & 0xff))

/* The error of a word that was corrected: the symbol received minus the symbol sent (the request's
 * "fault"), from -(q - 1) to q - 1 and not 0, at a check symbol (one of the last two) as well. While no
 * other symbol is wrong, it is above 0 where the symbol arrived too high, and below 0 where it arrived
 * too low. 0 where the word is clean, filled or refused. A signed int; the numbers of refusals are
 * FOGZURT_NUMBER's. */
#define FOGZURT_ERROR(answer) ((int)(((uint64_t)(answer) >> 48 & 0xff) ^ 0x80) - 0x80)

/* How many positions were tried for the symbol that is wrong (the request's "tried places"): positions of
 * one half, the odd ones or the even ones, of the word without its two check symbols. Where the symbols of
 * that part add up to too much or too little, and exactly one of the two check symbols disagrees with its
 * half, the positions of that half are counted in rising order: up to and including the one that was corrected or,
 * with FOGZURT_ERR_UNREADABLE, all of them. At most 9, 27, 25 or 49, for profiles 1 to 4. It tells of
 * the word, and not how long the call took. 0 where the word is clean or filled, where a check symbol was
 * corrected, for other unreadable words, those with erasures among them, and for every other refusal; and
 * always 0 in an answer of fogzurt_syndrome_decode, which counts none. */
#define FOGZURT_TRIED(answer) ((unsigned)((uint64_t)(answer) >> 56 & 0xff))

/* Converts a word of one edition into the word that fogzurt_encode makes for the same messages in the other
 * by FOGZURT_RULE_1 (the request's "converter"), whatever rule the word that comes in was made by.
 *   edition              that of the word that comes in: FOGZURT_EDITION_2013 or FOGZURT_EDITION_2018
 *   profile              1 to 4
 *   word                 the word as received, with FOGZURT_ERASURE for each erased symbol
 *   out                  where the other edition's word goes; its length is the word's, and it overlaps
 *                        word nowhere
 * Answers 0, and out then holds the other edition's word. Refusals, in this order:
 *   12 edition; 1 profile; 2 the word or out has not its length; 3 a symbol is neither below q nor an
 *   erasure; 11 more than two symbols are erased; 4 no codeword of that edition differs from the word in
 *   at most one position or, where symbols are erased, agrees with it at all others; 13 one does, but not
 *   the word itself: fogzurt_decode reads it as corrected or filled.
 * The answer is the number alone: with 4 there is no count of positions tried.
 *
 * A word is passed on only where it is a codeword as it arrived. Where it is refused with 4, 11 or 13, read
 * the box again, and convert what then arrives. Do not encode the messages that fogzurt_decode gives for such
 * a word: what they became could no longer be told from the word of a clean one.
 *
 * There and back gives the word that fogzurt_encode makes for the messages by FOGZURT_RULE_1. Where the first
 * word was made by FOGZURT_RULE_2, or by another firm's encoder, the two may differ: the same messages may
 * have several codewords.
 *
 * The edition must be right, and is not checked: no word tells it. A codeword of the other edition, such as
 * one that was converted before, is refused with 4 or, without any sign of it, converted as one of other
 * messages (of the same where both are zeros), as often as it is read as them: see FOGZURT_EDITION_2013.
 * With one symbol arrived as another level, or with erasures, it is refused, with 4, 11 or 13.
 */
uint64_t fogzurt_convert(uint64_t edition, uint64_t profile, const uint8_t *word, size_t word_len,
                         uint8_t *out, size_t out_len);

/* The bytes of a cell, and of a record that is copied out: byte 0 is 0, then come the box number,
 * the profile and the word's symbols, any of which may be FOGZURT_ERASURE, and then zeros. */
#define FOGZURT_CELL 104
#define FOGZURT_RECORD_BOX 1
#define FOGZURT_RECORD_PROFILE 2
#define FOGZURT_RECORD_WORD 3

/* The bytes of a sheet for so many records, 1 to 255. */
#define FOGZURT_SHEET_BYTES(records) (((size_t)(records) + 1) * FOGZURT_CELL)

/* Makes an empty sheet (the request's "lay out"), whatever the bytes held.
 *   sheet                a buffer of FOGZURT_SHEET_BYTES(records), all of which is written
 * Answers 0. Refusal: 5 the sheet's length.
 */
uint64_t fogzurt_sheet_format(uint8_t *sheet, size_t sheet_len);

/* Adds a word as the last record (the request's "enter"). It is kept as received, readable or not,
 * with any number of erasures. Sheets are meant for boxes of edition 13: a word of edition 18 is not
 * refused, and no record says its edition.
 *   sheet                a sheet that fogzurt_sheet_format made; at most three of its cells are
 *                        written
 *   box_number           1 to 40, with any profile
 *   profile, word        the word and its profile
 * Answers 0. Refusals, in this order:
 *   5 the sheet's length; 6 the sheet is unsound; 7 box number; 1 profile; 2 the word has not its
 *   length; 3 a symbol is neither below q nor an erasure; 8 the sheet is full.
 */
uint64_t fogzurt_sheet_enqueue(uint8_t *sheet, size_t sheet_len, uint64_t box_number,
                               uint64_t profile, const uint8_t *word, size_t word_len);

/* Copies a record out and leaves it on the sheet (the request's "look").
 *   sheet                the sheet, which is only read
 *   record               1 for the first, which is the oldest
 *   out                  FOGZURT_CELL bytes, where the record goes
 * Answers 0. Refusals, in this order:
 *   5 the sheet's length; 6 the sheet is unsound; 2 out is not 104 bytes; 10 no such record.
 */
uint64_t fogzurt_sheet_peek(const uint8_t *sheet, size_t sheet_len, uint64_t record, uint8_t *out,
                            size_t out_len);

/* Copies the first record out and takes it off the sheet (the request's "take off").
 *   sheet                the sheet; cell 0 and the record's cell are written
 *   out                  FOGZURT_CELL bytes, where the record goes
 * Answers 0. Refusals, in this order:
 *   5 the sheet's length; 6 the sheet is unsound; 2 out is not 104 bytes; 10 the sheet is empty.
 */
uint64_t fogzurt_sheet_dequeue(uint8_t *sheet, size_t sheet_len, uint8_t *out, size_t out_len);

#ifdef __cplusplus
}
#endif

#endif
