/* A COFFEE RISC core that is run in steps: the C interface.
 *
 * Link with libcoffee.a, which `rt lib` in crates/coffee proves and writes to out/ there. Each function is proved equal to a definition:
 * crates/emulator/specs/Run.antt (run_call), crates/emulator/specs/Reset.antt (reset_call), crates/emulator/specs/CarryOver.antt (carry_over_call),
 * crates/listing/specs/Listing.antt (listing_call), crates/encoder/specs/Encode.antt (encode_of) and crates/reach/specs/Call.antt (reach_call).
 *
 * A slice is a pointer and then a count of elements; a slice of 0 elements may have a null pointer. A slice that is written (not const) must
 * overlap no other slice of the same call. Nothing is kept between calls, no memory is allocated, and nothing else is read or written, so
 * calls on different memories may run at the same time.
 *
 * A refusal changes no memory. docs/MANUAL.md has every rule: images in section 8, calls and refusals in 9, this interface in 14.
 */
#ifndef COFFEE_H
#define COFFEE_H

#include <stddef.h>
#include <stdint.h>

#ifdef __cplusplus
extern "C" {
#endif

/* The version of this header and of the library that goes with it. The first number is that of the shared library's name: it changes when a
 * program has to be compiled anew. */
#define COFFEE_VERSION "2.2.0"

/* Most bytes of program memory, and most cells of data memory. */
#define COFFEE_MEMORY_MAX 65536

/* Largest step limit of one call. */
#define COFFEE_STEPS_MAX 1000000

/* An image is 32-bit numbers, high byte first, in sections, each after its count: set 1 (32), set 2 (32), conditions (8), control block (45),
 * position (6: PC, slot flag, target, product flag, product high, low), stack (its count is entries, 0 to 12, of four numbers each, the top
 * one last), and the dividers of both timers (2).
 *
 * Bytes of an image with an empty stack, of each stack entry, and of the longest image: the least size of an image buffer. */
#define COFFEE_IMAGE_MIN 528
#define COFFEE_IMAGE_ENTRY 16
#define COFFEE_IMAGE_MAX 720

/* The number of stack entries, high byte first, is at this offset of an image: its length is COFFEE_IMAGE_MIN + COFFEE_IMAGE_ENTRY * entries. */
#define COFFEE_IMAGE_ENTRIES 512

/* The earlier layout, that of the versions before 2.0.0, has all sections but the last: bytes of such an image with an empty stack. Its length is
 * COFFEE_EARLIER_IMAGE_MIN + COFFEE_IMAGE_ENTRY * entries, which is no length of an image of the present layout. */
#define COFFEE_EARLIER_IMAGE_MIN 516

/* Bytes of a line of a listing: 47 characters and a newline. */
#define COFFEE_LINE 48

/* An answer of 64 bits that is a refusal is this and the refusal's number. */
#define COFFEE_REFUSED (UINT64_C(1) << 32)

/* What a run call answers. */
struct coffee_answer {
    uint32_t refusal; /* 0, or the number of the first question that is answered no; then steps and ending are 0 */
    uint32_t steps;   /* completed steps */
    uint32_t ending;  /* 0: the limit was reached; 11 to 15 or 20: the number of the stop */
};

/* Runs the machine that `image` says for at most `limit` steps.
 *
 * Each completed step is one clock of both timers, timer 0 first, after what the step stores; a stop is none. A tick that leaves a count equal
 * to its maximum requests INTN (source 4 + INTN) where GINT is 1, for the next step at the earliest, or with WDOG 1 resets the core instead; a
 * CONT 0 count that was there already does nothing. After a reset the machine is as coffee_reset writes it, the cells stay as they are, and the
 * steps go on.
 *
 * program   bytes, high byte of a word first
 * cells     data memory, one 32-bit cell for each address; changed by the steps
 * image     the machine, exactly as coffee_reset, coffee_carry_over or a coffee_run before this one wrote it, or as made by hand
 * requests  the interrupt requests of each step, bit n for source n; steps past the list have none
 * buffer    the new image is written to its front; its further bytes stay as they are
 *
 * Stops, which are no steps and change nothing:
 *   11  a byte of the instruction word, or of a nop that must follow it, is outside program memory
 *   12  a data address is neither in the control block nor a cell
 *   13  a control transfer in a branch slot
 *   14  mulhi without a product from the step just before
 *   15  reti with an empty stack
 *   20  another operation than nop where swm (two), scall, retu (one) or reti (three) wants nops
 *
 * Refusals, asked in this order:
 *   1  program longer than 65,536 bytes, or more than 65,536 cells
 *   2  image not exactly the sections and counts of an image; one of the earlier layout too, which coffee_carry_over takes
 *   3  a number in the image that its register cannot hold, PSR above 31, a flag other than 0 or 1, numbers other than 0 of a 0 flag, or a
 *      divider above 255
 *   4  a current or stacked PSR with UM 1 whose RSRD and RSWR are not both 0
 *   5  stack sources not below 12, not all different or not those of INT_SERV; or RETI_ registers that do not show the stack's top
 *   6  a request above FFFh
 *   7  limit above 1,000,000
 *   8  buffer shorter than 720 bytes
 */
struct coffee_answer coffee_run(
    const uint8_t *program, size_t program_bytes,
    uint32_t *cells, size_t cell_count,
    const uint8_t *image, size_t image_bytes,
    const uint32_t *requests, size_t request_count,
    uint32_t limit,
    uint8_t *buffer, size_t buffer_bytes);

/* Writes the image of the machine at reset, COFFEE_IMAGE_MIN bytes, to the front of `buffer`; its further bytes stay as they are.
 *
 * Answers 0, or the refusal:
 *   8  buffer shorter than 720 bytes
 */
uint32_t coffee_reset(uint8_t *buffer, size_t buffer_bytes);

/* Carries an image of the earlier layout over: the same machine, with both dividers 0, is written as an image to the front of `buffer`; its
 * further bytes stay as they are.
 *
 * image   as a version before 2.0.0 wrote it
 *
 * Answers 0, or the refusal, asked in this order:
 *   2  image not exactly the sections and counts of the earlier layout
 *   3  a number in the image that its register cannot hold, PSR above 31, a flag other than 0 or 1, or numbers other than 0 of a 0 flag
 *   4, 5  as coffee_run
 *   8  buffer shorter than 720 bytes
 */
uint32_t coffee_carry_over(const uint8_t *image, size_t image_bytes, uint8_t *buffer, size_t buffer_bytes);

/* Writes the listing of a program, a line of COFFEE_LINE bytes for each word, to the front of `text`; its further bytes stay as they are.
 *
 * program   bytes, high byte of a word first
 * wide      0: 16-bit words; any other number: 32-bit words
 * text      at least COFFEE_LINE bytes for each word; no 0 byte is added
 *
 * A line has five columns, a blank between them, each filled with blanks on its right, and a newline at its end:
 *   8 characters  the word's address, hexadecimal
 *   8             the word, hexadecimal: 8 digits or 4
 *   6             its condition and condition register, as `egt C7`; blank without a condition
 *   8             the operation's name, or `?` where it has no form in this width; then there are no operands
 *   13            its operands (docs/MANUAL.md, section 11.2), single blanks between them: R0 to R31, C0 to C7, decimal numbers, with a minus
 *                 where they are negative
 * 16-bit words have registers R24 to R31, no condition and no C0.
 *
 * Answers 0, or the refusal, asked in this order:
 *   1   program longer than 65,536 bytes
 *   16  program bytes that are no whole number of words
 *   17  text shorter than COFFEE_LINE bytes for each word
 */
uint32_t coffee_listing(const uint8_t *program, size_t program_bytes, uint32_t wide, uint8_t *text, size_t text_bytes);

/* Makes an instruction word from what a listing shows of it.
 *
 * operation    its number, 0 to 63
 * wide         0: 16-bit words; any other number: 32-bit words
 * conditional  0: without a condition, and creg and condition are ignored; any other number: with one
 * creg         the condition register of the condition, 0 to 7
 * condition    the number of the condition, 0 to 7: c, egt, elt, eq, gt, lt, ne, nc
 * a, b, c, d   the operands in the order in which a listing shows them, registers by their numbers (24 to 31 in 16-bit words); 0 for each
 *              that the operation does not have. cmp, cmpi and branches of 32-bit words have their condition register as the first
 *
 * Answers the word, whose unused bits are 0, or COFFEE_REFUSED + the refusal, asked in this order:
 *   18  the operation has no form in this width, or a condition is given and it has no conditional form there
 *   19  the condition register, the condition or an operand does not fit the bits that it has in the word, or an operand that the
 *       operation does not have is not 0
 */
uint64_t coffee_encode(
    uint32_t operation, uint32_t wide,
    uint32_t conditional, uint32_t creg, uint32_t condition,
    int32_t a, int32_t b, int32_t c, int32_t d);

/* Maps the words of a program that can be reached from a start address in one width: over the program's length, the map's byte at the address
 * of each such word becomes 1 and every other one 0; its further bytes stay as they are.
 *
 * program   bytes, high byte of a word first; bytes after the last whole word belong to none
 * wide      0: 16-bit words; any other number: 32-bit words
 * start     the address of the word to start from
 * map       at least as many bytes as the program has
 *
 * The word at `start` is reached. A word that is reached leads to the next one, unless it is jmp, jal, retu, reti, swm or trap, or jmpr, jalr or
 * scall without a condition. jmp, jal and branches lead to their target, the next word's address plus twice the immediate; jal, jalr and scall to
 * the word two on, and a swm that keeps the width to the word three on. A word is reached as a slot, too: the one after jmp, jal, jmpr, jalr, scall
 * and retu, the two after swm, the three after reti; a word reached only so leads nowhere. Only aligned words wholly in the program are reached.
 * What a register, a vector or the interrupt stack says is not followed.
 *
 * Takes up to 140 KB of stack.
 *
 * Answers 0, or the refusal, asked in this order:
 *   1   program longer than 65,536 bytes
 *   28  map shorter than the program
 *   27  start misaligned, or a byte of its word outside the program
 */
uint32_t coffee_reach(
    const uint8_t *program, size_t program_bytes,
    uint32_t wide, uint32_t start,
    uint8_t *map, size_t map_bytes);

#ifdef __cplusplus
}
#endif

#endif
