/* Nikorepum: checks JVM bytecode, descriptors and names before they are loaded.
 *
 * Every function takes any bytes, always returns, allocates nothing and keeps nothing between calls, so that calls on
 * several threads do not meet. What each one answers is proved, for every input: ../../docs/PROMISES.md.
 * "Document 01" is the order's page on what is checked; the JVM Specification (JVMS) is that of Java SE 21.
 *
 * Slices
 *   A slice is two arguments, a pointer and a count of elements (not of bytes), as `code` and `code_count`. The pointer
 *   is aligned for its elements. With a count of 0 it may be any pointer, NULL too: nothing is read or written there.
 *   What a function may change (its stores and its output) must overlap nothing else that the call is given, and no
 *   other thread may use it meanwhile. Slices that are only read may overlap one another.
 *
 * Answers
 *   Number 0 is acceptance. Any other number is a refusal, one of `enum nk_number`; its `place` is the offset of the
 *   first byte of what is refused, and every field that a refusal does not name is 0.
 *
 * Link with libstation.a, on Linux on x86-64:  cc program.c -I hosts/c target/staticlib/libstation.a
 */
#ifndef NIKOREPUM_H
#define NIKOREPUM_H

#include <stdbool.h>
#include <stddef.h>
#include <stdint.h>

#ifdef __cplusplus
extern "C" {
#endif

/* The words of an instruction's record, of a switch entry and of a part. A store holds as many as fit whole. */
#define NK_RECORD_WORDS 6
#define NK_ENTRY_WORDS 2
#define NK_PART_WORDS 4

/* The most bytes of a code, of a pool table and of a text, and the most dimensions of an array. */
#define NK_CODE_LIMIT 65535
#define NK_POOL_LIMIT 4096
#define NK_TEXT_LIMIT 65535
#define NK_MAX_DIMENSIONS 255

/* Words that are enough for any code, or any method descriptor, of so many bytes: an instruction has a byte at least, a
 * switch entry four, a parameter one. */
#define NK_RECORD_WORDS_FOR(code_bytes) ((size_t)NK_RECORD_WORDS * (code_bytes))
#define NK_ENTRY_WORDS_FOR(code_bytes) ((size_t)NK_ENTRY_WORDS * ((code_bytes) / 4))
#define NK_PARAMETER_WORDS_FOR(text_bytes) ((size_t)NK_PART_WORDS * (text_bytes))

/* The numbers of an answer, as document 01 has them; after each the place of that refusal. */
enum nk_number {
    NK_ACCEPTED = 0,

    /* Code: nk_decode. First 1, then 2, then the instructions in order, then all jumps in order. Within an instruction
     * the bytes in order, an index's range and kind straight after the index, then 14, then 15. */
    NK_CODE_TOO_LONG = 1,      /* over NK_CODE_LIMIT bytes: 0 */
    NK_POOL_TOO_LONG = 2,      /* over NK_POOL_LIMIT bytes: 0 */
    NK_PAST_END = 3,           /* a read runs past the end: where that read starts, which may lie past the end */
    NK_NO_INSTRUCTION = 4,     /* the byte is no instruction: that byte */
    NK_NOT_AFTER_WIDE = 5,     /* wide does not go before this byte: that byte */
    NK_NO_POOL_ENTRY = 6,      /* a pool index that is 0 or not in the table: its bytes */
    NK_WRONG_KIND = 7,         /* the pool entry is not of a kind that the instruction takes: the index's bytes */
    NK_NOT_ZERO = 8,           /* last bytes of invokeinterface or invokedynamic that must be zero: the first of them */
    NK_NO_ARRAY_TAG = 9,       /* newarray with a tag that is not 4 to 11: the tag */
    NK_BAD_BOUNDS = 10,        /* tableswitch with low > high or more than 2,147,483,647 entries: the high word */
    NK_NEGATIVE_COUNT = 11,    /* lookupswitch with a negative number of pairs: that number */
    NK_TARGET_BELOW_ZERO = 12, /* a jump's target lies below 0: the instruction */
    NK_NO_TARGET = 13,         /* no instruction starts at a jump's target: the instruction */
    NK_NO_ENTRY_LEFT = 14,     /* the store has too few entries left for this switch: the instruction */
    NK_NO_RECORD_LEFT = 15,    /* the store has no record left: the instruction */

    /* Texts. First 21, of an identifier 32; then the leftmost byte decides; 30 after its parameter is read; last 31. */
    NK_TEXT_TOO_LONG = 21,     /* over NK_TEXT_LIMIT bytes, given or to be printed: 0 */
    NK_TYPE_DUE = 22,          /* the text ends where a type is due: the text's length */
    NK_NO_SUCH_TYPE = 23,      /* no type has this letter here: that byte */
    NK_DIMENSION_256 = 24,     /* one '[' more than NK_MAX_DIMENSIONS: that byte */
    NK_EMPTY_SEGMENT = 25,     /* '/' or ';' opens a segment of a class name: that byte */
    NK_BARRED_BYTE = 26,       /* one of . [ < > in a class name: that byte */
    NK_NAME_NOT_ENDED = 27,    /* the text ends before the ';' of a class name: the text's length */
    NK_LONE_SEMICOLON = 28,    /* ';' in a class name alone, not at a segment's start: that byte */
    NK_NO_PARENTHESIS = 29,    /* a method descriptor does not start with '(': 0 */
    NK_NO_PARAMETER_LEFT = 30, /* the store has no part left for a parameter: the parameter's start */
    NK_LEFT_OVER = 31,         /* bytes after the descriptor: the first of them */
    NK_NAME_NOT_VALID = 32,    /* a method's name that is none: 0 */
    NK_OUTPUT_TOO_SHORT = 33,  /* the output has too few bytes: 0 */
    NK_BROKEN_PARTS = 34,      /* parts that no descriptor has, see nk_print_field: 0 */

    NK_NOT_SORTED = 35         /* nk_lookup: records missing, or offsets that do not strictly increase: 0 */
};

/* The answer of most functions. `first` and `next` are what an accepting function names them for, else 0. `second` is
 * 0 but for 12 and 13, where it tells the jump: 0 a plain jump or a switch's default, i + 1 entry i of the switch. */
typedef struct nk_answer {
    uint32_t number;
    uint32_t second;
    uint64_t place;
    uint64_t first;
    uint64_t next;
} nk_answer;

/* The parts of a descriptor, for a method those of its return.
 *   dimensions     of an array, else 0
 *   letter         a byte of "BCDFIJSZ", 'L' for a class, 'V' for a return that is void
 *   start, length  where in the text the class name stands (without L and ;), 0 and 0 without one
 *   parameters     of a method, how many; else 0
 *   used           bytes of the text that the descriptor has */
typedef struct nk_parts {
    uint32_t number;
    uint32_t dimensions;
    uint32_t letter;
    uint32_t start;
    uint32_t length;
    uint32_t parameters;
    uint64_t place;
    uint64_t used;
} nk_parts;

/* ---- Code ---- */

/* Decodes a whole code and checks its jumps. The first bytes of instructions are 00 to ca, fe and ff (hex).
 *
 * `pool` has a byte for each entry of the constant pool, its tag (JVMS 4.4), 0 for an unused slot; index 0 is never an
 * entry. An instruction takes entries of these tags, and any other gets 7:
 *     ldc, ldc_w, ldc2_w                                       3 to 8, 15, 16, 17
 *     getstatic, putstatic, getfield, putfield                 9
 *     invokevirtual                                            10
 *     invokespecial, invokestatic                              10, 11
 *     invokeinterface                                          11
 *     invokedynamic                                            18
 *     new, anewarray, checkcast, instanceof, multianewarray    7
 *
 * On acceptance `first` is the number of instructions, `next` that of switch entries. Each instruction has a record, in
 * the order of the code, six words: offset, kind, a, b, c, d.
 *
 *   The kind is the opcode byte. Short and wide forms have the kind of their plain one: iload_0 to aload_3 and istore_0
 *   to astore_3 that of iload to aload and istore to astore, goto_w that of goto, jsr_w that of jsr, and what follows
 *   wide its own. Signed words are two's complement: cast them to int32_t. Words not named are 0.
 *     bipush, sipush                   a value, signed
 *     loads, stores, ret               a local
 *     iinc                             a local, b increment, signed
 *     jumps                            a jump, signed, from the instruction's own offset
 *     instructions with a pool index   a index; invokeinterface: b count; multianewarray: b dimensions
 *     newarray                         a tag
 *     tableswitch                      a default jump, b low, c high, all signed, d index of its first entry;
 *                                      it has high - low + 1 entries
 *     lookupswitch                     a default jump, signed, b number of entries, d index of its first entry
 *   A switch entry is two words, key and jump, both signed.
 *
 * Words past the used ones stay as they were. A refusal sets every word of both stores to 0. */
nk_answer nk_decode(const uint8_t *code, size_t code_count,
                    const uint8_t *pool, size_t pool_count,
                    uint32_t *records, size_t records_count,
                    uint32_t *entries, size_t entries_count);

/* Looks an offset up among the first `count` records of a store, which is only read. Accepted, `next` is 1 where one
 * has the offset and `first` its index; else both are 0. The one refusal is 35. Each counted record is looked at. */
nk_answer nk_lookup(const uint32_t *records, size_t records_count, uint64_t count, uint64_t offset);

/* ---- Texts ----
 * Bytes as a class file has them. A byte of 128 or more is an ordinary byte of a name. */

/* Whether the text is a class name: segments joined by '/', each non-empty but for the last, without . ; [ < >.
 * Refusals: 21, 25, 26, 28. */
nk_answer nk_class_name(const uint8_t *text, size_t text_count);

/* Field descriptors (JVMS 4.3.2). `prefix` reads the one that the text begins with and ignores what follows; `whole`
 * reads the whole text. Refusals: 21 to 27, whole also 31. */
nk_parts nk_field_prefix(const uint8_t *text, size_t text_count);
nk_parts nk_field_whole(const uint8_t *text, size_t text_count);

/* Return descriptors (JVMS 4.3.3): V if it is the entire rest of the text, or a field descriptor. Refusals as above. */
nk_parts nk_return_prefix(const uint8_t *text, size_t text_count);
nk_parts nk_return_whole(const uint8_t *text, size_t text_count);

/* The whole text as a field descriptor that is an array. A text that is empty or does not start with '[' is not an
 * array: that is accepted with letter 0. Refusals as for nk_field_whole. */
nk_parts nk_array(const uint8_t *text, size_t text_count);

/* Method descriptors (JVMS 4.3.3). The parts are those of the return. Each parameter has a part in the store, in order,
 * four words: dimensions, letter, start, length, as in nk_parts. Words past the used ones stay; a refusal sets every
 * word of the store to 0. Refusals: 21 to 27, 29, 30, whole also 31. JVMS's limit of 255 slots is not checked. */
nk_parts nk_method_prefix(const uint8_t *text, size_t text_count, uint32_t *parameters, size_t parameters_count);
nk_parts nk_method_whole(const uint8_t *text, size_t text_count, uint32_t *parameters, size_t parameters_count);

/* Writes the descriptor of these parts, whose class names stand in the text. On acceptance `first` is the length
 * written, and the bytes of the output past it stay; a refusal changes no byte. All places are 0.
 * Refusals, in this order: 21 for the text; 34; 21 for what is to be printed; 33. 34 is given for dimensions over
 * NK_MAX_DIMENSIONS, a letter that is none, a start or length other than 0 without a class, a name outside the text or
 * one that breaks the rule of a descriptor (segments joined by '/', none empty, without . ; [ < >), V as a field or a
 * parameter or with dimensions, and fewer parts in the store than `count`. */
nk_answer nk_print_field(const uint8_t *text, size_t text_count,
                         uint32_t dimensions, uint32_t letter, uint32_t name_start, uint32_t name_length,
                         uint8_t *out, size_t out_count);
nk_answer nk_print_return(const uint8_t *text, size_t text_count,
                          uint32_t dimensions, uint32_t letter, uint32_t name_start, uint32_t name_length,
                          uint8_t *out, size_t out_count);

/* The same for a method: the first `count` parts of the store are its parameters, the four words its return. */
nk_answer nk_print_method(const uint8_t *text, size_t text_count,
                          const uint32_t *parameters, size_t parameters_count, uint64_t count,
                          uint32_t dimensions, uint32_t letter, uint32_t name_start, uint32_t name_length,
                          uint8_t *out, size_t out_count);

/* Writes the method identifier: the bytes of the name, then those of the descriptor. On acceptance `first` is the
 * length written, and the bytes of the output past it stay; a refusal changes no byte. Refusals, in this order: 32
 * (<init> and <clinit> are good names), those of a whole method descriptor but for 30, with their places in the
 * descriptor, and 33. */
nk_answer nk_identifier(const uint8_t *name, size_t name_count,
                        const uint8_t *descriptor, size_t descriptor_count,
                        uint8_t *out, size_t out_count);

/* ---- Yes or no ----
 * Each says no to a text over NK_TEXT_LIMIT bytes. */

/* A name with a byte at least and none of . ; [ / (JVMS 4.2.2), and such names joined by '/' (JVMS 4.2.1). */
bool nk_is_unqualified_name(const uint8_t *text, size_t text_count);
bool nk_is_binary_name(const uint8_t *text, size_t text_count);

/* An unqualified name without < and >; or <init> where `init`, or <clinit> where `clinit` (JVMS 4.2.2). */
bool nk_is_method_name(const uint8_t *text, size_t text_count, bool init, bool clinit);

/* No byte of 0 to 31; '\' only in the pairs "\\", "\:", "\@", and ':' and '@' only there (JVMS 4.2.3). Empty is yes. */
bool nk_is_module_name(const uint8_t *text, size_t text_count);

/* Whether the whole text is such a descriptor. An array descriptor starts with '['. */
bool nk_is_field_descriptor(const uint8_t *text, size_t text_count);
bool nk_is_array_descriptor(const uint8_t *text, size_t text_count);
bool nk_is_return_descriptor(const uint8_t *text, size_t text_count);
bool nk_is_method_descriptor(const uint8_t *text, size_t text_count);

#ifdef __cplusplus
}
#endif

#endif
