/* What the station asks of the library, once each. The output is example.out. */
#include "nikorepum.h"

#include <inttypes.h>
#include <stdio.h>
#include <string.h>

/* Stores that are enough for the small codes and texts below. */
enum { CODE_BYTES = 32, TEXT_BYTES = 64 };
static uint32_t records[NK_RECORD_WORDS_FOR(CODE_BYTES)];
static uint32_t entries[NK_ENTRY_WORDS_FOR(CODE_BYTES)];
static uint32_t parameters[NK_PARAMETER_WORDS_FOR(TEXT_BYTES)];
static uint8_t out[TEXT_BYTES];

/* The count of an array's elements, and a C string as the two arguments of a slice. */
#define COUNT(array) (sizeof(array) / sizeof((array)[0]))
#define TEXT(string) (const uint8_t *)(string), strlen(string)

static void print_refusal(uint32_t number, uint64_t place, uint32_t second)
{
    printf("refused %" PRIu32 " at %" PRIu64, number, place);
    if (number == NK_TARGET_BELOW_ZERO || number == NK_NO_TARGET)
        printf(", second %" PRIu32, second);
    printf("\n");
}

/* Records and entries are printed as document 01 writes them. */
static void print_records(uint64_t count)
{
    for (uint64_t i = 0; i < count; i++) {
        const uint32_t *r = records + NK_RECORD_WORDS * i;
        printf(" (%" PRIu32 ",%" PRIx32 "h,%" PRIu32 ",%" PRIu32 ",%" PRIu32 ",%" PRIu32 ")",
               r[0], r[1], r[2], r[3], r[4], r[5]);
    }
}

static void print_entries(uint64_t count)
{
    for (uint64_t i = 0; i < count; i++) {
        const uint32_t *e = entries + NK_ENTRY_WORDS * i;
        printf(" (%" PRIu32 ",%" PRIu32 ")", e[0], e[1]);
    }
}

/* Decodes a code that uses no pool entry, so that the pool table is empty. Returns the number of instructions. */
static uint64_t decode(const char *name, const uint8_t *code, size_t code_count)
{
    nk_answer answer = nk_decode(code, code_count, NULL, 0, records, COUNT(records), entries, COUNT(entries));
    printf("%s: ", name);
    if (answer.number != NK_ACCEPTED) {
        print_refusal(answer.number, answer.place, answer.second);
        return 0;
    }
    printf("accepted %" PRIu64 " %" PRIu64 ":", answer.first, answer.next);
    print_records(answer.first);
    printf("; entries");
    print_entries(answer.next);
    printf("\n");
    return answer.first;
}

static void look_up(uint64_t count, uint64_t offset)
{
    nk_answer answer = nk_lookup(records, COUNT(records), count, offset);
    printf("offset %" PRIu64 ": ", offset);
    if (answer.number != NK_ACCEPTED)
        print_refusal(answer.number, answer.place, answer.second);
    else if (answer.next == 1)
        printf("record %" PRIu64 "\n", answer.first);
    else
        printf("no record\n");
}

static void codes(void)
{
    const uint8_t four[] = {0x1a, 0x99, 0x00, 0x06, 0x84, 0x00, 0xff, 0xb1};
    uint8_t table[] = {0xaa, 0, 0, 0, 0, 0, 0, 24, 0, 0, 0, 0, 0, 0, 0, 1, 0, 0, 0, 24, 0, 0, 0, 24, 0xb1};
    const uint8_t to_the_end[] = {0xa7, 0x00, 0x03};

    uint64_t count = decode("four instructions", four, COUNT(four));
    look_up(count, 4);
    look_up(count, 5);
    decode("a tableswitch", table, COUNT(table));
    decode("a jump to the end", to_the_end, COUNT(to_the_end));
    table[23] = 23; /* the jump of entry 1, now to the last byte of the switch itself */
    decode("a switch into itself", table, COUNT(table));
}

/* What a function wrote, or why it did not. */
static void print_written(const char *name, nk_answer answer)
{
    printf("%s: ", name);
    if (answer.number != NK_ACCEPTED)
        print_refusal(answer.number, answer.place, answer.second);
    else
        printf("%.*s\n", (int)answer.first, (const char *)out);
}

static void method(const char *text)
{
    nk_parts returns = nk_method_whole(TEXT(text), parameters, COUNT(parameters));
    printf("%s: ", text);
    if (returns.number != NK_ACCEPTED) {
        print_refusal(returns.number, returns.place, 0);
        return;
    }
    printf("accepted, %" PRIu32 " parameters, %" PRIu64 " bytes\n", returns.parameters, returns.used);
    for (uint32_t i = 0; i < returns.parameters; i++) {
        const uint32_t *p = parameters + NK_PART_WORDS * i;
        print_written("  parameter", nk_print_field(TEXT(text), p[0], p[1], p[2], p[3], out, COUNT(out)));
    }
    print_written("  return", nk_print_return(TEXT(text), returns.dimensions, returns.letter, returns.start,
                                              returns.length, out, COUNT(out)));
    print_written("  whole", nk_print_method(TEXT(text), parameters, COUNT(parameters), returns.parameters,
                                             returns.dimensions, returns.letter, returns.start, returns.length, out,
                                             COUNT(out)));
}

static void class_name(const char *text)
{
    nk_answer answer = nk_class_name(TEXT(text));
    printf("class name %s: ", text);
    if (answer.number != NK_ACCEPTED)
        print_refusal(answer.number, answer.place, answer.second);
    else
        printf("accepted\n");
}

static void binary_name(const char *text)
{
    printf("is %s a binary name: %s\n", text, nk_is_binary_name(TEXT(text)) ? "yes" : "no");
}

int main(void)
{
    codes();
    method("(I[[Ljava/lang/String;J)[Lcycle/Log;");
    method("()VV");
    print_written("identifier", nk_identifier(TEXT("<init>"), TEXT("(I)V"), out, COUNT(out)));
    print_written("identifier, room for 9", nk_identifier(TEXT("<init>"), TEXT("(I)V"), out, 9));
    class_name("a/");
    class_name("a;");
    binary_name("cycle/Log");
    binary_name("cycle//Log");
    return 0;
}
