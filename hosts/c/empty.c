/* Every function with empty slices, each a NULL pointer with a count of 0. The output is empty.out. */
#include "nikorepum.h"

#include <inttypes.h>
#include <stdio.h>

static void answer(const char *name, nk_answer a)
{
    printf("%s: number %" PRIu32 ", second %" PRIu32 ", place %" PRIu64 ", first %" PRIu64 ", next %" PRIu64 "\n", name,
           a.number, a.second, a.place, a.first, a.next);
}

static void parts(const char *name, nk_parts p)
{
    printf("%s: number %" PRIu32 ", dimensions %" PRIu32 ", letter %" PRIu32 ", start %" PRIu32 ", length %" PRIu32
           ", parameters %" PRIu32 ", place %" PRIu64 ", used %" PRIu64 "\n",
           name, p.number, p.dimensions, p.letter, p.start, p.length, p.parameters, p.place, p.used);
}

static void says(const char *name, bool yes)
{
    printf("%s: %s\n", name, yes ? "yes" : "no");
}

int main(void)
{
    answer("nk_decode", nk_decode(NULL, 0, NULL, 0, NULL, 0, NULL, 0));
    answer("nk_lookup", nk_lookup(NULL, 0, 0, 0));
    answer("nk_class_name", nk_class_name(NULL, 0));
    answer("nk_print_field", nk_print_field(NULL, 0, 0, 'I', 0, 0, NULL, 0));
    answer("nk_print_return", nk_print_return(NULL, 0, 0, 'V', 0, 0, NULL, 0));
    answer("nk_print_method", nk_print_method(NULL, 0, NULL, 0, 0, 0, 'V', 0, 0, NULL, 0));
    answer("nk_identifier", nk_identifier(NULL, 0, NULL, 0, NULL, 0));
    parts("nk_field_prefix", nk_field_prefix(NULL, 0));
    parts("nk_field_whole", nk_field_whole(NULL, 0));
    parts("nk_return_prefix", nk_return_prefix(NULL, 0));
    parts("nk_return_whole", nk_return_whole(NULL, 0));
    parts("nk_array", nk_array(NULL, 0));
    parts("nk_method_prefix", nk_method_prefix(NULL, 0, NULL, 0));
    parts("nk_method_whole", nk_method_whole(NULL, 0, NULL, 0));
    says("nk_is_binary_name", nk_is_binary_name(NULL, 0));
    says("nk_is_unqualified_name", nk_is_unqualified_name(NULL, 0));
    says("nk_is_method_name", nk_is_method_name(NULL, 0, true, true));
    says("nk_is_module_name", nk_is_module_name(NULL, 0));
    says("nk_is_field_descriptor", nk_is_field_descriptor(NULL, 0));
    says("nk_is_array_descriptor", nk_is_array_descriptor(NULL, 0));
    says("nk_is_return_descriptor", nk_is_return_descriptor(NULL, 0));
    says("nk_is_method_descriptor", nk_is_method_descriptor(NULL, 0));
    return 0;
}
