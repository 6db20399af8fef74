/* Compiles, as C and as C++, only if the header stands alone and its structs are laid out as the library's. */
#include "nikorepum.h"

#define MUST(name, condition) typedef char name[(condition) ? 1 : -1]
#define AT(type, field, offset) MUST(type##_##field, offsetof(type, field) == (offset))

AT(nk_answer, number, 0);
AT(nk_answer, second, 4);
AT(nk_answer, place, 8);
AT(nk_answer, first, 16);
AT(nk_answer, next, 24);
MUST(nk_answer_size, sizeof(nk_answer) == 32);

AT(nk_parts, number, 0);
AT(nk_parts, dimensions, 4);
AT(nk_parts, letter, 8);
AT(nk_parts, start, 12);
AT(nk_parts, length, 16);
AT(nk_parts, parameters, 20);
AT(nk_parts, place, 24);
AT(nk_parts, used, 32);
MUST(nk_parts_size, sizeof(nk_parts) == 40);

MUST(a_bool_is_a_byte, sizeof(bool) == 1);
MUST(a_count_is_64_bits, sizeof(size_t) == 8);
