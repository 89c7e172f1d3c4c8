/* The function that bitpacking.h has only as `static inline`, as a function of the shared library, for languages that call it by name and cannot
 * read the header. */
#define bitpacking_error_text bitpacking_error_text_inline
#include "bitpacking.h"
#undef bitpacking_error_text

const char *(bitpacking_error_text)(ptrdiff_t number);

const char *(bitpacking_error_text)(ptrdiff_t number)
{
    return bitpacking_error_text_inline(number);
}
