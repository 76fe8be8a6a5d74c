#include "request.h"

#include "message.h"

request_words requested = {NOT_GIVEN, NOT_GIVEN, NOT_GIVEN, NOT_GIVEN, NOT_GIVEN,
                           NOT_GIVEN, NOT_GIVEN, NOT_GIVEN, NOT_GIVEN};

static uint32_t given(long value, uint32_t otherwise)
{
    return value == NOT_GIVEN ? otherwise : (uint32_t)value;
}

mf_request request_asked(void)
{
    mf_request made;

    made.symbol_set = given(requested.symbol_set, MF_ROMAN_8);
    made.spacing = given(requested.spacing, MF_FIXED);
    made.pitch = given(requested.pitch, 1000);
    made.height = given(requested.height, 1200);
    made.style = given(requested.style, 0);
    made.weight = requested.weight == NOT_GIVEN ? MF_MEDIUM : (int32_t)requested.weight;
    made.typeface = given(requested.typeface, 3);
    made.orientation = given(requested.orientation, MF_PORTRAIT);
    made.mode = given(requested.mode, MF_MODE_300);
    if (made.mode != MF_MODE_300 && made.mode != MF_MODE_600)
        stop("--mode %u: not 300 or 600", (unsigned)made.mode);
    return made;
}
