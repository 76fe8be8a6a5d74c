/* The four commands of a font stream, as mf_read_stream reads them. */
#include "marlinfold-text.h"

#define DIGITS_MAX 5

/* The number of a command: up to five digits; answers how many. */
static size_t read_digits(const uint8_t *from, size_t left, uint32_t *number)
{
    size_t digits = 0;

    for (*number = 0; digits < left && digits < DIGITS_MAX; digits++) {
        if (from[digits] < '0' || from[digits] > '9')
            break;
        *number = 10 * *number + (uint32_t)(from[digits] - '0');
    }
    return digits;
}

/* What ESC *c#, ESC )s# or ESC (s# is with its letter. */
static uint32_t found_by(uint8_t group, uint8_t letter)
{
    if (group == '*')
        return letter == 'D' ? MFT_FONT_NUMBER : letter == 'E' ? MFT_CODE : MFT_OTHER;
    return letter != 'W' ? MFT_OTHER : group == ')' ? MFT_FONT_BLOCK : MFT_CHARACTER_BLOCK;
}

static mft_command no_command(uint32_t why)
{
    mft_command made = {0, 0, 0, NULL};

    made.found = why;
    return made;
}

/* Whether the bytes after ESC begin one of the four commands, as far as there are any. */
static int begins_command(const uint8_t *from, size_t left)
{
    if (left > 1 && from[1] != '*' && from[1] != ')' && from[1] != '(')
        return 0;
    return left < 3 || from[2] == (from[1] == '*' ? 'c' : 's');
}

/* A command that ends with its letter, or why it is none; with its block, if it has one. */
static mft_command with_block(mft_command made, const uint8_t *from, size_t left)
{
    if (made.found == MFT_OTHER)
        return no_command(MFT_OTHER);
    if (made.found != MFT_FONT_BLOCK && made.found != MFT_CHARACTER_BLOCK)
        return made;
    if (made.number > MF_BLOCK_MAX)
        return no_command(MFT_TOO_LONG);
    if (made.number > left - made.length)
        return no_command(MFT_CUT_OFF);
    made.block = from + made.length;
    made.length += made.number;
    return made;
}

mft_command mft_command_at(const uint8_t *stream, size_t left)
{
    mft_command made = {MFT_OTHER, 0, 0, NULL};
    size_t at;

    if (left == 0)
        return no_command(MFT_CUT_OFF);
    if (stream[0] != MFT_ESC)
        return no_command(MFT_NO_ESC);
    if (!begins_command(stream, left))
        return no_command(MFT_OTHER);
    at = left < 3 ? left : 3 + read_digits(stream + 3, left - 3, &made.number);
    if (at == left)
        return no_command(MFT_CUT_OFF);
    if (at == 3)
        return no_command(MFT_OTHER);
    made.found = found_by(stream[1], stream[at]);
    made.length = at + 1;
    return with_block(made, stream, left);
}
