#include "printer.h"

#include "marlinfold-text.h"
#include "message.h"

#include <string.h>

const printer_command no_command_yet = {{0, 0}, 0, 0, 0, 0, 1};

void broken(const input *from, uint64_t place, const char *why)
{
    if (from->failed)
        stop("%s: cannot be read: %s", shown(from->name), strerror(from->failed));
    stop("%s: byte %llu: %s", shown(from->name), (unsigned long long)place, why);
}

int is_command(const printer_command *given, const char *group, uint8_t letter)
{
    return given->group[0] == (uint8_t)group[0] && given->group[1] == (uint8_t)group[1] &&
           given->letter == letter;
}

int is_known(const printer_command *given)
{
    static const char groups[] = "&a&b&c&d&f&k&l&n&p&r&s&t&u&v"
                                 "*a*b*c*d*g*i*l*m*o*p*r*s*t*v*w(s)s(f)f";
    const char *at;

    if (!given->group[0])
        return strchr("E9=YZz", given->letter) != NULL;
    if (!given->group[1])
        return given->group[0] == '%' ||
               ((given->group[0] == '(' || given->group[0] == ')') && given->letter != 'W');
    for (at = groups; *at; at += 2)
        if ((uint8_t)at[0] == given->group[0] && (uint8_t)at[1] == given->group[1])
            return 1;
    return 0;
}

void show_command(const printer_command *given, char *to, size_t room)
{
    if (!given->group[0] && (given->letter < '!' || given->letter > '~'))
        snprintf(to, room, "ESC and byte %u", given->letter);
    else if (!given->group[0])
        snprintf(to, room, "ESC %c", given->letter);
    else if (given->group[1])
        snprintf(to, room, "ESC %c%c%ld%c", given->group[0], given->group[1], given->number,
                 given->letter);
    else
        snprintf(to, room, "ESC %c%ld%c", given->group[0], given->number, given->letter);
}

/* The byte that is read next, 0 at the end. */
static uint8_t peek(input *from)
{
    return look(from, 1) ? from->next[0] : 0;
}

#define LARGE 1000000000L

/* Goes past digits and answers how many there are; their value is LARGE if it is too large
 * for any command. */
static size_t read_digits(input *from, long *value)
{
    size_t digits = 0;

    for (*value = 0; peek(from) >= '0' && peek(from) <= '9'; digits++) {
        *value = *value < LARGE / 10 ? 10 * *value + (peek(from) - '0') : LARGE;
        pass(from, 1);
    }
    return digits;
}

/* A command's number: none is 0, and decimals are cut. */
static long read_number(input *from)
{
    uint64_t start = from->place;
    size_t digits;
    int below = peek(from) == '-';
    long number, decimals;

    if (peek(from) == '-' || peek(from) == '+')
        pass(from, 1);
    digits = read_digits(from, &number);
    if (peek(from) == '.') {
        pass(from, 1);
        digits += read_digits(from, &decimals);
    }
    if ((from->place > start && look(from, 1) && !digits) ||
        (peek(from) && strchr("+-.", peek(from))))
        broken(from, start, "a command with a number that is none");
    return below ? -number : number;
}

/* Whether bytes that are no commands follow, as many as the number says. */
static int has_data(const printer_command *given)
{
    return given->letter == 'W' || is_command(given, "&p", 'X') || is_command(given, "*b", 'V');
}

/* Reads the number and the letter of a command, whose group is read. */
static void read_rest(input *from, printer_command *made)
{
    uint8_t letter;

    made->number = read_number(from);
    if (!look(from, 1))
        broken(from, made->place, "cut off in a command");
    letter = peek(from);
    made->ended = letter >= '@' && letter <= 'Z';
    if (!made->ended && !(letter >= 'a' && letter <= 'z'))
        broken(from, from->place, "a command with a byte that is no letter");
    made->letter = made->ended ? letter : (uint8_t)(letter - 'a' + 'A');
    if (has_data(made) && !made->ended)
        broken(from, from->place, "a block after a small letter");
    if (has_data(made) && made->number < 0)
        broken(from, made->place, "cut off in a block");
    made->data = has_data(made) ? (uint64_t)made->number : 0;
    pass(from, 1);
}

/* Whether bytes are *c#D, *c#E, )s#W or (s#W. */
static int is_like_command(const uint8_t *bytes, size_t left)
{
    size_t at = 2;

    if (left < 4 || !strchr("*()", bytes[0]) || bytes[1] != (bytes[0] == '*' ? 'c' : 's'))
        return 0;
    while (at < left && bytes[at] >= '0' && bytes[at] <= '9')
        at++;
    return at > 2 && at < left &&
           (bytes[0] == '*' ? bytes[at] == 'D' || bytes[at] == 'E' : bytes[at] == 'W');
}

static int is_padding(const uint8_t *bytes, size_t length)
{
    while (length && (*bytes == 0 || *bytes == 26)) {
        bytes++;
        length--;
    }
    return length == 0;
}

#define FIRST_WITHIN (16 << 20) /* a printer's stream has its first command in so many bytes */

/* Goes past bytes that are no command, up to an ESC or to the end. */
static void pass_text(input *from, left_text *before)
{
    size_t there = look(from, 12);

    before->place = from->place;
    before->like_one = there && from->next[0] != MFT_ESC &&
                       is_like_command(from->next, there < 12 ? there : 12);
    before->padding = 1;
    while ((there = look(from, 1)) != 0) {
        const uint8_t *found = memchr(from->next, MFT_ESC, there);
        before->padding = !found && before->padding && is_padding(from->next, there);
        pass(from, found ? (size_t)(found - from->next) : there);
        if (found)
            break;
        if (before->place == 0 && from->place > FIRST_WITHIN)
            broken(from, 0, "no command in 16 MB: no stream of a printer");
    }
    before->bytes = from->place - before->place;
}

/* Reads an ESC and the bytes that name a group; 0 if it is a command of two bytes, or an ESC that
 * begins none. */
static int read_group(input *from, printer_command *made)
{
    made->place = from->place;
    if (look(from, 2) < 2)
        broken(from, from->place, "cut off after ESC");
    made->group[0] = made->group[1] = 0;
    made->number = 0;
    made->data = 0;
    made->ended = 1;
    made->letter = from->next[1];
    if (made->letter < 0x21 || made->letter > 0x2F)
        return 0;
    made->group[0] = made->letter;
    pass(from, 2);
    if (look(from, 1) && from->next[0] >= 0x60 && from->next[0] <= 0x7E) {
        made->group[1] = from->next[0];
        pass(from, 1);
    }
    return 1;
}

int next_command(input *from, printer_command *made, left_text *before)
{
    before->place = from->place;
    before->bytes = 0;
    before->like_one = before->padding = 0;
    if (!made->ended) {
        made->place = from->place;
        read_rest(from, made);
        return 1;
    }
    pass_text(from, before);
    while (look(from, 2) > 1 && from->next[1] == MFT_ESC) { /* the second one begins the command */
        pass(from, 1);
        before->bytes++;
    }
    if (!look(from, 1))
        return 0;
    if (read_group(from, made))
        read_rest(from, made);
    else
        pass(from, 2);
    return 1;
}

/* Whether a font command begins among these bytes, with its group perhaps after them. */
static int holds_command(const uint8_t *bytes, size_t length, size_t there)
{
    size_t at;

    for (at = 0; at < length && at + 2 < there; at++)
        if (bytes[at] == MFT_ESC && ((bytes[at + 1] == '*' && bytes[at + 2] == 'c') ||
                                 ((bytes[at + 1] == '(' || bytes[at + 1] == ')') &&
                                  bytes[at + 2] == 's')))
            return 1;
    return 0;
}

int pass_data(input *from, const printer_command *given)
{
    uint64_t left = given->data;
    int held = 0;

    while (left) {
        size_t there = look(from, INPUT_AHEAD), step = there;
        if (!there)
            broken(from, given->place, "cut off in a block");
        if (there > 2 && left > there)
            step = there - 2; /* a command's first bytes are looked at together */
        step = step < left ? step : (size_t)left;
        held |= holds_command(from->next, step, there);
        pass(from, step);
        left -= step;
    }
    return held && look(from, 1) && from->next[0] != MFT_ESC;
}
