#include "bdf_weight.h"

#include "kept.h"
#include "message.h"

#include <stdio.h>

/* The weight of a name, NOT_SAID if that is none that is known. */
static long weight_of_name(const char *name)
{
    static const struct {
        const char *name;
        long weight;
    } others[] = {{"regular", MF_MEDIUM}, {"normal", MF_MEDIUM},  {"book", MF_MEDIUM},
                  {"demi", MF_DEMI_BOLD}, {"heavy", MF_BLACK},    {"semi", MF_SEMI_BOLD},
                  {"ultra bold", MF_EXTRA_BOLD}};
    int32_t each;
    size_t at;

    for (each = MF_ULTRA_THIN; each <= MF_ULTRA_BLACK; each++)
        if (same_word(name, weight_name(each)))
            return each;
    for (at = 0; at < sizeof others / sizeof *others; at++)
        if (same_word(name, others[at].name))
            return others[at].weight;
    return NOT_SAID;
}

static int is_weight(long number)
{
    return number >= MF_ULTRA_THIN && number <= MF_ULTRA_BLACK;
}

/* Whether WEIGHT_NAME has a name; else FONT may have it. */
static int has_name(const bdf_font *from)
{
    return !same_word(from->weight, "");
}

static int has_unknown_name(const bdf_font *from)
{
    return has_name(from) && weight_of_name(from->weight) == NOT_SAID;
}

/* What the file says, each NOT_SAID if it does not. */
enum { BY_NUMBER, BY_NAME, BY_FONT, WAYS };

static const char *const ways[WAYS] = {"_PCL_WEIGHT", "WEIGHT_NAME", "FONT"};

static void read_ways(long *said, const bdf_font *from)
{
    said[BY_NUMBER] = from->fields[CARRIED_WEIGHT];
    said[BY_NAME] = weight_of_name(from->weight);
    said[BY_FONT] = weight_of_name(from->font_weight);
}

long said_weight(const bdf_font *from)
{
    long said[WAYS], heaviest = NOT_SAID;
    size_t way;

    read_ways(said, from);
    if (said[BY_NUMBER] == NOT_SAID && has_unknown_name(from))
        return NOT_SAID;
    if (said[BY_NUMBER] != NOT_SAID && !is_weight(said[BY_NUMBER]))
        return said[BY_NUMBER];
    for (way = 0; way < WAYS; way++)
        heaviest = said[way] > heaviest ? said[way] : heaviest;
    return heaviest;
}

void tell_unknown_weight(const bdf_font *from)
{
    if (!has_name(from) && same_word(from->font_weight, ""))
        tell("%s: neither WEIGHT_NAME nor FONT says the weight, nothing is written; --weight N "
             "says it, where 0 is medium and 3 bold",
             shown(from->file));
    else
        tell("%s: %s \"%s\" is none that is known, nothing is written; --weight N says the "
             "weight, where 0 is medium and 3 bold",
             shown(from->file), has_name(from) ? "WEIGHT_NAME" : "FONT's weight",
             shown(has_name(from) ? from->weight : from->font_weight));
}

/* As "medium by _PCL_WEIGHT, bold by WEIGHT_NAME"; the names are at most BDF_WORD bytes, each shown
 * as four at most. */
static void write_ways(char *to, size_t room, const long *said, const bdf_font *from)
{
    size_t way, length = 0;

    for (way = 0; way < WAYS; way++) {
        const char *before = length ? ", " : "";
        if (said[way] != NOT_SAID)
            length += (size_t)snprintf(to + length, room - length, "%s%s by %s", before,
                                       weight_name((int32_t)said[way]), ways[way]);
        else if (way == BY_NAME && has_unknown_name(from))
            length += (size_t)snprintf(to + length, room - length,
                                       "%s\"%s\" (none that is known) by WEIGHT_NAME",
                                       before, shown(from->weight));
    }
}

int tell_differing_weights(const bdf_font *from)
{
    long said[WAYS], taken = said_weight(from);
    char words[200 + 4 * BDF_WORD];
    size_t way;
    int differ = has_unknown_name(from);

    read_ways(said, from);
    for (way = 0; way < WAYS; way++)
        differ |= said[way] != NOT_SAID && said[way] != taken;
    if (!differ || !is_weight(taken))
        return 0;
    write_ways(words, sizeof words, said, from);
    tell("%s: the weight is %s; %s is taken, and --weight N settles it", shown(from->file), words,
         weight_name((int32_t)taken));
    return 1;
}
