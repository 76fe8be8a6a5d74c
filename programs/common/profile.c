#include "profile.h"

#include "kept.h"
#include "loading.h"
#include "message.h"

/* A font that is looked at, and the line that is under way. */
typedef struct {
    FILE *to;
    uint32_t number;
    mf_font_fields font;
} looking;

/* The rules as they are told: that of the codes is two, for missing and incomplete ones. */
enum told_rule { MISSING, NOT_COMPLETE, LEFT, WIDTH, HEIGHT, DELTA_X, TOLD_RULES };
static const unsigned rule_number[TOLD_RULES] = {3, 3, 4, 5, 6, 7};

/* Whether a code breaks a rule. */
static int breaks(const looking *at, enum told_rule rule, uint32_t code)
{
    mf_character_fields told;
    int there = tell_character(at->number, code, &told), needed = code >= 32 && code <= 127;

    switch (rule) {
    case MISSING: return needed && !there;
    case NOT_COMPLETE: return needed && there && is_incomplete(at->number, code);
    case LEFT: return there && told.left < 0;
    case WIDTH: return there && told.left + (int32_t)told.width > (int32_t)at->font.cell_width;
    case HEIGHT: return there && told.height > at->font.cell_height;
    default: return there && told.delta_x != at->font.pitch;
    }
}

/* The first code that breaks a rule, with its numbers. */
static void print_first(const looking *at, enum told_rule rule, uint32_t code)
{
    mf_character_fields told = {0, 0, 0, 0, 0, 0, 0};

    tell_character(at->number, code, &told);
    switch (rule) {
    case MISSING: fprintf(at->to, "code %u is not there", (unsigned)code); break;
    case NOT_COMPLETE: fprintf(at->to, "code %u is not complete", (unsigned)code); break;
    case LEFT:
        fprintf(at->to, "code %u: its left offset is %d, below 0", (unsigned)code,
                (int)told.left);
        break;
    case WIDTH:
        fprintf(at->to, "code %u: left offset %d plus width %u is more than the cell width %u",
                (unsigned)code, (int)told.left, (unsigned)told.width,
                (unsigned)at->font.cell_width);
        break;
    case HEIGHT:
        fprintf(at->to, "code %u: its height %u is more than the cell height %u", (unsigned)code,
                (unsigned)told.height, (unsigned)at->font.cell_height);
        break;
    default:
        fprintf(at->to, "code %u: its delta X %u is not the font's pitch %u", (unsigned)code,
                (unsigned)told.delta_x, (unsigned)at->font.pitch);
    }
}

/* The other codes, as "; also 35, 40 to 47". */
static void print_others(const looking *at, enum told_rule rule, uint32_t code)
{
    const char *before = "; also ";

    for (code++; code <= MF_CODE_MAX; code++) {
        uint32_t first = code;
        if (!breaks(at, rule, code))
            continue;
        while (code < MF_CODE_MAX && breaks(at, rule, code + 1))
            code++;
        fprintf(at->to, "%s%u", before, (unsigned)first);
        if (code > first)
            fprintf(at->to, " to %u", (unsigned)code);
        before = ", ";
    }
}

static void begin_rule(const looking *at, unsigned rule)
{
    fprintf(at->to, "font %u breaks rule %u of the profile: ", (unsigned)at->number, rule);
}

static void print_rule(const looking *at, enum told_rule rule)
{
    uint32_t code = 0;

    while (code <= MF_CODE_MAX && !breaks(at, rule, code))
        code++;
    if (code > MF_CODE_MAX)
        return;
    begin_rule(at, rule_number[rule]);
    print_first(at, rule, code);
    print_others(at, rule, code);
    fputc('\n', at->to);
}

int print_profile(FILE *to, uint32_t font)
{
    mf_profile found = mf_check_profile(store, sizeof store, font);
    looking at;
    uint32_t characters;
    int rule;

    if (found.refusal)
        refuse("profile", found.refusal);
    if (found.rule == MF_PROFILE_MET) {
        fprintf(to, "font %u meets the profile\n", (unsigned)font);
        return 1;
    }
    at.to = to;
    at.number = font;
    at.font = tell_font(font, &characters);
    if (at.font.type != 0) {
        begin_rule(&at, MF_PROFILE_TYPE);
        fprintf(to, "its type is %u, not 0\n", (unsigned)at.font.type);
    }
    if (at.font.spacing != MF_FIXED) {
        begin_rule(&at, MF_PROFILE_SPACING);
        fputs("its spacing is proportional, not fixed\n", to);
    }
    for (rule = MISSING; rule < TOLD_RULES; rule++)
        print_rule(&at, (enum told_rule)rule);
    return 0;
}
