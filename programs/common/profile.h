/* The profile of spine labels in words: every rule that a kept font breaks. */
#ifndef PROFILE_H
#define PROFILE_H

#include <stdint.h>
#include <stdio.h>

/* Prints a line for each rule that the font breaks, with the codes that break it, or one line if
 * it meets the profile. Answers whether it does, as mf_check_profile says it. */
int print_profile(FILE *to, uint32_t font);

#endif
