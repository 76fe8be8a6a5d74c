/* The stroke weight of a BDF font. A file may say it three times: by the number in _PCL_WEIGHT, by
 * the name in WEIGHT_NAME and by the name in FONT. Bold marks a closed series, so that no weight is
 * guessed, and none of them is passed over quietly. */
#ifndef BDF_WEIGHT_H
#define BDF_WEIGHT_H

#include "bdf_read.h"

/* The weight by what the file says: where that differs, the heaviest, so that a box that is shelved
 * by it stands closed rather than open. NOT_SAID if the file says none that is known, or has no
 * number and a WEIGHT_NAME that is not known. A number that no font may have is answered as it is,
 * for the library to refuse. */
long said_weight(const bdf_font *from);

/* Tells that the file says no weight that is known, and that nothing is written. */
void tell_unknown_weight(const bdf_font *from);

/* Tells it, and answers 1, if what the file says of the weight differs, or if it has a number and a
 * WEIGHT_NAME that is not known: that name was written after the number. */
int tell_differing_weights(const bdf_font *from);

#endif
