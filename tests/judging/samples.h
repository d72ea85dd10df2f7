/* Small random images for the judge: laid out soundly, then damaged in no place, in one or in several. */
#ifndef SAMPLES_H
#define SAMPLES_H

#include "model.h"

/* its bytes are to be freed; an empty image has none */
struct image make_sample(void);

#endif
