/* Small random images, sound and unsound. */
#ifndef IMAGES_H
#define IMAGES_H

#include "model.h"

struct image make_image(void);

#endif
