/* sizes.h - sizes that several files need. */
#ifndef CHECK_SIZES_H
#define CHECK_SIZES_H

#include "presence.h"

#define MAX_N PRESENCE_MAX_MODULES
#define SETUP_MAX PRESENCE_MAX_FADING_SETUP_BYTES /* of either form */
#define IMAGE_MAX /* of any image */ \
    (PRESENCE_MAX_PENDING_IMAGE_BYTES + PRESENCE_MAX_VIEWS_BYTES)
#define READ_MAX PRESENCE_MAX_PARTITIONABLE_READ_BYTES /* of any read */
#define COUNT(array) (sizeof (array) / sizeof (array)[0])

#endif
