/* The family of gates that all have the delay 1. */
#ifndef FAMILY_H
#define FAMILY_H

#include <stdint.h>

static const uint8_t unit_family[16] = {1, 1, 1, 1, 1, 1, 1, 1, 1, 1, 1, 1, 1, 1, 1, 1};

#endif
