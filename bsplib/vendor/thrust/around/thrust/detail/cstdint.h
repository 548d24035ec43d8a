/* Whole numbers of a given width. */
#pragma once
#include <stdint.h>
