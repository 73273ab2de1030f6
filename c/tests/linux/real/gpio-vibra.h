/* For drivers/input/misc/gpio-vibra.c. */
#pragma once
#include "input.h"
