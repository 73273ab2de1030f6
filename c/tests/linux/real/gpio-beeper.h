/* For drivers/input/misc/gpio-beeper.c. */
#pragma once
#include "input.h"
