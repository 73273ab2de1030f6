/* For drivers/extcon/extcon-gpio.c. */
#pragma once
#include "extcon.h"
