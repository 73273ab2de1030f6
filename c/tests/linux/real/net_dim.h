/* For lib/dim. */
#pragma once
#include "stub.h"
#define abs_diff(a, b) ((a) > (b) ? (a) - (b) : (b) - (a))
