/* For samples/livepatch/livepatch-callbacks-busymod.c. */
#pragma once
#include "stub.h"
