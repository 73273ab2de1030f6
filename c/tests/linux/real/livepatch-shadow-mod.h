/* For samples/livepatch/livepatch-shadow-mod.c. */
#pragma once
#include "stub.h"
