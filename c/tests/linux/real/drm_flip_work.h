/* For drivers/gpu/drm/drm_flip_work.c. */
#pragma once
#include "stub.h"
#define DRM_ERROR(...) fprintf(stderr, __VA_ARGS__)
#define drm_can_sleep() true
