/* For lib/dim/rdma_dim.c. */
#pragma once
#include "net_dim.h"
