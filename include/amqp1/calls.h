/* A function for each operation, made of the exports: the headers by their subjects. For amqp1.h. */
#ifndef AMQP1_CALLS_H
#define AMQP1_CALLS_H

#if defined(__cplusplus) && defined(__GNUC__)
#pragma GCC system_header
#endif

#include "asking.h"
#include "start.h"
#include "sessions.h"
#include "deliveries.h"
#include "states.h"

#endif
