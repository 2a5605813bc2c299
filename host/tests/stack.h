/* Every input of these tests is tried on the small stack too. */
#ifndef STACK_H
#define STACK_H

#include "small_stack.h"

/* Runs a call on the small stack, and keeps what it shows for test_stack. */
struct small_run try_small_stack(archive_call *call, const uint8_t *bytes, size_t length);

#endif
