/*
 * The C engine for jobs with left readings: sides.h over two sides. It is a file of its own so that jobs without left
 * readings are set by code that knows of one side alone.
 */
#define SIDES 2
#include "sides.h"

bv_answer set_with_left(const struct job *j, const struct results *to)
{
    return set_elements(j, to);
}
