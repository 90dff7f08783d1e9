/*
 * The check of a whole module, once as plain and once as expert C.
 */

#include "module_check.h"

baseline_verdict plain_check_module(const uint8_t *module, size_t length)
{
    layout found;
    return plain_check(&found, module, length);
}

baseline_verdict expert_check_module(const uint8_t *module, size_t length)
{
    layout found;
    return expert_check(&found, module, length);
}
