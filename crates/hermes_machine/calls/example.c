/* A machine is made, seen and freed. */
#include "hermes_machine.h"
#include <stdio.h>

int main(void) {
    hermes_machine m = {0};
    hermes_profile p = {sizeof p, 7, 1, 4, 0, 0, 0};
    hermes_view v = {.size = sizeof v};
    if (hermes_machine_abi() != HERMES_MACHINE_ABI) return 1;
    if (hermes_machine_new(&m, &p, (const uint8_t *)"Loader", 6) != HERMES_DONE) return 1;
    if (hermes_machine_view(&m, &v) != HERMES_DONE) return 1;
    printf("entry %u, exit %u, %llu boards\n", v.state[HERMES_ENTRY], v.state[HERMES_EXIT], (unsigned long long)v.kept);
    return hermes_machine_free(&m);
}
