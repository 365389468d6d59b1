/* Calls every function of trnadulek.h and holds each to what the header says. */
#include "tests.h"

#include "check.h"

#include <stdio.h>

int main(void)
{
    test_questions();
    test_cases();
    test_steps();
    test_interrupts();
    test_runs();
    test_images();
    test_saved();
    test_listing();
    test_assembling();
    test_nulls();
    printf("%lu checks, %lu failed\n", checks_made(), checks_failed());
    return checks_failed() != 0;
}
