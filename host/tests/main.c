/* Tests of the archive through its C interface. */
#include "check.h"
#include "tests.h"

int main(void)
{
    test_edges();
    test_fields();
    test_sizes();
    test_order();
    test_records();
    test_timing();
    test_voice();
    test_versions();
    test_bundles();
    test_measuring();
    test_stack();
    return check_report();
}
