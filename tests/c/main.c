#include "check.h"
#include "trials.h"

int main(void)
{
    test_read();
    test_decide();
    test_search();
    test_limits();
    test_threads();
    return checks_done();
}
