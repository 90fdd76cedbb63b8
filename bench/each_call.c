/* Makes each call of both indexes, in one program. */
#include "calls.h"

int main(void)
{
    int failed = each_call();
    failed |= roster_calls();
    failed |= roster_texts();
    failed |= roster_refusals();
    return page_each_call() || failed;
}
