/* Tells helgrind of an order between threads that it doesn't see. */
#include <stddef.h>
#include <valgrind/helgrind.h>

void order_before(const void *place) {
    ANNOTATE_HAPPENS_BEFORE(place);
}

void order_after(const void *place) {
    ANNOTATE_HAPPENS_AFTER(place);
}

void order_unchecked(const void *place, size_t len) {
    VALGRIND_HG_DISABLE_CHECKING(place, len);
}
