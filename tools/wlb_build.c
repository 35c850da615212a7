/* Object that says how the libraries were built. Both libraries have it. It is weak, so that a program may link all objects of both. */
#include <wlb.h>

__attribute__((weak)) const char *wlb_build(void) {
    return WLB_BUILD;
}
