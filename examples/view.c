/* The small school of document 01, and what the reader SHA sees of it. */
#include "store.h"

static const char *const SCHOOL[] = {
    "(subject staff)",
    "(subject SHA)",
    "(isa SHA staff)",
    "(rule accept read //* staff)",
    "(rule deny read //note/* staff)",
    "(rule accept position //note/* staff)",
    "(rule accept update //room/* staff)",
    "(root school)",
    "(child (mon (lesson (class (10B)) (room (R12)) (note (ill)))))",
    "(user SHA)",
};

int main(void) {
    need_library();
    for (size_t i = 0; i < sizeof SCHOOL / sizeof SCHOOL[0]; i++) {
        answer(SCHOOL[i]);
    }
    print_view();
    return 0;
}
