// The header and the archive from C++: memory that nothing has begun in is refused by 1.
#include "chuldariin.h"

int main() {
    chuldariin_controller post{};
    return chuldariin_tick(&post, 0).refusal == CHULDARIIN_REFUSED_SETTINGS ? 0 : 1;
}
