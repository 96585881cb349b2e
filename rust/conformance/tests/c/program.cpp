// One picture straightened and one refused, from C++.
#include "straightener.h"

#include <cstdint>
#include <cstdio>
#include <vector>

int main()
{
    const std::vector<std::int32_t> picture = {0, 10, 0, 10};
    std::vector<std::int32_t> result(4), work(straightener_work_places(2, 2));
    auto straighten = [&](straightener_setting setting) {
        return straightener_straighten(2, 2, setting, picture.data(), 4, result.data(), 4, work.data(), work.size());
    };
    straightener_setting setting = {STRAIGHTENER_LINEAR, 0, 0, 2048, 0, STRAIGHTENER_WRAPPED, 0};
    if (straighten(setting).number != STRAIGHTENER_ACCEPTED)
        return 1;
    std::printf("version %d.%d: %d %d %d %d\n", STRAIGHTENER_VERSION_MAJOR, STRAIGHTENER_VERSION_MINOR, result[0],
                result[1], result[2], result[3]);
    const straightener_answer refused = straighten(straightener_with_kernel(setting, 3));
    std::printf("refused: %s\n", straightener_words(refused.number));
    return refused.number == STRAIGHTENER_REFUSED_KERNEL ? 0 : 1;
}
