// C++ std::map from folded label to value. The label sought is folded once, and searched without making a string.
#include "bench.h"
#include <functional>
#include <map>
#include <string>
#include <string_view>

using Map = std::map<std::string, uint16_t, std::less<>>;

static std::string_view view(const uint8_t *label, size_t n)
{
    return std::string_view(reinterpret_cast<const char *>(label), n);
}

extern "C" void *map_new(void)
{
    return new Map;
}

extern "C" void map_insert(void *map, const uint8_t *label, size_t n, uint16_t value)
{
    uint8_t held[WIDTH];
    fold(held, label, n);
    static_cast<Map *>(map)->emplace(view(held, n), value);
}

extern "C" uint64_t map_search(const void *map, const uint8_t *label, size_t n)
{
    const Map *m = static_cast<const Map *>(map);
    uint8_t sought[WIDTH];
    if (n > WIDTH)
        return 0;
    fold(sought, label, n);
    auto at = m->find(view(sought, n));
    return at == m->end() ? 0 : uint64_t(at->second) + 1;
}
