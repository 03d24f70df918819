// Kitherma's cache for C++, by numbers and by strings.
#include "cache.hpp"
#include "vbr_cache.hpp"

namespace {

template <class Key, class Value> struct Kitherma {
    using Cache = vbr::cache<Key, Value>;
    Cache cache;

    explicit Kitherma(const Workload &w) : cache(Cache::open_for(static_cast<uint32_t>(w.entries), w.threads).value()) {}

    struct Handle {
        typename Cache::loan mine;
        Handle(Kitherma &of, unsigned) : mine(of.cache.lend_wait()) {}
    };
};

struct KithermaCache : Kitherma<uint64_t, CacheValue> {
    using Kitherma::Kitherma;

    template <class Use> bool get(Handle &h, uint64_t key, Use use) {
        const auto there = h.mine.get(key);
        if (*there) use(**there);
        return there->has_value();
    }
    void insert(Handle &h, uint64_t key, const CacheValue &value) { (void)h.mine.insert(key, value).value(); }
};

using Bytes = vbr::small_bytes<sizeof(CacheValue)>;

struct KithermaStrings : Kitherma<vbr::small_string<31>, Bytes> {
    using Kitherma::Kitherma;

    static vbr::small_string<31> text_of(uint64_t key) { return vbr::small_string<31>::from(KeyText(key).view()).value(); }

    template <class Use> bool get(Handle &h, uint64_t key, Use use) {
        const auto there = h.mine.get(text_of(key));
        if (!*there) return false;
        const std::string_view bytes = (**there).view();
        CacheValue value;
        if (bytes.size() != sizeof value) return false;
        std::memcpy(&value, bytes.data(), sizeof value);
        use(value);
        return true;
    }
    void insert(Handle &h, uint64_t key, const CacheValue &value) {
        const std::string_view bytes(reinterpret_cast<const char *>(&value), sizeof value);
        (void)h.mine.insert(text_of(key), Bytes::from(bytes).value()).value();
    }
};

CACHE_PEER("kitherma", KithermaCache);
CACHE_PEER("kitherma strings", KithermaStrings);

}  // namespace
