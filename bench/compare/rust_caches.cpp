// The caches in Rust, of the crate in rust/.
#include "cache.hpp"

struct RustCache;

extern "C" {
RustCache *dash_cache_open(size_t entries);
void dash_cache_close(RustCache *);
bool dash_cache_get(const RustCache *, uint64_t key, CacheValue *value);
void dash_cache_insert(const RustCache *, uint64_t key, const CacheValue *value);
}

namespace {

struct DashmapCache {
    RustCache *cache;

    explicit DashmapCache(const Workload &w) : cache(dash_cache_open(w.entries)) {}
    ~DashmapCache() { dash_cache_close(cache); }

    struct Handle {
        Handle(DashmapCache &, unsigned) {}
    };

    template <class Use> bool get(Handle &, uint64_t key, Use use) {
        CacheValue copy;
        if (!dash_cache_get(cache, key, &copy)) return false;
        use(copy);
        return true;
    }
    void insert(Handle &, uint64_t key, const CacheValue &value) { dash_cache_insert(cache, key, &value); }
};

CACHE_PEER("dashmap", DashmapCache);

}  // namespace
