// Kitherma, through its C library: the set, and the map.
#include "single.hpp"
#include "vbr.h"
#include "walk.hpp"

namespace {

[[noreturn]] void refused() {
    std::fputs("compare: a call of Kitherma was refused\n", stderr);
    std::_Exit(1);
}

bool answer(int32_t answer) {
    if (answer < 0) refused();
    return answer;
}

// As many as the peers have, up to the library's limit, which is a power of two too.
uint32_t buckets(const Workload &w) { return static_cast<uint32_t>(std::min<size_t>(w.buckets(), VBR_MAX_BUCKETS)); }

// As many as there can be keys, as docs/USING.md advises.
uint32_t buckets_as_keys(const Workload &w) {
    uint32_t buckets = 1;
    while (buckets < w.range && buckets < VBR_MAX_BUCKETS) buckets *= 2;
    return buckets;
}

// The handles of a set or a map, one for each thread.
template <class Raw, auto open, auto end_all> struct Handles {
    std::vector<Raw> handles;

    explicit Handles(const Workload &w) : Handles(w, buckets(w)) {}
    Handles(const Workload &w, uint32_t buckets) : handles(w.threads) {
        if (open(handles.data(), handles.size(), w.slots(), buckets, VBR_MAX_EPOCH) != VBR_OK) refused();
    }
    ~Handles() {
        end_all(handles.data(), handles.size());
    }

    struct Handle {
        Raw *of;
        Handle(Handles &peer, unsigned thread) : of(&peer.handles[thread]) {}
    };
};

struct Kitherma : Handles<vbr_handle, vbr_open, vbr_end_all> {
    using Handles::Handles;

    bool insert(Handle &h, uint64_t key) { return answer(vbr_insert(h.of, key)); }
    bool remove(Handle &h, uint64_t key) { return answer(vbr_remove(h.of, key)); }
    bool has(Handle &h, uint64_t key) { return answer(vbr_has(h.of, key)); }

    template <class F> void walk(Handle &h, F each) {
        vbr_cursor cursor = VBR_CURSOR_BEGIN;
        for (uint64_t key; answer(vbr_next(h.of, &cursor, &key));) each(key);
    }
};

struct KithermaWide : Kitherma {
    explicit KithermaWide(const Workload &w) : Kitherma(w, buckets_as_keys(w)) {}
};

// The same by look-ups of many keys.
template <class Of> struct KithermaAll : Of {
    using Of::Of;
    using Handle = typename Of::Handle;
    uint64_t has_all(Handle &h, const uint64_t *keys, size_t count) {
        vbr_answer answers[AT_ONCE];
        vbr_has_all(h.of, keys, count, answers);
        uint64_t yes = 0;
        for (size_t i = 0; i < count; i++) yes += answer(answers[i]);
        return yes;
    }
};

struct KithermaMap : Handles<vbr_map_handle, vbr_map_open, vbr_map_end_all> {
    using Handles::Handles;

    bool insert(Handle &h, uint64_t key, uint64_t value) { return answer(vbr_map_insert(h.of, key, value)); }
    bool remove(Handle &h, uint64_t key, uint64_t &value) { return answer(vbr_map_remove(h.of, key, &value)); }
    bool get(Handle &h, uint64_t key, uint64_t &value) { return answer(vbr_map_get(h.of, key, &value)); }
    bool replace(Handle &h, uint64_t key, uint64_t value, uint64_t &old) {
        return answer(vbr_map_replace(h.of, key, value, &old));
    }
    bool has(Handle &h, uint64_t key) { return answer(vbr_map_has(h.of, key)); }

    template <class F> void walk(Handle &h, F each) {
        vbr_cursor cursor = VBR_CURSOR_BEGIN;
        for (vbr_entry entry = {}; answer(vbr_map_next(h.of, &cursor, &entry));) each(entry.key, entry.value);
    }
};

struct KithermaMapWide : KithermaMap {
    explicit KithermaMapWide(const Workload &w) : KithermaMap(w, buckets_as_keys(w)) {}
};

template <class Of> struct KithermaMapAll : Of {
    using Of::Of;
    using Handle = typename Of::Handle;
    template <class F> void get_all(Handle &h, const uint64_t *keys, size_t count, F each) {
        vbr_found found[AT_ONCE];
        vbr_map_get_all(h.of, keys, count, found);
        for (size_t i = 0; i < count; i++)
            if (answer(found[i].answer)) each(i, found[i].value);
    }
};

// The batches of a set, and of a map.
template <class Set> bool add_batches(const char *name) {
    batches().push_back({name, measure<KithermaAll<Set>>, wrong_keys<KithermaAll<Set>>});
    return true;
}
template <class Map> bool add_map_batches(const char *name) {
    map_batches().push_back({name, measure<GetsAll<KithermaMapAll<Map>>>, wrong_keys<GetsAll<KithermaMapAll<Map>>>});
    return true;
}

PEER("kitherma", Kitherma);
PEER("kitherma wide", KithermaWide);
const bool batches_of_set = add_batches<Kitherma>("kitherma batches") && add_batches<KithermaWide>("batches wide");
const bool batches_of_map = add_map_batches<KithermaMap>("kitherma batches") && add_map_batches<KithermaMapWide>("batches wide");
MAP_PEER("kitherma wide", KithermaMapWide, "replace");
MAP_PEER("kitherma", KithermaMap, "replace");
const bool singles_of_map = add_singles_of_map<KithermaMap>("kitherma");
const bool singles_of_set = add_singles_of_set<Kitherma>("kitherma set");
WALK_PEER("kitherma", Kitherma);
MAP_WALK_PEER("kitherma", KithermaMap);
const bool look_ups_of_set = (walks().push_back(look_ups<Kitherma>("kitherma", " by=has")), true);
const bool look_ups_of_map = (map_walks().push_back(look_ups<Walks<KithermaMap>>("kitherma", " by=get")), true);

}  // namespace
