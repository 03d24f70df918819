// A cache over liburcu's lock-free hash table, with a CLOCK whose hand all threads share.
#include "cache.hpp"

#define _LGPL_SOURCE // its read lock is inlined
#include <urcu.h>
#include <urcu/rculfhash.h>

namespace {

struct Node {
    cds_lfht_node link;
    rcu_head head;
    uint64_t key;
    CacheValue value;
    std::atomic<bool> is_used{false};

    Node(uint64_t of, const CacheValue &with) : key(of), value(with) { cds_lfht_node_init(&link); }
};

Node *node_of(cds_lfht_node *link) { return caa_container_of(link, Node, link); }

int matches(cds_lfht_node *link, const void *key) { return node_of(link)->key == *static_cast<const uint64_t *>(key); }

void free_node(rcu_head *head) { delete caa_container_of(head, Node, head); }

struct Reading {
    Reading() { rcu_read_lock(); }
    ~Reading() { rcu_read_unlock(); }
};

class LiburcuCache {
    using Place = std::atomic<Node *>;

    cds_lfht *table;
    std::vector<Place> places; // of each entry one, which the hand goes over
    alignas(128) std::atomic<size_t> hand{0};

    // What stands in a place that a call has taken.
    static Node *taken() {
        static Node node(0, {});
        return &node;
    }

    void take_out(Node *node) {
        cds_lfht_del(table, &node->link);
        call_rcu(&node->head, free_node);
    }

    // A place for this call alone, whose entry is out. Within a read section.
    Place &take_place() {
        for (;;) {
            Place &place = places[hand.fetch_add(1, std::memory_order_relaxed) % places.size()];
            Node *there = place.load(std::memory_order_acquire);
            if (there == taken()) continue;
            if (there && there->is_used.load(std::memory_order_relaxed)) {
                there->is_used.store(false, std::memory_order_relaxed);
                continue;
            }
            if (!place.compare_exchange_strong(there, taken())) continue;
            if (there) take_out(there);
            return place;
        }
    }

    static size_t buckets(const Workload &w) {
        size_t buckets = 1;
        while (buckets < w.entries) buckets *= 2;
        return buckets;
    }

public:
    explicit LiburcuCache(const Workload &w) : table(cds_lfht_new(buckets(w), buckets(w), buckets(w), 0, nullptr)), places(w.entries) {
        if (!table) std::perror("compare: cds_lfht_new"), std::_Exit(1);
    }
    ~LiburcuCache() {
        {
            Handle handle(*this, 0);
            Reading reading;
            for (Place &place : places)
                if (Node *node = place) take_out(node);
        }
        rcu_barrier();
        cds_lfht_destroy(table, nullptr);
    }

    struct Handle {
        Handle(LiburcuCache &, unsigned) { rcu_register_thread(); }
        ~Handle() { rcu_unregister_thread(); }
    };

    template <class Use> bool get(Handle &, uint64_t key, Use use) {
        CacheValue copy;
        {
            Reading reading;
            cds_lfht_iter iter;
            cds_lfht_lookup(table, key, matches, &key, &iter);
            cds_lfht_node *link = cds_lfht_iter_get_node(&iter);
            if (!link) return false;
            Node *node = node_of(link);
            copy = node->value;
            if (!node->is_used.load(std::memory_order_relaxed)) node->is_used.store(true, std::memory_order_relaxed);
        }
        use(copy);
        return true;
    }
    void insert(Handle &, uint64_t key, const CacheValue &value) {
        Node *node = new Node(key, value);
        Reading reading;
        Place &place = take_place();
        const bool is_in = cds_lfht_add_unique(table, key, matches, &key, &node->link) == &node->link;
        place.store(is_in ? node : nullptr, std::memory_order_release);
        if (!is_in) delete node;
    }
};

CACHE_PEER("liburcu", LiburcuCache);

}  // namespace
