// liburcu: its lock-free hash table, with a fixed number of buckets, whose nodes are reclaimed by RCU; as a set, and as a map.
#include "walk.hpp"

#define _LGPL_SOURCE // its read lock is inlined
#include <urcu.h>
#include <urcu/rculfhash.h>

namespace {

struct KeyNode {
    cds_lfht_node link;
    rcu_head head;
    uint64_t key;
};

struct EntryNode : KeyNode {
    uint64_t value;
};

KeyNode *node_of(cds_lfht_node *link) { return caa_container_of(link, KeyNode, link); }

int matches(cds_lfht_node *link, const void *key) { return node_of(link)->key == *static_cast<const uint64_t *>(key); }

template <class Node> void free_node(rcu_head *head) { delete static_cast<Node *>(caa_container_of(head, KeyNode, head)); }

struct Registered {
    Registered() { rcu_register_thread(); }
    ~Registered() { rcu_unregister_thread(); }
};
struct Reading {
    Reading() { rcu_read_lock(); }
    ~Reading() { rcu_read_unlock(); }
};

template <class Node> struct Liburcu {
    cds_lfht *table;

    explicit Liburcu(const Workload &w) : table(cds_lfht_new(w.buckets(), w.buckets(), w.buckets(), 0, nullptr)) {
        if (!table) std::perror("compare: cds_lfht_new"), std::_Exit(1);
    }
    ~Liburcu() {
        {
            Registered registered;
            walk_nodes([&](cds_lfht_node *link) {
                if (cds_lfht_del(table, link) == 0) free_later(link);
            });
        }
        rcu_barrier();
        cds_lfht_destroy(table, nullptr);
    }

    struct Handle {
        Registered registered;
        Handle(Liburcu &, unsigned) {}
    };

    // Within a read section.
    cds_lfht_node *found(uint64_t key) {
        cds_lfht_iter iter;
        cds_lfht_lookup(table, key, matches, &key, &iter);
        return cds_lfht_iter_get_node(&iter);
    }
    bool add(Node *node, uint64_t key) {
        cds_lfht_node_init(&node->link);
        node->key = key;
        bool added = cds_lfht_add_unique(table, key, matches, &key, &node->link) == &node->link;
        if (!added) delete node;
        return added;
    }
    // In one read section.
    template <class F> void walk_nodes(F each) {
        Reading reading;
        cds_lfht_iter iter;
        for (cds_lfht_first(table, &iter); cds_lfht_node *link = cds_lfht_iter_get_node(&iter); cds_lfht_next(table, &iter)) each(link);
    }
    void free_later(cds_lfht_node *link) { call_rcu(&node_of(link)->head, free_node<Node>); }
    bool take_out(cds_lfht_node *link) {
        if (!link || cds_lfht_del(table, link) != 0) return false;
        free_later(link);
        return true;
    }
};

// An insert looks first, so that a key that is there costs no memory.
struct LiburcuSet : Liburcu<KeyNode> {
    using Liburcu::Liburcu;

    bool has(Handle &, uint64_t key) {
        Reading reading;
        return found(key) != nullptr;
    }
    bool insert(Handle &, uint64_t key) {
        Reading reading;
        if (found(key)) return false;
        return add(new KeyNode, key);
    }
    bool remove(Handle &, uint64_t key) {
        Reading reading;
        return take_out(found(key));
    }
    template <class F> void walk(Handle &, F each) {
        walk_nodes([&](cds_lfht_node *link) { each(node_of(link)->key); });
    }
};

struct LiburcuMap : Liburcu<EntryNode> {
    using Liburcu::Liburcu;

    bool get(Handle &, uint64_t key, uint64_t &value) {
        Reading reading;
        cds_lfht_node *link = found(key);
        if (link) value = value_of(link);
        return link != nullptr;
    }
    bool insert(Handle &, uint64_t key, uint64_t value) {
        Reading reading;
        if (found(key)) return false;
        EntryNode *node = new EntryNode;
        node->value = value;
        return add(node, key);
    }
    bool remove(Handle &, uint64_t key, uint64_t &value) {
        Reading reading;
        cds_lfht_node *link = found(key);
        if (link) value = value_of(link);
        return take_out(link);
    }
    bool replace(Handle &, uint64_t key, uint64_t value, uint64_t &old) {
        Reading reading;
        EntryNode *node = new EntryNode;
        cds_lfht_node_init(&node->link);
        node->key = key;
        node->value = value;
        cds_lfht_node *link = cds_lfht_add_replace(table, key, matches, &key, &node->link);
        if (!link) return false;
        old = value_of(link);
        free_later(link);
        return true;
    }
    template <class F> void walk(Handle &, F each) {
        walk_nodes([&](cds_lfht_node *link) { each(node_of(link)->key, value_of(link)); });
    }

private:
    static uint64_t value_of(cds_lfht_node *link) { return static_cast<EntryNode *>(node_of(link))->value; }
};

PEER("liburcu", LiburcuSet);
MAP_PEER("liburcu", LiburcuMap, "cds_lfht_add_replace");
WALK_PEER("liburcu", LiburcuSet);
MAP_WALK_PEER("liburcu", LiburcuMap);

}  // namespace
