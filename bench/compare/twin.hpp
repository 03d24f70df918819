// A plain twin of the library, which nobody proved: a set or a map in fixed memory. On words that lie as the library's do it makes
// the library's steps, in their order and by the same tests. So a ratio of the two tells what anything else than the steps costs.
//
// A step is one sequentially consistent operation on a word. A call counts its own in `used`, and before each piece of it, which
// has up to eight, it tests whether the budget has room for them.
#pragma once
#include <algorithm>
#include <atomic>
#include <cstddef>
#include <cstdint>
#include <cstdlib>
#include <new>
#include <sys/mman.h>
#include <utility>

namespace twin {

// As vbr.h has them.
enum Answer { NO = 0, YES = 1, OTHER = 2, OUT_OF_STEPS = -1, NO_SLOT = -2, EPOCH_SPENT = -3 };

// The kinds of nodes: those of a set, a key each, and those of a map, a key and its value.
struct Keys {
    static constexpr bool VALUES = false;
};
struct Entries {
    static constexpr bool VALUES = true;
};

// What has to be there for a value to be stored.
enum class Wanted { absent, present, anything, value };

// How a link word lies: the slot that it names, counted from 1, or 0, in as many bits as the slots need; then a mark; and a version in
// the rest.
struct Layout {
    const uint64_t mark;

    explicit Layout(uint32_t slots) : mark(uint64_t{1} << (32 - __builtin_clz(slots))) {}
    uint64_t named_by(uint64_t word) const { return word & (mark - 1); }
    uint64_t link_to(uint64_t named, uint64_t holder_birth, uint64_t named_birth) const {
        return named | std::max(holder_birth, named_birth) * (2 * mark);
    }
};

constexpr uint64_t PIECE = 8;
constexpr bool affords(uint32_t budget, uint32_t used) { return used + PIECE <= budget; }

// The slots of a pass, the oldest first. Those before `first` have left, so that the oldest leaves without a move of the others.
class Pool {
    static constexpr unsigned ROOM = 128;
    unsigned first = 0, end = 0;
    uint32_t cells[ROOM];

    [[gnu::noinline]] void move_to_front() {
        std::copy(cells + first, cells + end, cells);
        end -= first;
        first = 0;
    }

public:
    unsigned size() const { return end - first; }
    uint32_t operator[](unsigned i) const { return cells[first + i]; }
    void push(uint32_t slot) {
        if (end == ROOM) move_to_front();
        cells[end++] = slot;
    }
    void remove(unsigned i) {
        if (i == 0) {
            first++;
            return;
        }
        std::copy(cells + first + i + 1, cells + end, cells + first + i);
        end--;
    }
};

// What makes calls, in one thread at a time. Each has cache lines of its own.
struct alignas(128) Pass {
    uint64_t epoch = 1, steps = 0; // the epoch that it read last, and the steps of all its calls
    uint32_t tried = 0;            // the slot that it tried last to take out of the shared pool
    uint32_t reserve = 0;          // how many slots it keeps in its own pool, as far as there are so many
    Pool pool;
};

// A place whose link word was read: a bucket's head, whose birth is 0, or a node.
struct Held {
    uint64_t place, birth, word;
    uint64_t named; // as a link has it; 0: a head
};

// What comes of the unlinking of a marked node: whether it is out, the word that stands before it now, and the steps.
struct Unlinked {
    bool is_out;
    uint64_t word;
    uint32_t made;
};

// What comes of the taking of a slot, with its birth and the steps.
struct Taken {
    Answer answer; // YES, or why there is none
    uint32_t slot;
    uint64_t birth;
    uint32_t made;
};

template <class N> class Call;

// The words: the epoch, one for the shape, the heads of the buckets, the slots, and the flags of the shared pool.
template <class N> class Table {
    friend class Call<N>;
    using Word = std::atomic<uint64_t>;

    static constexpr uint64_t EPOCH = 0, HEADS = 2;
    // in a slot, behind its link
    static constexpr uint64_t BIRTH = 1, STAMP = 2, KEY = 3, VALUE = 4, WORDS = N::VALUES ? 5 : 4;
    static constexpr unsigned POOL = 64;
    // a reserve is no more than this, and where no more than this part of it is lacking it isn't topped up; where a pass has so
    // many slots for its share it takes it at the opening
    static constexpr unsigned RESERVE = 32, PARTS = 8, SHARE = 64;

    const uint64_t slots, buckets, last_epoch, slots_at, flags_at;
    const Layout layout;
    Word *words;

public:
    Table(uint32_t slots, uint32_t buckets, uint64_t last_epoch)
        : slots(slots), buckets(buckets), last_epoch(last_epoch), slots_at(HEADS + buckets), flags_at(slots_at + WORDS * slots), layout(slots) {
        size_t count = flags_at + (slots + 63) / 64, size = count * sizeof(Word);
        void *block = std::malloc(size);
        if (!block) throw std::bad_alloc();
        offer_for_large_pages(block, size);
        words = static_cast<Word *>(block);
        for (size_t i = 0; i < count; i++) new (&words[i]) Word(0);
        words[EPOCH] = 1;
        words[1] = slots + layout.mark * last_epoch;
        for (uint32_t slot = 0; slot < slots; slot++) {
            words[link_of(slot + 1)] = layout.mark;
            words[flags_at + slot / 64] |= uint64_t{1} << slot % 64;
        }
    }
    ~Table() { std::free(words); }
    Table(const Table &) = delete;
    Table &operator=(const Table &) = delete;

    // A pass of so many: they begin to look for a slot at words of flags that lie apart. It keeps slots in reserve as a handle does.
    Pass pass(unsigned who, unsigned passes) {
        Pass pass;
        pass.reserve = static_cast<uint32_t>(std::min<uint64_t>(slots / passes / PARTS, RESERVE));
        pass.tried = static_cast<uint32_t>(who * ((slots + 63) / 64) / passes * 64);
        if (slots / passes >= SHARE) top_up(pass, pass.reserve);
        return pass;
    }

    // The calls; where nodes have no values none is stored or given. As the library's they are called as functions, which begin at
    // a line of the cache.
    [[gnu::noinline, gnu::aligned(64)]] Answer insert(Pass &pass, uint64_t key, uint64_t value, uint32_t budget) {
        uint64_t before = pass.steps;
        Answer answer = Call<N>(*this, pass, key, budget).insert(value);
        if (answer == YES) keep_reserve(pass, budget, before);
        return answer;
    }
    // Where it answers YES it gives the value.
    [[gnu::noinline, gnu::aligned(64)]] Answer remove(Pass &pass, uint64_t key, uint32_t budget, uint64_t &value) {
        return Call<N>(*this, pass, key, budget).remove(value);
    }
    // The same.
    [[gnu::noinline, gnu::aligned(64)]] Answer get(Pass &pass, uint64_t key, uint32_t budget, uint64_t &value) {
        return Call<N>(*this, pass, key, budget).template look_up<N::VALUES>(value);
    }
    [[gnu::noinline, gnu::aligned(64)]] Answer has(Pass &pass, uint64_t key, uint32_t budget) {
        uint64_t none;
        return Call<N>(*this, pass, key, budget).template look_up<false>(none);
    }
    // Where nodes have values: each gives the value that was there, unless it answers NO or is refused.
    [[gnu::noinline, gnu::aligned(64)]] Answer replace(Pass &pass, uint64_t key, uint64_t value, uint32_t budget, uint64_t &old) {
        return Call<N>(*this, pass, key, budget).template store<Wanted::present>(value, 0, old);
    }
    [[gnu::noinline, gnu::aligned(64)]] Answer put(Pass &pass, uint64_t key, uint64_t value, uint32_t budget, uint64_t &old) {
        uint64_t before = pass.steps;
        Answer answer = Call<N>(*this, pass, key, budget).template store<Wanted::anything>(value, 0, old);
        if (answer == NO) keep_reserve(pass, budget, before);
        return answer;
    }
    [[gnu::noinline, gnu::aligned(64)]] Answer get_or_insert(Pass &pass, uint64_t key, uint64_t value, uint32_t budget,
                                                             uint64_t &old) {
        uint64_t before = pass.steps;
        Answer answer = Call<N>(*this, pass, key, budget).template store<Wanted::absent>(value, 0, old);
        if (answer == NO) keep_reserve(pass, budget, before);
        return answer;
    }
    [[gnu::noinline, gnu::aligned(64)]] Answer compare_exchange(Pass &pass, uint64_t key, uint64_t expected, uint64_t value,
                                                                uint32_t budget, uint64_t &old) {
        return Call<N>(*this, pass, key, budget).template store<Wanted::value>(value, expected, old);
    }
    [[gnu::noinline, gnu::aligned(64)]] Answer remove_if(Pass &pass, uint64_t key, uint64_t expected, uint32_t budget,
                                                         uint64_t &old) {
        return Call<N>(*this, pass, key, budget).remove_if(expected, old);
    }

private:
    // As bindings/src/large_pages.c does it for the library.
    static void offer_for_large_pages(void *block, size_t size) {
        constexpr uintptr_t PAGE = uintptr_t{1} << 21;
        if (size < 2 * PAGE) return;
        uintptr_t start = reinterpret_cast<uintptr_t>(block), first = (start + PAGE - 1) & ~(PAGE - 1);
        madvise(reinterpret_cast<void *>(first), ((start + size) & ~(PAGE - 1)) - first, MADV_HUGEPAGE);
    }

    // By multiplicative hashing, as the library spreads keys with seed 0: by a shift where the buckets are a power of two.
    uint64_t head_of(uint64_t key) const {
        const uint64_t mixed = key * 0x9e3779b97f4a7c15u >> 32;
        const bool is_power = (buckets & (buckets - 1)) == 0;
        return HEADS + (is_power ? mixed >> (32 - __builtin_ctzll(buckets)) : mixed * buckets >> 32);
    }
    uint64_t link_of(uint64_t named) const { return slots_at + WORDS * (named - 1); }

    uint64_t read_epoch(Pass &pass) const {
        uint64_t now = words[EPOCH];
        if (now != pass.epoch) pass.epoch = now;
        return now;
    }

    // Unlinks a marked node behind `pred`, and retires it. Both were read in the pass's epoch.
    [[gnu::always_inline]] Unlinked unlink_and_retire(Pass &pass, const Held &pred, const Held &marked) {
        uint64_t next = layout.named_by(marked.word), birth = 0, epoch = pass.epoch;
        uint32_t made = 0;
        if (next) {
            birth = words[link_of(next) + BIRTH];
            made = 2;
            if (read_epoch(pass) != epoch) return {false, 0, made};
        }
        uint64_t expected = pred.word, link = layout.link_to(next, pred.birth, birth);
        made++;
        if (!words[pred.place].compare_exchange_strong(expected, link)) return {false, 0, made};
        return {true, link, made + retire(pass, static_cast<uint32_t>(marked.named - 1))};
    }

    // Few traversals meet a marked node, so this is a function apart from them.
    [[gnu::noinline]] Unlinked help(Pass &pass, Held pred, Held marked) { return unlink_and_retire(pass, pred, marked); }

    // Puts an unlinked slot into the own pool, or, where that is full but for one, into the shared one. Gives the steps.
    [[gnu::always_inline]] uint32_t retire(Pass &pass, uint32_t slot) {
        bool is_kept = pass.pool.size() < POOL - 1;
        words[link_of(slot + 1) + STAMP] = read_epoch(pass);
        if (is_kept) {
            pass.pool.push(slot);
            return 2;
        }
        words[flags_at + slot / 64] |= uint64_t{1} << slot % 64;
        return 3;
    }

    // Takes a slot whose stamp is below the epoch, the oldest, and gives birth there. Where the own pool is empty the slot comes
    // out of the shared one; where each is stamped with the epoch, that is advanced.
    Taken take(Pass &pass, uint32_t budget) {
        uint32_t used = 0;
        if (pass.pool.size() == 0) {
            Answer won = win_slot(pass, budget, used);
            if (won != YES) return {won, 0, 0, used};
        }
        if (!affords(budget, used)) return {OUT_OF_STEPS, 0, 0, used};
        uint64_t epoch = read_epoch(pass);
        used++;
        unsigned index = 0;
        for (; index < pass.pool.size(); index++) {
            if (!affords(budget, used)) return {OUT_OF_STEPS, 0, 0, used};
            used++;
            if (words[link_of(pass.pool[index] + uint64_t{1}) + STAMP] < epoch) break;
        }
        if (index == pass.pool.size()) {
            if (!affords(budget, used)) return {OUT_OF_STEPS, 0, 0, used};
            if (epoch == last_epoch) return {EPOCH_SPENT, 0, 0, used};
            words[EPOCH].compare_exchange_strong(epoch, epoch + 1);
            read_epoch(pass);
            used += 2;
            index = 0;
        }
        if (!affords(budget, used)) return {OUT_OF_STEPS, 0, 0, used};
        uint32_t slot = pass.pool[index];
        pass.pool.remove(index);
        words[link_of(slot + uint64_t{1}) + BIRTH] = pass.epoch;
        return {YES, slot, pass.epoch, used + 1};
    }

    // After a call that added a key: takes slots out of the shared pool up to the reserve of the pass, in a few tries, and in no more
    // than the steps that the call left of its budget. The pass had made so many when it began.
    [[gnu::always_inline]] void keep_reserve(Pass &pass, uint32_t budget, uint64_t before) {
        if (pass.pool.size() + pass.reserve / PARTS >= pass.reserve) return;
        uint64_t used = pass.steps - before, left = used < budget ? budget - used : 0;
        top_up(pass, std::min<uint64_t>(left, pass.reserve / PARTS + 1));
    }

    // Goes on after the slot tried last: up to the last one, and then from the first.
    [[gnu::noinline]] void top_up(Pass &pass, uint64_t tries) {
        uint32_t start = pass.tried + 1;
        tries -= top_up_from(pass, start, static_cast<uint32_t>(slots), tries);
        top_up_from(pass, 0, start, tries);
    }

    // Tries the slots from one up to another. Gives how many tries it made.
    uint64_t top_up_from(Pass &pass, uint32_t from, uint32_t to, uint64_t tries) {
        uint64_t made = 0;
        for (uint32_t slot = from; slot < to && made < tries && pass.pool.size() < pass.reserve;) {
            made++;
            uint64_t flag = uint64_t{1} << slot % 64, found = words[flags_at + slot / 64].fetch_and(~flag);
            pass.tried = slot;
            pass.steps++;
            if (found & flag) {
                pass.pool.push(slot++);
                continue;
            }
            uint64_t behind = found >> slot % 64;
            slot = behind ? slot + static_cast<uint32_t>(__builtin_ctzll(behind)) : (slot / 64 + 1) * 64;
        }
        return made;
    }

    // Takes a slot out of the shared pool: goes once round the flag words, from that of the slot tried last.
    Answer win_slot(Pass &pass, uint32_t budget, uint32_t &used) {
        uint32_t start = pass.tried / 64 * 64, slot = start, end = static_cast<uint32_t>(slots);
        while (slot < end) {
            if (!affords(budget, used)) return OUT_OF_STEPS;
            used++;
            uint64_t flag = uint64_t{1} << slot % 64, found = words[flags_at + slot / 64].fetch_and(~flag);
            pass.tried = slot;
            if (found & flag) {
                pass.pool.push(slot);
                return YES;
            }
            slot = slot / 64 * 64 + (found ? static_cast<uint32_t>(__builtin_ctzll(found)) : 64);
            if (slot >= slots) {
                slot = 0;
                end = start;
            }
        }
        return NO_SLOT;
    }
};

// A call in progress. It has copies of what it looks at often, and counts its steps in the pass when it ends.
template <class N> class Call {
    using Words = Table<N>;

    Words &table;
    Pass &pass;
    std::atomic<uint64_t> *const words;
    const Layout layout;
    const uint64_t slots_at, key, head;
    const uint32_t budget;
    uint32_t used = 0;
    uint64_t epoch;

    // How a walk ends.
    enum class End { there, again, tired };
    // What a node is.
    enum class Node { unreadable, marked, smaller, beyond };

    // The last unmarked place before the key, and the node behind it, if there is one: `present`: with the key.
    struct Found {
        Held pred, cur;
        bool present;
    };

public:
    [[gnu::always_inline]] Call(Words &table, Pass &pass, uint64_t key, uint32_t budget)
        : table(table), pass(pass), words(table.words), layout(table.layout), slots_at(table.slots_at), key(key), head(table.head_of(key)),
          budget(budget), epoch(pass.epoch) {}
    [[gnu::always_inline]] ~Call() { pass.steps += used; }

    template <bool GIVES> [[gnu::always_inline]] Answer look_up(uint64_t &value) {
        for (;;) {
            Found found;
            End end = look(found);
            if (end == End::again) continue;
            if (end == End::tired || !is_affordable()) return OUT_OF_STEPS;
            if (GIVES && found.present) {
                uint64_t here = load(found.cur.place + Words::VALUE);
                used += 2;
                if (!epoch_stays()) continue;
                if (!stands(found.cur)) continue;
                value = here;
                return YES;
            }
            // which of the two it is can't be foreseen, so it is chosen without a branch
            uint64_t mask = GIVES ? 0 : -static_cast<uint64_t>(found.present);
            uint64_t place = found.pred.place ^ ((found.pred.place ^ found.cur.place) & mask);
            uint64_t word = found.pred.word ^ ((found.pred.word ^ found.cur.word) & mask);
            used++;
            if (load(place) == word) return found.present ? YES : NO;
        }
    }

    [[gnu::always_inline]] Answer remove(uint64_t &value) {
        for (;;) {
            Found found;
            if (!search(found) || !is_affordable()) return OUT_OF_STEPS;
            if (!found.present) {
                if (stands(found.pred)) return NO;
                continue;
            }
            uint64_t here = 0;
            if (N::VALUES) {
                here = load(found.cur.place + Words::VALUE);
                used += 2;
                if (!epoch_stays()) continue;
            }
            if (!exchange(found.cur.place, found.cur.word, found.cur.word | layout.mark)) continue;
            if (N::VALUES) value = here;
            found.cur.word |= layout.mark;
            if (is_affordable()) unlink_marked(found);
            return YES;
        }
    }

    [[gnu::always_inline]] Answer insert(uint64_t value) {
        for (;;) {
            Found found;
            if (!search(found)) return OUT_OF_STEPS;
            if (!found.present) break;
            if (!is_affordable()) return OUT_OF_STEPS;
            if (stands(found.cur)) return NO;
        }
        Taken hand = take();
        return hand.answer == YES ? link(value, hand) : hand.answer;
    }

    // Stores a value where what is there is as wanted, else answers a get.
    template <Wanted WANTED> [[gnu::always_inline]] Answer store(uint64_t value, uint64_t expected, uint64_t &old) {
        while (WANTED != Wanted::anything) {
            Found found;
            if (!search(found)) return OUT_OF_STEPS;
            if (WANTED != Wanted::value && found.present == (WANTED == Wanted::present)) break;
            if (!is_affordable()) return OUT_OF_STEPS;
            uint64_t here = 0;
            if (!read_value(found, here)) continue;
            if (wants<WANTED>(found.present, here, expected)) break;
            if (stands(found.present ? found.cur : found.pred)) return told<WANTED>(found.present, here, expected, old);
        }
        Taken hand = take();
        return hand.answer == YES ? store_by<WANTED>(value, expected, hand, old) : hand.answer;
    }

    [[gnu::always_inline]] Answer remove_if(uint64_t expected, uint64_t &old) {
        for (;;) {
            Found found;
            if (!search(found) || !is_affordable()) return OUT_OF_STEPS;
            uint64_t here = 0;
            if (!read_value(found, here)) continue;
            bool takes_out = found.present && here == expected;
            if (takes_out) {
                if (!exchange(found.cur.place, found.cur.word, found.cur.word | layout.mark)) continue;
                found.cur.word |= layout.mark;
                if (is_affordable()) unlink_marked(found);
            } else if (!stands(found.present ? found.cur : found.pred)) {
                continue;
            }
            return told<Wanted::value>(found.present, here, expected, old);
        }
    }

private:
    bool is_affordable() const { return affords(budget, used); }
    uint64_t load(uint64_t place) const { return words[place]; }
    uint64_t link_of(uint64_t named) const { return slots_at + Words::WORDS * (named - 1); }

    // Reads the epoch: whether it is the one of before.
    bool epoch_stays() {
        uint64_t now = load(Words::EPOCH);
        if (now == epoch) return true;
        epoch = pass.epoch = now;
        return false;
    }

    // Reads the value of the node that was found, if the key is there; whether the epoch stayed.
    [[gnu::always_inline]] bool read_value(const Found &found, uint64_t &here) {
        if (!found.present) return true;
        here = load(found.cur.place + Words::VALUE);
        used += 2;
        return epoch_stays();
    }

    template <Wanted WANTED> static bool wants(bool present, uint64_t here, uint64_t expected) {
        switch (WANTED) {
        case Wanted::absent: return !present;
        case Wanted::present: return present;
        case Wanted::anything: return true;
        case Wanted::value: return present && here == expected;
        }
    }

    // The answer of a call that found this, and what was there.
    template <Wanted WANTED> static Answer told(bool present, uint64_t here, uint64_t expected, uint64_t &old) {
        if (!present) return NO;
        old = here;
        return WANTED != Wanted::value || here == expected ? YES : OTHER;
    }

    // A step: whether the link of a place is as it was read.
    bool stands(const Held &held) {
        used++;
        return load(held.place) == held.word;
    }

    bool exchange(uint64_t place, uint64_t expected, uint64_t word) {
        used++;
        return words[place].compare_exchange_strong(expected, word);
    }

    // Takes a slot with what is left of the budget.
    [[gnu::always_inline]] Taken take() {
        Taken hand = table.take(pass, budget - used);
        used += hand.made;
        epoch = pass.epoch;
        return hand;
    }

    // Reads the epoch and the head of the bucket: whether the epoch stayed.
    [[gnu::always_inline]] bool start(Held &place) {
        epoch_stays();
        place = {head, 0, load(head), 0};
        used += 3;
        return epoch_stays();
    }

    // Reads the node that a link names; whether it has the key.
    [[gnu::always_inline]] Node visit(uint64_t link, Held &node, bool &present) {
        node.named = layout.named_by(link);
        node.place = link_of(node.named);
        node.birth = load(node.place + Words::BIRTH);
        node.word = load(node.place);
        used += 3;
        if (!epoch_stays()) return Node::unreadable;
        if (node.word & layout.mark) return Node::marked;
        uint64_t here = load(node.place + Words::KEY);
        used += 2;
        if (!epoch_stays()) return Node::unreadable;
        if (here < key) return Node::smaller;
        present = here == key;
        return Node::beyond;
    }

    // One walk of a look-up: past marked nodes, by their links.
    [[gnu::always_inline]] End look(Found &found) {
        if (!is_affordable()) return End::tired;
        if (!start(found.pred)) return End::again;
        found.cur = {found.pred.place, 0, 0, 0};
        found.present = false;
        for (uint64_t link = found.pred.word; layout.named_by(link); link = found.cur.word) {
            if (!is_affordable()) return End::tired;
            switch (visit(link, found.cur, found.present)) {
            case Node::unreadable: return End::again;
            case Node::beyond: return End::there;
            case Node::smaller: found.pred = found.cur; break;
            case Node::marked: break;
            }
        }
        return End::there;
    }

    // One traversal of an update: it takes the marked nodes that it meets out of the list.
    [[gnu::always_inline]] End traverse(Found &found) {
        if (!is_affordable()) return End::tired;
        if (!start(found.pred)) return End::again;
        found.cur = {};
        found.present = false;
        while (layout.named_by(found.pred.word)) {
            if (!is_affordable()) return End::tired;
            switch (visit(found.pred.word, found.cur, found.present)) {
            case Node::unreadable: return End::again;
            case Node::beyond: return End::there;
            case Node::smaller: found.pred = found.cur; break;
            case Node::marked:
                if (!is_affordable()) return End::tired;
                if (!help(found)) return End::again;
            }
        }
        found.cur = {};
        return End::there;
    }

    // Whether the traversal goes on behind the same place.
    [[gnu::always_inline]] bool help(Found &found) {
        Unlinked outcome = table.help(pass, found.pred, found.cur);
        used += outcome.made;
        found.pred.word = outcome.word;
        uint64_t before = epoch;
        epoch = pass.epoch;
        return outcome.is_out && epoch == before;
    }

    // Traverses until it comes to the key; whether the budget was enough.
    [[gnu::always_inline]] bool search(Found &found) {
        for (;;) {
            End end = traverse(found);
            if (end != End::again) return end == End::there;
        }
    }

    // Takes the node that was marked out of its list; where another comes between, walks until it is out.
    [[gnu::always_inline]] void unlink_marked(const Found &found) {
        Unlinked outcome = table.unlink_and_retire(pass, found.pred, found.cur);
        used += outcome.made;
        if (!outcome.is_out) used = walk_apart(table, pass, key, budget, used);
    }

    // Few removes lose their unlinking, so this is a function apart from them. Gives the steps used then.
    [[gnu::noinline, gnu::cold]] static uint32_t walk_apart(Words &table, Pass &pass, uint64_t key, uint32_t budget, uint32_t used) {
        Call call(table, pass, key, budget);
        Found found;
        call.used = used;
        call.search(found);
        return std::exchange(call.used, 0); // its caller counts them
    }

    // Links the slot in hand, or answers no where the key has come meanwhile.
    [[gnu::always_inline]] Answer link(uint64_t value, const Taken &hand) {
        for (;;) {
            Found found;
            if (!search(found) || !is_affordable()) return given_back(hand, OUT_OF_STEPS);
            if (found.present) {
                if (stands(found.cur)) return given_back(hand, NO);
                continue;
            }
            if (publish(value, hand, found)) return YES;
        }
    }

    // Links the slot in hand where the key was found absent; whether nothing came between.
    [[gnu::always_inline]] bool publish(uint64_t value, const Taken &hand, const Found &found) {
        const uint64_t named = hand.slot + uint64_t{1}, place = link_of(named);
        words[place + Words::KEY] = key;
        if (N::VALUES) words[place + Words::VALUE] = value;
        words[place] = layout.link_to(layout.named_by(found.pred.word), hand.birth, found.cur.birth);
        used += N::VALUES ? 3 : 2;
        return exchange(found.pred.place, found.pred.word, layout.link_to(named, found.pred.birth, hand.birth));
    }

    // Stores a value by the slot in hand where what is there is as wanted then, else answers a get.
    template <Wanted WANTED>
    [[gnu::always_inline]] Answer store_by(uint64_t value, uint64_t expected, const Taken &hand, uint64_t &old) {
        for (;;) {
            Found found;
            if (!search(found) || !is_affordable()) return given_back(hand, OUT_OF_STEPS);
            uint64_t here = 0;
            if (!read_value(found, here)) continue;
            if (!wants<WANTED>(found.present, here, expected)) {
                if (!stands(found.present ? found.cur : found.pred)) continue;
                return given_back(hand, told<WANTED>(found.present, here, expected, old));
            }
            if (!(found.present ? take_place(value, hand, found.cur) : publish(value, hand, found))) continue;
            if (found.present && is_affordable()) unlink_marked(found);
            return told<WANTED>(found.present, here, expected, old);
        }
    }

    // Marks the node of the key and links the slot in hand behind it; whether nothing came between. Its link is the marked one then.
    [[gnu::always_inline]] bool take_place(uint64_t value, const Taken &hand, Held &node) {
        const uint64_t named = hand.slot + uint64_t{1}, place = link_of(named), next = layout.named_by(node.word);
        uint64_t birth = 0;
        if (next) {
            birth = load(link_of(next) + Words::BIRTH);
            used += 2;
            if (!epoch_stays()) return false;
        }
        words[place + Words::KEY] = key;
        words[place + Words::VALUE] = value;
        words[place] = layout.link_to(next, hand.birth, birth);
        used += 3;
        uint64_t marked = layout.mark | layout.link_to(named, node.birth, hand.birth);
        if (!exchange(node.place, node.word, marked)) return false;
        node.word = marked;
        return true;
    }

    Answer given_back(const Taken &hand, Answer answer) {
        pass.pool.push(hand.slot);
        return answer;
    }
};

}  // namespace twin
