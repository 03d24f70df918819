/* Handles that are lent: for programs whose threads come and go, or outnumber the handles of a set. A lender has open handles. A thread
   that wants to make calls borrows one, and gives it back. Here the end of its loan does so. This header is for C++17 and later, and
   vbr.hpp includes it.

       vbr::lender lender(vbr::open(shape, 3).value());
       vbr::loan mine = lender.lend();                        // in any thread; none: all are lent at the moment
       vbr::loan waited = lender.lend_wait();                 // as soon as one is free
       vbr::loan in_time = lender.lend_for(10ms);             // none: all were lent until the time was over
       vbr::owned_loan task = lender.lend_owned_wait();       // for a task that may outlive the lender
       vbr::result<void> renewed = lender.renew(shape);       // as soon as all loans are back
       auto closed = lender.close();                          // all handles or none: the report is **closed

   A waiting thread sleeps on a condition variable, which a return touches only if a thread waits. So a signal handler borrows nothing. A
   program that runs for long renews before the last epoch is spent, from any thread that has no loan.

   A lender may be moved while there are loans. These end before the lender that then has the handles; an owned loan may outlive it. */
#ifndef VBR_LEND_HPP
#define VBR_LEND_HPP

#include "vbr.hpp"

#include <chrono>
#include <condition_variable>
#include <memory>
#include <mutex>
#if defined(__linux__) && __has_include(<linux/membarrier.h>)
#include <linux/membarrier.h>
#include <sys/syscall.h>
#include <unistd.h>
#define VBR_HAS_MEMBARRIER
#endif

namespace vbr {

namespace detail {

/* Has each running thread of the program pass a memory barrier: what it stored before can be loaded now, and what it loads
   afterwards is what this thread stored before, or later. It says whether the system has done so. */
inline bool fence_all_threads() noexcept {
#ifdef VBR_HAS_MEMBARRIER
    static const bool registered = ::syscall(SYS_membarrier, MEMBARRIER_CMD_REGISTER_PRIVATE_EXPEDITED, 0, 0) == 0;
    return registered && ::syscall(SYS_membarrier, MEMBARRIER_CMD_PRIVATE_EXPEDITED, 0, 0) == 0;
#else
    return false;
#endif
}
#undef VBR_HAS_MEMBARRIER

/* A moment to wait for, or none: for ever. */
using deadline = std::optional<std::chrono::steady_clock::time_point>;

template <class Rep, class Period>
deadline after(const std::chrono::duration<Rep, Period> &limit) {
    using clock = std::chrono::steady_clock;
    if (limit > std::chrono::hours(24 * 365 * 100)) return std::nullopt;
    return clock::now() + std::chrono::ceil<clock::duration>(limit);
}

/* The threads that wait. A thread that gives something back makes no atomic exchange for them: it stores what it gives back, and then
   loads how many wait. So that one of the two sees the other, a thread that begins to wait has all threads pass a memory barrier. */
class waiters {
public:
    /* Wakes a thread that waits for one thing, if there is one, and those that wait for all: after something was given back, by a
       store. */
    void wake_one() noexcept {
        std::atomic_signal_fence(std::memory_order_seq_cst);
        if (count.load(std::memory_order_relaxed) == 0) return;
        std::lock_guard<std::mutex> guard(lock);
        if (for_all > 0) changed.notify_all();
        else changed.notify_one();
    }

    void wake_all() noexcept {
        std::lock_guard<std::mutex> guard(lock);
        changed.notify_all();
    }

    /* Waits until this is so, or the time is over. If the system has no such barrier a thread looks again each millisecond. No two
       threads look at the same time. */
    template <class Condition>
    void wait(const deadline &until, const Condition &is_so) {
        std::unique_lock<std::mutex> guard(lock);
        wait_by(guard, until, is_so);
    }

    /* The same for what needs more than one thing that is given back. */
    template <class Condition>
    void wait_for_all(const deadline &until, const Condition &is_so) {
        std::unique_lock<std::mutex> guard(lock);
        for_all++;
        wait_by(guard, until, is_so);
        for_all--;
    }

private:
    static bool is_over(const deadline &until) noexcept { return until && std::chrono::steady_clock::now() >= *until; }

    template <class Condition>
    void wait_by(std::unique_lock<std::mutex> &guard, const deadline &until, const Condition &is_so) {
        count.fetch_add(1);
        bool naps = !fence_all_threads();
        while (!is_so() && !is_over(until)) {
            if (naps) changed.wait_for(guard, std::chrono::milliseconds(1));
            else if (until) changed.wait_until(guard, *until);
            else changed.wait(guard);
        }
        count.fetch_sub(1);
    }

    std::atomic<std::size_t> count{0};
    std::size_t for_all = 0; /* how many of them wait for all */
    std::mutex lock;
    std::condition_variable changed;
};

/* The last epoch that a set of this shape has. */
constexpr std::uint64_t last_epoch_of(const shape &it) noexcept {
    return it.last_epoch == max_epoch && max_epoch_for(it.slots) < max_epoch ? max_epoch_for(it.slots) : it.last_epoch;
}

constexpr bool is_in_range(const shape &it) noexcept {
    return it.slots - 1 < max_slots && it.buckets - 1 < max_buckets && last_epoch_of(it) - 1 < max_epoch_for(it.slots);
}

/* The number of the handle that this thread was lent last, by any lender: it tries that one first. So threads that are no more than
   handles come to have one each, and no two write the same cache line. */
inline thread_local std::size_t lent_last = 0;

/* The shape of a set, with the seed and the budget that were asked for if any were; a renewal changes it while other threads read it. */
class shared_shape {
public:
    void set(const shape &to) noexcept {
        of_slots.store(to.slots, std::memory_order_relaxed);
        of_buckets.store(to.buckets, std::memory_order_relaxed);
        of_epoch.store(last_epoch_of(to), std::memory_order_relaxed);
        is_seeded.store(to.seed.has_value(), std::memory_order_relaxed);
        of_seed.store(to.seed.value_or(0), std::memory_order_relaxed);
        is_budgeted.store(to.steps.has_value(), std::memory_order_relaxed);
        of_steps.store(to.steps ? to.steps->count() : 0, std::memory_order_relaxed);
    }
    std::uint32_t slots() const noexcept { return of_slots.load(std::memory_order_relaxed); }
    std::uint32_t buckets() const noexcept { return of_buckets.load(std::memory_order_relaxed); }
    std::uint64_t last_epoch() const noexcept { return of_epoch.load(std::memory_order_relaxed); }
    bool is(const shape &other) const noexcept {
        return slots() == other.slots && buckets() == other.buckets && last_epoch() == last_epoch_of(other) && has_seed_of(other) &&
               has_steps_of(other);
    }

private:
    bool has_seed_of(const shape &other) const noexcept {
        return is_seeded.load(std::memory_order_relaxed) == other.seed.has_value() &&
               of_seed.load(std::memory_order_relaxed) == other.seed.value_or(0);
    }

    bool has_steps_of(const shape &other) const noexcept {
        return is_budgeted.load(std::memory_order_relaxed) == other.steps.has_value() &&
               of_steps.load(std::memory_order_relaxed) == (other.steps ? other.steps->count() : 0);
    }

    std::atomic<std::uint32_t> of_slots{0}, of_buckets{0}, of_steps{0};
    std::atomic<std::uint64_t> of_epoch{0}, of_seed{0};
    std::atomic<bool> is_seeded{false}, is_budgeted{false};
};

/* A handle, and whether it is lent, on cache lines of their own; and on another one how many keys the handle has added, as of its last
   return. Its balance may lack some of them since a renewal: so many are carried. */
template <class Handle>
struct alignas(128) place {
    std::atomic<bool> is_lent{false};
    Handle handle;
    std::int64_t carried = 0;
    alignas(64) std::atomic<std::int64_t> keys{0};

    /* Whether the handle was free; it is lent then. */
    bool take() noexcept { return !is_lent.load(std::memory_order_relaxed) && !is_lent.exchange(true, std::memory_order_acquire); }

    void tell_keys() noexcept {
        const std::int64_t now = carried + handle.balance();
        if (now != keys.load(std::memory_order_relaxed)) keys.store(now, std::memory_order_relaxed);
    }
};

/* The handles of a lender, which stay where they are. */
template <class Handle>
class lending {
public:
    using place_type = place<Handle>;

    /* Keeps handles of one set: those that are open, and of the set of the first of them. The others stay in the vector. If there is
       no memory for their places all do. */
    void keep(std::vector<Handle> &handles) {
        std::size_t kept = 0;
        places = std::make_unique<place_type[]>(handles.size());
        for (Handle &each : handles)
            if (each.is_open() && (kept == 0 || each.shared == places[0].handle.shared)) places[kept++].handle = std::move(each);
        for (std::size_t i = 0; i < kept; i++) places[i].tell_keys();
        if (kept > 0) opened.set({places[0].handle.slots(), places[0].handle.buckets(), places[0].handle.last_epoch()});
        count.store(kept, std::memory_order_relaxed);
        lends.store(kept, std::memory_order_release);
    }

    std::size_t handles() const noexcept { return count.load(std::memory_order_relaxed); }
    std::size_t on_loan() const noexcept {
        std::size_t out = 0;
        for (std::size_t i = withheld.load(std::memory_order_relaxed); i < handles(); i++) out += places[i].is_lent.load(std::memory_order_relaxed);
        return out;
    }
    /* How many keys are in, as of the last returns. */
    std::int64_t count_about() const noexcept {
        const std::int64_t keys = sum_of([](const place_type &each) { return each.keys.load(std::memory_order_relaxed); });
        return keys > 0 ? keys : 0;
    }

    const shared_shape &opened_with() const noexcept { return opened; }
    std::size_t number_of(const place_type *place) const noexcept { return static_cast<std::size_t>(place - places.get()); }

    /* A free handle, which is lent now, or none if each was lent at a moment of the call, or none is to be lent. */
    place_type *take() noexcept {
        std::size_t last = lent_last;
        if (last < lends.load(std::memory_order_relaxed) && places[last].take()) return &places[last];
        return take_another(last);
    }

    /* The same as soon as there is one, or none if the time is over first, or there are no handles any more. */
    place_type *take(const deadline &until) {
        place_type *taken = nullptr;
        waiting.wait(until, [&] { return (taken = take()) || handles() == 0; });
        return taken;
    }

    void give_back(place_type &place) noexcept {
        place.tell_keys();
        place.is_lent.store(false, std::memory_order_release);
        waiting.wake_one();
    }

    /* Closes all handles or none of them. */
    result<std::optional<typename Handle::report_type>> close() {
        const std::size_t all = handles();
        if (all == 0) return refusal::no_handle;
        all_taken taken(*this, all);
        if (taken.count < all) return refusal::on_loan;
        auto told = Handle::close_all(all, [this](std::size_t number) -> Handle & { return places[number].handle; });
        if (told != refusal::no_memory) end();
        return told;
    }

    /* Ends all handles or none of them. */
    result<void> end_all() noexcept {
        const std::size_t all = handles();
        if (all == 0) return refusal::no_handle;
        all_taken taken(*this, all);
        if (taken.count < all) return refusal::on_loan;
        for (std::size_t i = 0; i < all; i++) places[i].handle = Handle();
        end();
        return result<void>(std::in_place);
    }

    /* Lets the handles go on over a fresh set of this shape, once all loans are back, if they are before the time is over. */
    result<void> renew(const shape &wanted, const deadline &until) {
        return renew_by(renewed(), wanted, until, renewal_to(wanted));
    }

    /* How often it was renewed: of a thread with a loan, which no renewal overtakes, it is the number of the one that it is of. */
    std::size_t renewed() const noexcept { return renewals.load(std::memory_order_relaxed); }

    /* The same if it was renewed that often: any later renewal serves. */
    result<void> renew_once(std::size_t before, const shape &wanted) {
        return renew_unless([&] { return renewed() != before; }, wanted, std::nullopt, renewal_to(wanted));
    }

    /* Whether a thread renews, or waits until it may. */
    bool is_renewing() const noexcept { return lends.load(std::memory_order_relaxed) == 0; }

    /* The same by this renewal, which is given how many handles there are, and each by its number; unless it was renewed to this shape since
       there were so many renewals. */
    template <class Renewal>
    result<void> renew_by(std::size_t before, const shape &wanted, const deadline &until, const Renewal &renews) {
        return renew_unless([&] { return renewed() != before && opened.is(wanted); }, wanted, until, renews);
    }

private:
    static auto renewal_to(const shape &wanted) noexcept {
        return [&wanted](std::size_t all, const auto &nth) { return Handle::renew_all(all, nth, wanted); };
    }

    /* The same unless another thread has done it, as far as `is_done` says while no renewal is under way. */
    template <class Done, class Renewal>
    result<void> renew_unless(const Done &is_done, const shape &wanted, const deadline &until, const Renewal &renews) {
        if (!is_in_range(wanted)) return refusal::bad_shape;
        renewal mine(*this);
        bool is_done_by_another = false;
        waiting.wait_for_all(until, [&] {
            const bool no_other_has_its_turn = lends.load(std::memory_order_acquire) > 0;
            is_done_by_another = no_other_has_its_turn && is_done();
            if (is_done_by_another || handles() == 0) return true;
            if (!mine.takes_all()) return false;
            is_done_by_another = is_done(); // another one may have ended just before
            return true;
        });
        if (is_done_by_another) return result<void>(std::in_place);
        if (handles() == 0) return refusal::no_handle;
        if (!mine.has_all()) return refusal::on_loan;
        result<void> told = renews(handles(), [this](std::size_t number) -> Handle & { return places[number].handle; });
        recount();
        if (told) {
            opened.set(wanted);
            renewals.fetch_add(1, std::memory_order_relaxed);
        }
        return told;
    }

    template <class Number>
    std::int64_t sum_of(const Number &number) const noexcept {
        std::int64_t sum = 0;
        for (std::size_t i = 0; i < handles(); i++) sum += number(places[i]);
        return sum;
    }

    /* Makes the keys those of the balances, by one store, so that no return changes them: while all handles are with this thread. */
    void recount() noexcept {
        auto keys = [](const place_type &each) { return each.keys.load(std::memory_order_relaxed); };
        auto balance = [](const place_type &each) { return each.handle.balance(); };
        const std::int64_t lacking = sum_of(balance) - sum_of(keys);
        if (lacking != 0) places[0].keys.store(keys(places[0]) + lacking, std::memory_order_relaxed);
        for (std::size_t i = 0; i < handles(); i++) places[i].carried = keys(places[i]) - balance(places[i]);
    }

    /* A renewal: while it has its turn it lends no handle, and takes each that is free. At its end all are lent again. */
    struct renewal {
        explicit renewal(lending &lender) noexcept : of(lender) {}
        renewal(const renewal &) = delete;
        renewal &operator=(const renewal &) = delete;
        ~renewal() {
            if (!has_turn) return;
            of.lends.store(of.handles(), std::memory_order_release);
            if (taken > 0) of.withheld.store(0, std::memory_order_relaxed);
            for (std::size_t i = 0; i < taken; i++) of.places[i].is_lent.store(false, std::memory_order_release);
            of.waiting.wake_all();
        }

        /* Whether it has all handles now. */
        bool takes_all() noexcept {
            std::size_t all = of.handles();
            has_turn = has_turn || of.lends.compare_exchange_strong(all, 0, std::memory_order_acquire, std::memory_order_relaxed);
            while (has_turn && !has_all() && of.places[taken].take()) of.withheld.store(++taken, std::memory_order_relaxed);
            return has_all();
        }
        bool has_all() const noexcept { return taken > 0 && taken == of.handles(); }

        lending &of;
        bool has_turn = false;
        std::size_t taken = 0;
    };

    /* Handles that are taken one after another, until one is lent, and are given back at the end of this, unless they were closed. */
    struct all_taken {
        all_taken(lending &lender, std::size_t all) noexcept : of(lender) {
            while (count < all && of.places[count].take()) of.withheld.store(++count, std::memory_order_relaxed);
        }
        all_taken(const all_taken &) = delete;
        all_taken &operator=(const all_taken &) = delete;
        ~all_taken() {
            if (count > 0) of.withheld.store(0, std::memory_order_relaxed);
            for (std::size_t i = 0; i < count && of.handles() > 0; i++) of.give_back(of.places[i]);
        }

        lending &of;
        std::size_t count = 0;
    };

    /* The same by a thread that isn't lent the one it had last. */
    place_type *take_another(std::size_t last) noexcept {
        for (std::size_t i = 1, all = lends.load(std::memory_order_relaxed); i <= all; i++) {
            std::size_t number = (last + i) % all;
            if (!places[number].take()) continue;
            lent_last = number;
            return &places[number];
        }
        return nullptr;
    }

    /* There are no handles any more; threads that wait return without one. */
    void end() noexcept {
        count.store(0, std::memory_order_relaxed);
        lends.store(0, std::memory_order_relaxed);
        waiting.wake_all();
    }

    std::atomic<std::size_t> count{0};
    std::atomic<std::size_t> lends{0}; /* how many handles may be lent: all, or 0 during a renewal */
    std::atomic<std::size_t> renewals{0};
    std::atomic<std::size_t> withheld{0}; /* so many, the first ones, are with whoever takes all of them, and on loan to nobody */
    shared_shape opened;
    waiters waiting;
    std::unique_ptr<place_type[]> places;
};

} // namespace detail

/* A handle on loan. It goes back at the end of this, in whatever thread, and what was done with it comes before what the next borrower
   does.

   It has the handle's pass, which makes all calls and doesn't close. So the handle stays where it is. There may be none: it is tested by
   `if (loan)`, and used as a pointer to the pass.

       vbr::loan mine = lender.lend();
       if (!mine) { // all are lent at the moment */
template <class Handle, class Owner>
class [[nodiscard]] basic_loan {
public:
    using pass_type = typename Handle::pass_type;

    basic_loan() noexcept = default;
    basic_loan(basic_loan &&other) noexcept : owner(std::move(other.owner)), place(std::exchange(other.place, nullptr)) {}
    ~basic_loan() { give_back(); }

    /* Gives back what it has before it takes the other one.

           mine = vbr::loan(); // given back */
    basic_loan &operator=(basic_loan &&other) noexcept {
        if (this != &other) {
            give_back();
            owner = std::move(other.owner);
            place = std::exchange(other.place, nullptr);
        }
        return *this;
    }

    explicit operator bool() const noexcept { return place != nullptr; }
    pass_type &operator*() const noexcept { return place->handle; }
    pass_type *operator->() const noexcept { return &place->handle; }

    /* The number of the handle, from 0 on and below the number of handles: for data that lies beside each handle. No other loan has this
       number meanwhile.

           beside[mine.number()]++; // nobody else writes it meanwhile */
    std::size_t number() const noexcept { return owner->number_of(place); }

private:
    template <class>
    friend class basic_lender;
    basic_loan(Owner from, typename detail::lending<Handle>::place_type *which) noexcept
        : owner(which ? std::move(from) : Owner()), place(which) {}

    void give_back() noexcept {
        if (place) owner->give_back(*std::exchange(place, nullptr));
    }

    Owner owner = {};
    typename detail::lending<Handle>::place_type *place = nullptr;
};

/* Lends handles of a set or a map to threads that come and go. A call by a loan has the budget of its handle.

       vbr::lender lender(vbr::open(shape, 3).value()); */
template <class Handle>
class basic_lender {
    using lending = detail::lending<Handle>;
    using shared_lending = std::shared_ptr<lending>;

public:
    using loan_type = basic_loan<Handle>;
    using owned_loan_type = basic_loan<Handle, shared_lending>;

    /* A lender without handles lends none, and waits for none.

           vbr::lender later; // lends none until it is assigned */
    basic_lender() noexcept = default;
    basic_lender(basic_lender &&) noexcept = default;
    basic_lender &operator=(basic_lender &&) noexcept = default;

    /* Keeps open handles of one set. If there is no memory for the lender, they stay where they are.

           vbr::lender lender(vbr::open(shape, 3).value()); */
    explicit basic_lender(std::vector<Handle> &&handles) : all(std::make_shared<lending>()) { all->keep(handles); }

    /* Lends a free handle, as vbr_lend does. Returns the handle, or none if each was lent at some moment of the call, or they are being
       renewed.

       It takes no lock and no memory. It tries each handle at most once, so it never waits.

       It begins with the handle that this thread was lent last, by any lender. If that is free, a loan and its return are one atomic
       exchange on a word that other threads don't write. If there are no more threads than handles, each comes to have its own.

           vbr::loan mine = lender.lend(); */
    loan_type lend() noexcept { return loan_type(all.get(), taken()); }

    /* Lends a free handle as soon as there is one: if each is lent, the thread sleeps until one is given back.

       A thread that has a loan itself may wait for ever, and a loan without a name lasts to the end of its statement. Threads that wait
       have no order: one that comes later may be lent a handle before. It lends none if the lender has no handles, or is closed
       meanwhile.

           vbr::loan waited = lender.lend_wait(); */
    loan_type lend_wait() { return loan_type(all.get(), awaited()); }

    /* Lends a free handle, as `lend_wait` does, or none if each was lent until the time was over.

           vbr::loan in_time = lender.lend_for(10ms); */
    template <class Rep, class Period>
    loan_type lend_for(const std::chrono::duration<Rep, Period> &limit) {
        return loan_type(all.get(), taken_within(limit));
    }

    /* The loan keeps the handles, so it may outlive what lent it: for tasks. Beside the loan it costs two atomic additions on a word that
       all threads share.

           vbr::owned_loan task = lender.lend_owned_wait(); */
    owned_loan_type lend_owned() noexcept { return owned_loan_type(all, taken()); }
    owned_loan_type lend_owned_wait() { return owned_loan_type(all, awaited()); }
    template <class Rep, class Period>
    owned_loan_type lend_owned_for(const std::chrono::duration<Rep, Period> &limit) {
        return owned_loan_type(all, taken_within(limit));
    }

    /* How many handles it lends: 0 if it has none, and once they are closed.

           std::vector<int> beside(lender.handles()); */
    std::size_t handles() const noexcept { return all ? all->handles() : 0; }

    /* Returns how many handles are on loan, as vbr_lender_on_loan does. It is that number, exact if nobody borrows or gives back
       meanwhile, and 0 after the last return. Else it is of no one moment: the call looks at each handle once, one after another, and a
       handle is counted if it was on loan when it was looked at. It takes a load for each handle, and orders nothing.

       A handle that a renewal has isn't counted, unless a thread tried to borrow it just as the renewal took it.

           std::size_t out = lender.on_loan(); // 3: mine, waited and task */
    std::size_t on_loan() const noexcept { return all ? all->on_loan() : 0; }

    /* Returns how many keys are in, about, as vbr_lender_count_about does. It is what the handles have added, less what they took out, as
       each was given back last; never a negative number. It is exact if no handle is on loan during the call. Else it is off by at most
       the updates of some loans: by one for each of their calls that added a key or took one out. These are the loans that began during
       the call, or weren't given back before it by the program's own synchronisation. It takes a load for each handle, from a cache line
       that a return writes if the loan changed how many keys there are. It orders nothing.

       It is the number of keys if the lender has all handles of the set. It goes on over renewals by vbr_lender_renew. A lender without
       handles has 0.

           std::int64_t about = lender.count_about(); // 1: all loans are back, and one has added 5 */
    std::int64_t count_about() const noexcept { return all ? all->count_about() : 0; }

    /* What the set was opened with; 0 if it was given no handle.

           if (lender.slots() != shape.slots || lender.buckets() != shape.buckets) return 1; */
    std::uint32_t slots() const noexcept { return all ? all->opened_with().slots() : 0; }
    std::uint32_t buckets() const noexcept { return all ? all->opened_with().buckets() : 0; }
    std::uint64_t last_epoch() const noexcept { return all ? all->opened_with().last_epoch() : 0; }

    /* Lets the handles go on over a fresh set of this shape, as vbr_renew_all does, once none is on loan (vbr_lender_renew).

       It lends none meanwhile, and waits for the loans, so a thread that has one itself waits for ever. Threads that wait for a handle
       keep waiting. A refusal leaves the set as it was, and it lends again.

       If another thread renews to the same shape while this one waits, one renewal serves both. So each thread may ask for one if a call
       was refused since the last epoch is spent, once it has no loan.

           vbr::result<void> renewed = lender.renew(shape); */
    result<void> renew(const shape &wanted) { return all ? all->renew(wanted, std::nullopt) : refusal::no_handle; }

    /* The same, or refused if not all loans were back when the time was over.

           vbr::result<void> in_vain = lender.renew_for(shape, 10ms); // refusal::on_loan: a loan is still out */
    template <class Rep, class Period>
    result<void> renew_for(const shape &wanted, const std::chrono::duration<Rep, Period> &limit) {
        return all ? all->renew(wanted, detail::after(limit)) : refusal::no_handle;
    }

    /* Closes all handles and gives the report, or none of them: if one is on loan or they are being renewed, or there is no memory for the
       report, it lends on. There is no report if handles of the set that it wasn't given are open.

           std::optional<vbr::report> report = lender.close().value(); */
    result<std::optional<typename Handle::report_type>> close() {
        if (!all) return refusal::no_handle;
        return all->close();
    }

    /* Ends all handles without a report, or none of them, likewise. It takes no memory, and no time for the keys.

           vbr::result<void> ended = another.end(); */
    result<void> end() noexcept { return all ? all->end_all() : refusal::no_handle; }
    [[deprecated("end")]] result<void> end_all() noexcept { return end(); } /* the old name, for one version */

private:
    template <class Record>
    friend class records;
    template <class Key, class Value, class Hash>
    friend class record_map;
    template <class Self, class Of>
    friend class basic_sharded;
    using place_type = typename lending::place_type;
    place_type *taken() noexcept { return all ? all->take() : nullptr; }

    place_type *awaited() {
        place_type *place = taken();
        return place || !all ? place : all->take(std::nullopt);
    }

    template <class Rep, class Period>
    place_type *taken_within(const std::chrono::duration<Rep, Period> &limit) {
        place_type *place = taken();
        return place || !all ? place : all->take(detail::after(limit));
    }

    shared_lending all;
};

/* Aliases for std::uint64_t, of a set and of a map.

       vbr::lender lender(vbr::open(shape, 3).value());
       vbr::map_loan mine = sessions.lend(); */
using lender = set<>::lender;
using loan = set<>::loan;
using owned_loan = set<>::owned_loan;
using map_lender = map<>::lender;
using map_loan = map<>::loan;
using owned_map_loan = map<>::owned_loan;

} // namespace vbr

#endif
