// Handles on loan in C++, of sets and of maps: at once or not at all, or as soon as one is free; loans that own their share; lenders
// and loans that are moved; closes of all handles or none; and renewals, which wait for all loans while others wait for one.
#include "client.hpp"

#include <string>
#include <thread>
#include <type_traits>

using namespace std::chrono_literals;

// What doesn't compile: another handle in the place of the one on loan, and a close by a loan.
template <class Pass, class = void>
inline constexpr bool closes = false;
template <class Pass>
inline constexpr bool closes<Pass, std::void_t<decltype(std::declval<Pass &>().close())>> = true;
template <class Handle>
static constexpr bool stays_in_its_set() {
    using loan = typename vbr::basic_lender<Handle>::loan_type;
    using pass = std::remove_reference_t<decltype(*std::declval<loan &>())>;
    return !std::is_swappable_v<pass> && !std::is_move_constructible_v<pass> && !std::is_assignable_v<pass &, Handle> &&
           !std::is_constructible_v<Handle, pass> && !closes<pass> && closes<Handle> && std::is_swappable_v<loan> &&
           !std::is_copy_constructible_v<loan>;
}
static_assert(stays_in_its_set<vbr::handle>() && stays_in_its_set<vbr::map_handle>());
static_assert(!std::is_convertible_v<vbr::loan, bool> && !std::is_copy_constructible_v<vbr::lender>);
static_assert(!std::is_constructible_v<vbr::lender, std::vector<vbr::handle> &>);
static_assert(std::is_nothrow_move_assignable_v<vbr::lender> && std::is_nothrow_default_constructible_v<vbr::owned_loan>);

struct of_sets {
    using lender = vbr::lender;
    using pass = vbr::pass;
    static auto open(std::size_t handles) { return vbr::open_many(vbr::shape::for_keys(100, handles), handles).value(); }
    static bool adds(pass &mine, std::uint64_t key) { return *mine.insert(key); }
    static bool takes(pass &mine, std::uint64_t key) { return *mine.remove(key); }
    static std::vector<std::uint64_t> keys(const vbr::result<std::optional<vbr::report>> &told) { return told.value().value().keys; }
};

struct of_maps {
    using lender = vbr::map_lender;
    using pass = vbr::map_pass;
    static auto open(std::size_t handles) { return vbr::open_map_many(vbr::shape::for_keys(100, handles), handles).value(); }
    static bool adds(pass &mine, std::uint64_t key) { return *mine.insert(key, ~key); }
    static bool takes(pass &mine, std::uint64_t key) { return mine.remove(key) == ~key; }
    static std::vector<std::uint64_t> keys(const vbr::result<std::optional<vbr::map_report>> &told) {
        std::vector<std::uint64_t> keys;
        for (vbr::entry each : told.value().value().entries) keys.push_back(each.value == ~each.key ? each.key : 999);
        return keys;
    }
};

template <class Of>
static typename Of::lender lending(std::size_t handles) {
    return typename Of::lender(Of::open(handles));
}

using keys = std::vector<std::uint64_t>;

// The examples of vbr_lend.hpp.
static int example() {
    auto shape = vbr::shape::for_keys(100, 3);
    vbr::lender later; // lends none until it is assigned
    CHECK(!later.lend() && !later.lend_wait() && !later.lend_for(1s) && !later.lend_owned() && later.handles() + later.slots() == 0);
    CHECK(later.close() == vbr::refusal::no_handle && later.end() == vbr::refusal::no_handle && later.last_epoch() == 0);
    vbr::lender lender(vbr::open(shape, 3).value());
    std::vector<int> beside(lender.handles());
    if (lender.slots() != shape.slots || lender.buckets() != shape.buckets) return 1;
    CHECK(beside.size() == 3 && lender.last_epoch() == vbr::max_epoch);
    {
        vbr::loan mine = lender.lend();
        vbr::loan waited = lender.lend_wait();
        vbr::owned_loan task = lender.lend_owned_wait();
        vbr::loan in_time = lender.lend_for(10ms);
        std::size_t out = lender.on_loan(); // 3: mine, waited and task
        CHECK(mine && waited && task && !in_time && *mine->insert(5) && *task->has(5) && out == 3 && later.on_loan() == 0);
        beside[mine.number()]++; // nobody else writes it meanwhile
        mine = vbr::loan(); // given back
        CHECK(!mine && lender.on_loan() == 2 && lender.lend());
        vbr::result<void> in_vain = lender.renew_for(shape, 10ms); // refusal::on_loan: a loan is still out
        CHECK(in_vain == vbr::refusal::on_loan && lender.lend());
    }
    vbr::result<void> renewed = lender.renew(shape);
    CHECK(renewed && later.renew(shape) == vbr::refusal::no_handle && later.renew_for(shape, 0s) == vbr::refusal::no_handle);
    std::int64_t about = lender.count_about(); // 1: all loans are back, and one has added 5
    CHECK(about == 1 && later.count_about() == 0 && lender.on_loan() == 0);
    std::optional<vbr::report> report = lender.close().value();
    CHECK(report->keys == keys{5} && lender.on_loan() == 0 && lender.count_about() == 0);
    vbr::map_lender sessions(vbr::open_map(shape, 3).value());
    vbr::map_loan mine = sessions.lend();
    CHECK(*mine->put(5, 70) == std::nullopt);
    return 0;
}

// Handles that end without a report: all of them or, where one is on loan, none.
template <class Of>
static void ends_without_a_report() {
    auto another = lending<Of>(3);
    {
        auto mine = another.lend();
        CHECK(Of::adds(*mine, 1) && another.end() == vbr::refusal::on_loan && another.handles() == 3 && Of::adds(*mine, 2));
    }
    vbr::result<void> ended = another.end();
    CHECK(ended && another.handles() == 0 && !another.lend() && !another.lend_wait() && another.end() == vbr::refusal::no_handle);
    auto handles = Of::open(3);
    auto kept = std::move(handles[1]);
    typename Of::lender lender(std::move(handles));
    CHECK(lender.handles() == 2 && Of::adds(*lender.lend(), 7));
    CHECK(lender.end());
    CHECK(Of::keys(kept.close()) == keys{7}); // while one is kept nothing is lost
}

template <class Of>
static void each_handle_once(std::size_t handles) {
    auto lender = lending<Of>(handles);
    std::vector<decltype(lender.lend())> loans;
    std::vector<int> seen(handles);
    for (std::size_t i = 0; i < handles; i++) loans.push_back(lender.lend());
    for (auto &each : loans) seen[each.number()]++;
    CHECK(seen == std::vector<int>(handles, 1) && !lender.lend() && !lender.lend_for(0s));
    loans[7] = std::move(loans[9]);
    CHECK(loans[7] && !loans[9] && lender.lend() && lender.handles() == handles);
    std::swap(loans[7], loans[9]);
    std::thread([back = std::move(loans)] {}).join(); // given back by another thread
    CHECK(Of::keys(lender.close()).empty() && lender.handles() == 0 && !lender.lend() && !lender.lend_wait());
}

// A handle that is on loan keeps the lender open; one that is empty, or of another set, is not lent.
template <class Of>
static void closes_all_or_none() {
    auto handles = Of::open(4), others = Of::open(2);
    auto kept = std::move(handles[3]);
    handles.push_back(std::move(others[0]));
    typename Of::lender lender(std::move(handles));
    CHECK(lender.handles() == 3 && handles[4].is_open() && !handles[3].is_open());
    {
        auto mine = lender.lend();
        CHECK(Of::adds(*mine, 1) && lender.close() == vbr::refusal::on_loan);
        auto second = lender.lend(), third = lender.lend();
        CHECK(second && third && !lender.lend() && Of::adds(*third, 2));
    }
    CHECK(!lender.close().value() && !lender.lend() && lender.close() == vbr::refusal::no_handle);
    CHECK(Of::keys(kept.close()) == (keys{1, 2}));
}

// A lender that is moved has the loans that are out; each of two goes back where it is from.
template <class Of>
static void moved() {
    auto lender = lending<Of>(1), other = lending<Of>(1);
    auto mine = lender.lend(), another = other.lend();
    auto moved = std::move(lender);
    CHECK(!moved.lend() && Of::adds(*mine, 1) && Of::adds(*another, 2) && !lender.lend() && lender.handles() == 0);
    std::swap(mine, another);
    mine = {};
    CHECK(!moved.lend() && other.lend());
    another = {};
    CHECK(moved.lend());
    lender = std::move(moved);
    CHECK(Of::keys(lender.close()) == keys{1} && Of::keys(other.close()) == keys{2});
}

// Eight threads wait for two handles, and none is left waiting; what each did beside a handle is there for the next one.
template <class Of>
static void waits() {
    auto lender = lending<Of>(2);
    std::vector<long> beside(lender.handles());
    std::atomic<int> wrong{0};
    std::vector<std::thread> threads;
    for (std::uint64_t i = 0; i < 8; i++)
        threads.emplace_back([&, i] {
            for (int round = 0; round < 2000; round++) {
                auto mine = round % 2 ? lender.lend_wait() : lender.lend_for(std::chrono::hours(1));
                if (!mine || !Of::adds(*mine, i) || !Of::takes(*mine, i)) wrong++;
                beside[mine.number()]++;
                if (round % 64 == 0) std::this_thread::yield();
            }
        });
    for (std::thread &thread : threads) thread.join();
    CHECK(wrong == 0 && beside[0] + beside[1] == 8 * 2000 && Of::keys(lender.close()).empty());
}

// A number that one thread tells another.
class step {
public:
    void tell(int number) { told.store(number); }
    void await(int number) const {
        for (int turns = 0; told.load(std::memory_order_acquire) < number; turns++)
            if (turns % 256 == 255) std::this_thread::yield();
    }

private:
    alignas(128) std::atomic<int> told{0};
};

// A handle is given back just as another thread begins to wait for it: either that one sees it, or it is woken. What is written before
// the return, to lines that the other thread wrote, makes the return come late.
static void woken_in_time() {
    struct alignas(64) line {
        std::atomic<int> written{0};
    };
    static line lines[128];
    static step lent, waits, done;
    auto lender = lending<of_sets>(1);
    auto write_all = [](int round) {
        for (line &each : lines) each.written.store(round, std::memory_order_relaxed);
    };
    std::thread other([&] {
        for (int round = 1; round <= 60000; round++) {
            {
                auto mine = lender.lend_wait();
                lent.tell(round);
                waits.await(round);
                for (int delay = round * 37 % 6000; delay > 0; delay--) std::atomic_signal_fence(std::memory_order_seq_cst);
                write_all(round);
            }
            done.await(round);
        }
    });
    bool late = false;
    for (int round = 1; round <= 60000; round++) {
        lent.await(round);
        write_all(-round);
        auto begun = std::chrono::steady_clock::now();
        waits.tell(round);
        auto mine = late ? lender.lend_for(1ms) : lender.lend_for(1min);
        late = late || std::chrono::steady_clock::now() - begun > 50s;
        mine = {};
        done.tell(round);
    }
    other.join();
    CHECK(!late);
}

// Waits that are over: by their time and not before, by a return, and by the close of the lender.
template <class Of>
static void ends_of_waits() {
    auto lender = lending<Of>(1);
    auto kept = lender.lend();
    std::atomic<int> wrong{0}, waiting{2};
    std::thread in_vain([&] {
        auto begun = std::chrono::steady_clock::now();
        if (lender.lend_for(20ms) || std::chrono::steady_clock::now() - begun < 20ms || lender.lend_for(-1h)) wrong++;
    });
    in_vain.join();
    std::thread lent([&] {
        if (!lender.lend_for(std::chrono::hours::max())) wrong++;
        waiting--;
    });
    std::thread lent_too([&] {
        if (!lender.lend_wait()) wrong++;
        waiting--;
    });
    std::this_thread::sleep_for(20ms);
    CHECK(waiting == 2);
    kept = {};
    lent.join();
    lent_too.join();
    kept = lender.lend();
    std::atomic<bool> closed{false};
    std::thread outlives([&] {
        while (lender.lend_wait()) // lent a few times, and then none, once it is closed
            if (closed) wrong++;
    });
    CHECK(Of::adds(*kept, 3));
    kept = {};
    auto told = lender.close();
    while (told == vbr::refusal::on_loan) told = lender.close();
    outlives.join();
    CHECK(wrong == 0 && waiting == 0 && Of::keys(told) == keys{3});
}

// Tasks that outlive the lender, each with a loan that was waited for before it began.
template <class Of>
static void tasks() {
    std::atomic<int> made{0};
    std::vector<std::thread> threads;
    decltype(lending<Of>(3).lend_owned()) last;
    {
        auto lender = lending<Of>(3);
        for (std::uint64_t key = 0; key < 30; key++)
            threads.emplace_back([&made, key, mine = lender.lend_owned_wait()] { made += Of::adds(*mine, key); });
        for (std::thread &thread : threads) thread.join();
        threads.clear(); // with the tasks their loans
        last = lender.lend_owned_for(1s);
        auto none = lender.lend_owned();
        CHECK(last && none && lender.close() == vbr::refusal::on_loan);
    }
    CHECK(made == 30 && last->has(29).value() && Of::takes(*last, 0));
    last = {};
}

// The set goes on with its keys, in another shape if wanted; unless it is done it is as it was, and all handles are lent again.
template <class Of>
static void renewals() {
    auto handles = Of::open(3);
    auto kept = std::move(handles[2]);
    typename Of::lender lender(std::move(handles)), of_all = lending<Of>(2);
    const vbr::shape small{2, 1, 100}, large = vbr::shape::for_keys(4000, 2);
    for (std::uint64_t key = 1; key < 4; key++) CHECK(Of::adds(*of_all.lend(), key) && Of::adds(*lender.lend(), key));
    CHECK(lender.renew(large) == vbr::refusal::missing && of_all.renew(small) == vbr::refusal::no_room);
    for (vbr::shape bad : {vbr::shape{0, 1, 1}, vbr::shape{1, vbr::max_buckets + 1, 1}, vbr::shape{1, 1, 0}, vbr::shape{1, 1, vbr::max_epoch_for(1) + 1}})
        CHECK(of_all.renew(bad) == vbr::refusal::bad_shape);
    for (auto *each : {&lender, &of_all}) {
        auto one = each->lend(), other = each->lend();
        CHECK(one && other && !each->lend() && each->on_loan() == 2 && each->slots() == one->slots() && one->has(3).value());
    }
    CHECK(of_all.renew(large) && of_all.handles() == 2 && of_all.slots() == large.slots && of_all.buckets() == large.buckets);
    {
        auto one = of_all.lend(), other = of_all.lend();
        CHECK(one->slots() == large.slots && other->epoch() == 1 && one->balance() + other->balance() == 3 && Of::takes(*other, 2));
    }
    CHECK(of_all.renew({1u << 24, 8, vbr::max_epoch}) && of_all.last_epoch() == vbr::max_epoch_for(1u << 24)); // so many leave room for less
    CHECK(of_all.lend()->last_epoch() == of_all.last_epoch() && of_all.renew({1u << 24, 8, vbr::max_epoch - 1}) == vbr::refusal::bad_shape);
    CHECK(of_all.renew(small) && of_all.last_epoch() == 100 && of_all.buckets() == 1);
    CHECK(Of::keys(of_all.close()) == (keys{1, 3}) && of_all.renew(small) == vbr::refusal::no_handle);
}

// While a renewal waits for a loan none is lent, though one is free, and it isn't closed; then it is made, and who waited is lent one.
template <class Of>
static void lends_none_meanwhile() {
    auto lender = lending<Of>(2);
    const vbr::shape wanted{300, 16, 1000};
    auto kept = lender.lend();
    CHECK(Of::adds(*kept, 7) && lender.renew_for(wanted, 20ms) == vbr::refusal::on_loan && lender.lend());
    std::atomic<int> wrong{0};
    std::thread renews([&] { wrong += !lender.renew(wanted); });
    while (lender.lend()) std::this_thread::yield(); // until it has begun
    std::size_t out = lender.on_loan(); // while the renewal takes the other one, that may be counted
    for (int turns = 0; turns < 1000000 && out != 1; turns++, out = lender.on_loan()) std::this_thread::yield();
    CHECK(out == 1); // the renewal waits for that one, and may have the other
    CHECK(!lender.lend() && !lender.lend_for(20ms) && lender.close() == vbr::refusal::on_loan && lender.slots() != wanted.slots);
    std::thread waits([&] {
        auto mine = lender.lend_wait();
        wrong += !mine || mine->slots() != wanted.slots || mine->has(7) != true;
    });
    CHECK(lender.renew_for(wanted, 5ms) == vbr::refusal::on_loan && Of::adds(*kept, 8)); // another one is waiting
    std::thread([back = std::move(kept)] {}).join(); // given back by another thread
    renews.join();
    waits.join();
    CHECK(wrong == 0 && lender.on_loan() == 0 && lender.slots() == wanted.slots && Of::keys(lender.close()) == (keys{7, 8}));
}

// While eight threads each add a key by each of their loans, how many keys are in is no less than the loans that were back before it is
// asked for, and no more than those that have begun afterwards; so over two renewals with growth. At rest it is what a report says.
template <class Of>
static void counts_keys() {
    const std::uint64_t each = 1000, before = 7;
    const std::int64_t all = 8 * 1000 + 7;
    auto lender = lending<Of>(3);
    CHECK(lender.renew(vbr::shape::for_keys(20000, 3)));
    {
        auto mine = lender.lend();
        for (std::uint64_t key = 0; key < before; key++) CHECK(Of::adds(*mine, key) && lender.count_about() == 0);
    }
    CHECK(lender.count_about() == 7);
    std::atomic<std::int64_t> begun{7}, done{7};
    std::atomic<int> wrong{0};
    std::vector<std::thread> threads;
    for (std::uint64_t i = 0; i < 8; i++)
        threads.emplace_back([&, i] {
            for (std::uint64_t key = 0; key < each; key++) {
                begun++;
                wrong += !Of::adds(*lender.lend_wait(), before + i * each + key);
                done++;
            }
        });
    for (std::uint32_t renewed = 0; done < all || renewed < 2;) {
        const std::int64_t least = done, about = lender.count_about();
        wrong += about < least || about > begun;
        if (done > 2000 * (renewed + 1) && renewed < 2) wrong += !lender.renew(vbr::shape::for_keys(20000 * (++renewed + 1), 3));
    }
    for (std::thread &thread : threads) thread.join();
    CHECK(wrong == 0 && lender.count_about() == all && lender.renew(vbr::shape{1, 1, 1}) == vbr::refusal::no_room);
    CHECK(lender.count_about() == all && Of::takes(*lender.lend(), 0));
    CHECK(lender.count_about() == all - 1 && Of::keys(lender.close()).size() == 8 * each + before - 1);
}

// Eight threads borrow three handles, in each way there is, and have loans of each other; two threads renew the set all the while.
template <class Of>
static void renewals_and_loans() {
    auto lender = lending<Of>(3);
    std::atomic<int> wrong{0}, lent{0}, renewed{0};
    std::atomic<bool> ends{false};
    std::vector<long> beside(lender.handles());
    std::vector<std::thread> threads;
    for (std::uint64_t i = 0; i < 8; i++)
        threads.emplace_back([&, i] {
            for (int round = 0; round < 600 || (renewed == 0 && round < 10'000'000); round++) { // and until a renewal has come between
                lender.lend_owned() = {};
                auto mine = round % 3 == 0 ? lender.lend_wait() : round % 3 == 1 ? lender.lend_for(std::chrono::hours(1)) : lender.lend();
                if (!mine) continue;
                beside[mine.number()]++, lent++;
                if (!Of::adds(*mine, i) || !Of::takes(*mine, i) || Of::takes(*mine, 50)) wrong++;
                if (round % 100 == 0) std::thread([back = std::move(mine)] {}).join();
                if (round % 10 == 0) std::this_thread::yield();
            }
        });
    std::vector<std::thread> renew;
    for (std::uint32_t i = 0; i < 2; i++)
        renew.emplace_back([&, i] {
            while (!ends) {
                auto other = vbr::shape::for_keys(100 + static_cast<std::uint32_t>(lent.load()) % 7, 3);
                auto told = i ? lender.renew(other) : lender.renew_for(vbr::shape::for_keys(200, 3), 1ms);
                if (told) renewed++;
                else if (told != vbr::refusal::on_loan || i) wrong++;
                if (renewed % 4 == 0) std::this_thread::sleep_for(100us);
            }
        });
    for (std::thread &thread : threads) thread.join();
    ends = true;
    for (std::thread &thread : renew) thread.join();
    CHECK(wrong == 0 && lent >= 8 * 400 && renewed > 0 && beside[0] + beside[1] + beside[2] == lent && Of::keys(lender.close()).empty());
}

template <class Of>
static void all() {
    counts_keys<Of>(), renewals<Of>(), lends_none_meanwhile<Of>(), renewals_and_loans<Of>();
    ends_without_a_report<Of>(), each_handle_once<Of>(64), each_handle_once<Of>(1000), closes_all_or_none<Of>(), moved<Of>();
    waits<Of>(), ends_of_waits<Of>(), tasks<Of>();
}

int main() {
    if (example()) return 1;
    woken_in_time(), all<of_sets>(), all<of_maps>();
    std::puts("lent handles in C++: passed");
    return 0;
}
