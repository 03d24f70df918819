// The program that docs/CPP.md begins with: a set whose handles threads own, and a map that lends its handles.
#include "vbr.hpp"

#include <iostream>
#include <thread>

int main() {
    // a set of up to 1,024 keys, and two handles, one for each thread
    std::vector<vbr::handle> handles = vbr::open(vbr::shape::for_keys(1024, 2), 2).value(); // or it throws vbr::refused
    bool added = handles[0].insert(5).value(); // true: 5 was absent
    bool there = false;
    std::thread([&] { there = handles[1].has(5).value(); }).join(); // true

    // a map that lends its handles to threads that come and go
    vbr::map_lender words(vbr::open_map(vbr::shape::for_keys(1024, 4), 4).value());
    std::vector<std::thread> threads;
    for (std::uint64_t length : {3u, 5u, 3u}) {
        threads.emplace_back([&words, length] {
            vbr::map_loan mine = words.lend_wait();
            if (mine->get_or_insert(length, 1).value()) // there already: count it, if nobody is faster
                mine->fetch_update(length, [](std::uint64_t count) { return count + 1; }).value();
        });
    }
    for (std::thread &each : threads) each.join();
    std::uint64_t of_length_3 = words.lend_wait()->get(3).value().value();

    std::cout << added << ' ' << there << ' ' << of_length_3 << '\n';
    return added && there && of_length_3 == 2 ? 0 : 1;
}
