/* What a program that is a test asks of operator new, which counts it, and is told to refuse some. A program includes it in one file. */
#pragma once
#include <atomic>
#include <cstddef>
#include <cstdlib>
#include <new>

static std::atomic<long> asked{0};  // how many blocks were asked for
static bool refuses = false;        // whether each is refused
static long granted = -1;           // how many are still given, where that isn't below 0

[[gnu::noinline]] void *operator new(std::size_t size, std::align_val_t alignment) {
    asked++;
    const std::size_t to = static_cast<std::size_t>(alignment);
    void *block = refuses || granted == 0 ? nullptr : std::aligned_alloc(to, (size + to - 1) / to * to);
    if (granted > 0) granted--;
    if (!block) throw std::bad_alloc();
    return block;
}

[[gnu::noinline]] void *operator new(std::size_t size) { return operator new(size, std::align_val_t{alignof(std::max_align_t)}); }
[[gnu::noinline]] void operator delete(void *block) noexcept { std::free(block); }
[[gnu::noinline]] void operator delete(void *block, std::size_t) noexcept { std::free(block); }
[[gnu::noinline]] void operator delete(void *block, std::align_val_t) noexcept { std::free(block); }
[[gnu::noinline]] void operator delete(void *block, std::size_t, std::align_val_t) noexcept { std::free(block); }
