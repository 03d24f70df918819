/* What clients that are tests have in common: a check, which ends the program. */
#pragma once
#include "vbr.hpp"

#include <cstdio>
#include <cstdlib>

#define CHECK(x) do { if (!(x)) { std::fprintf(stderr, "%s:%d: FAILED: %s\n", __FILE__, __LINE__, #x); std::exit(1); } } while (0)
