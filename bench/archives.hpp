// The entries of archives that are called in one run. Each archive is made a shared object, since all have the same names.
#pragma once
#include <cstdio>
#include <cstdlib>
#include <dlfcn.h>

// Finds an entry of a shared object, or ends the run.
template <class Entry> void find(Entry &entry, void *library, const char *name) {
    entry = library ? (Entry)dlsym(library, name) : nullptr;
    if (!entry) {
        std::printf("%s is missing\n", name);
        std::exit(1);
    }
}
