/* Loads the library of a wheel, and counts three chairs: loads LIBRARY */
#ifdef _WIN32
#include <windows.h>
#define LOAD(name) LoadLibraryA(name)
#define FIND(library, name) GetProcAddress(library, name)
#else
#include <dlfcn.h>
#define LOAD(name) dlopen(name, RTLD_NOW)
#define FIND(library, name) dlsym(library, name)
#endif
#include "board.h"
#include <stdio.h>

static struct board_room room;

int main(int many, char **words) {
    void *library = many == 2 ? (void *)LOAD(words[1]) : NULL;
    if (!library) return 1;
    uint8_t (*count)(const uint64_t *, size_t, uint64_t, uint32_t, struct board_room *, struct board_counts *);
    *(void **)&count = (void *)FIND(library, "board_counts_of_weights");
    const char *(*version)(void);
    *(void **)&version = (void *)FIND(library, "board_version");
    if (!count || !version) return 2;
    const uint64_t weights[] = {50, 49, 1};
    struct board_counts counts;
    if (count(weights, 3, 100, BOARD_HALF, &room, &counts)) return 3;
    printf("%s %u:", version(), (unsigned)counts.omega);
    for (int at = 0; at < 3; at++) printf(" %u", (unsigned)counts.rows[at].swings);
    printf("\n");
    return 0;
}
