#define _DEFAULT_SOURCE

#include "guard.h"
#include "expect.h"

#include <string.h>
#include <sys/mman.h>
#include <unistd.h>

/* Pages of 0 for reading and writing, the last of them for nothing. */
static guarded guard(size_t length) {
    size_t page = (size_t)sysconf(_SC_PAGESIZE);
    size_t open = (length + page - 1) / page * page;
    void *pages = mmap(NULL, open + page, PROT_READ | PROT_WRITE, MAP_PRIVATE | MAP_ANONYMOUS, -1, 0);
    EXPECT(pages != MAP_FAILED);
    EXPECT(mprotect((uint8_t *)pages + open, page, PROT_NONE) == 0);
    return (guarded){.bytes = (uint8_t *)pages + open - length, .length = length, .pages = pages, .mapped = open + page};
}

guarded guard_buffer(size_t length) {
    guarded lent = guard(length);
    memset(lent.bytes, FILLER, length);
    return lent;
}

bool is_filler(const uint8_t *bytes, size_t length) {
    for (size_t i = 0; i < length; i++) {
        if (bytes[i] != FILLER) return false;
    }
    return true;
}

guarded guard_bytes(const void *bytes, size_t length) {
    guarded lent = guard(length);
    memcpy(lent.bytes, bytes, length);
    size_t page = (size_t)sysconf(_SC_PAGESIZE);
    EXPECT(lent.mapped == page || mprotect(lent.pages, lent.mapped - page, PROT_READ) == 0);
    return lent;
}

guarded guard_file(FILE *file) {
    size_t room = 1 << 17, length = 0;
    uint8_t *bytes = malloc(room);
    EXPECT(bytes != NULL);
    for (size_t got; (got = fread(bytes + length, 1, room - length, file)) > 0;) {
        length += got;
        if (length < room) continue;
        room *= 2;
        bytes = realloc(bytes, room);
        EXPECT(bytes != NULL);
    }
    EXPECT(!ferror(file));
    guarded lent = guard_bytes(bytes, length);
    free(bytes);
    return lent;
}

guarded guard_system(void) {
    return guard(sizeof(mwb_system));
}

mwb_system *system_in(guarded system) {
    return (mwb_system *)(void *)system.bytes;
}

void unguard(guarded lent) {
    EXPECT(munmap(lent.pages, lent.mapped) == 0);
}
