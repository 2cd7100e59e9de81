/* Memory that ends at a page which nobody may touch: to read or write a byte behind it ends the run. */
#ifndef FENCED_H
#define FENCED_H
#include <sys/mman.h>
#include <unistd.h>

#include <cstdint>
#include <cstdlib>
#include <cstring>
#include <string>

class Fenced {
    /* More than any text of the fuzzers and what is made of it have. */
    static const size_t SIZE = 1 << 24;
    uint8_t *end;

  public:
    Fenced() {
        const size_t page = static_cast<size_t>(sysconf(_SC_PAGESIZE));
        void *all = mmap(nullptr, SIZE + page, PROT_READ | PROT_WRITE, MAP_PRIVATE | MAP_ANONYMOUS, -1, 0);
        if (all == MAP_FAILED || mprotect(static_cast<uint8_t *>(all) + SIZE, page, PROT_NONE)) std::abort();
        end = static_cast<uint8_t *>(all) + SIZE;
    }

    /* The last bytes, so many. */
    uint8_t *last(size_t length) {
        if (length > SIZE / 2) std::abort();
        return end - length;
    }

    /* A copy of a text there. */
    const uint8_t *hold(const std::string &text) {
        return static_cast<uint8_t *>(std::memcpy(last(text.size()), text.data(), text.size()));
    }
};
#endif
