// A buffer between two pages that nobody may touch, so that a read or write past it stops the program. One that is lent for
// reading only stops it at a write too.
#ifndef GUARDED_HPP
#define GUARDED_HPP

#include "check.hpp"

#include <algorithm>
#include <cstdlib>
#include <sys/mman.h>
#include <unistd.h>

// At which guard the buffer lies: a buffer of less than whole pages can lie at one of the two only.
enum class Flush { front, end };
enum class Lent { for_reading, for_writing };

class Guarded {
public:
    Guarded(const Bytes &content, Flush flush, Lent lent) : length_(content.size()) {
        inside_ = (length_ + PAGE - 1) / PAGE * PAGE;
        void *mapping = mmap(nullptr, PAGE + inside_ + PAGE, PROT_NONE, MAP_PRIVATE | MAP_ANONYMOUS, -1, 0);
        must(mapping != MAP_FAILED);
        pages_ = static_cast<uint8_t *>(mapping) + PAGE;
        data_ = flush == Flush::front ? pages_ : pages_ + inside_ - length_;
        if (inside_ > 0) {
            must(mprotect(pages_, inside_, PROT_READ | PROT_WRITE) == 0);
            std::fill(pages_, pages_ + inside_, FILLING);
            std::copy(content.begin(), content.end(), data_);
            must(mprotect(pages_, inside_, lent == Lent::for_reading ? PROT_READ : PROT_READ | PROT_WRITE) == 0);
        }
    }
    Guarded(const Guarded &) = delete;
    Guarded &operator=(const Guarded &) = delete;
    ~Guarded() { munmap(pages_ - PAGE, PAGE + inside_ + PAGE); }

    uint8_t *data() const { return data_; }
    size_t size() const { return length_; }
    Bytes bytes() const { return Bytes(data_, data_ + length_); }

    // Whether the rest of the buffer's own pages is as it was.
    bool alone() const {
        const auto filling = [](uint8_t byte) { return byte == FILLING; };
        return std::all_of(pages_, data_, filling) && std::all_of(data_ + length_, pages_ + inside_, filling);
    }

private:
    static inline const size_t PAGE = static_cast<size_t>(sysconf(_SC_PAGESIZE));
    static constexpr uint8_t FILLING = 0xa5;

    static void must(bool ok) {
        if (!ok) {
            std::perror("guarded buffer");
            std::exit(1);
        }
    }

    size_t length_, inside_;
    uint8_t *pages_, *data_;
};

#endif
