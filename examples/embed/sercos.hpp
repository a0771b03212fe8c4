// The library in C++17, by its own header alone: a handle is an object that opens in its constructor and closes in its destructor,
// and a status that isn't the answer is an exception. A handle is never copied, so these objects are neither copied nor moved: keep
// them in a std::deque or behind a std::unique_ptr.
#ifndef SERCOS_HPP
#define SERCOS_HPP

#include "sercos.h"

#include <cstddef>
#include <cstdint>
#include <optional>
#include <stdexcept>
#include <string>
#include <string_view>
#include <utility>
#include <vector>

namespace sercos {

using Bytes = std::vector<std::uint8_t>;

// A status above 1, or 1 where the caller has no use for it.
class Error : public std::runtime_error {
public:
    Error(std::uint8_t status, const char *what) : std::runtime_error(std::string(what) + ": " + name(status)), status(status) {}
    const std::uint8_t status;

private:
    static const char *name(std::uint8_t status) {
        static const char *const names[] = {"done", "no", "bad words", "refused", "", "no room", "out of memory", "too long", "closed"};
        return status < 9 ? names[status] : "no status";
    }
};

inline void must(std::uint8_t status, const char *what) {
    if (status != SERCOS_DONE)
        throw Error(status, what);
}

// Whether a call has an answer: false for SERCOS_NO, an exception for what is above it.
inline bool has(std::uint8_t status, const char *what) {
    if (status != SERCOS_NO)
        must(status, what);
    return status != SERCOS_NO;
}

inline const std::uint8_t *bytes_of(std::string_view text) {
    static const std::uint8_t none = 0;
    return text.empty() ? &none : reinterpret_cast<const std::uint8_t *>(text.data());
}

// A telegram's content, if one arrived. The pointer that is handed on is never NULL.
class Arrival {
public:
    Arrival() = default;
    Arrival(const Bytes &content) : content(&content) {}
    Arrival(const std::optional<Bytes> &content) : content(content ? &*content : nullptr) {}
    bool arrived() const { return content != nullptr; }
    const std::uint8_t *data() const { return content && !content->empty() ? content->data() : &none; }
    std::size_t size() const { return content ? content->size() : 0; }

private:
    static inline const std::uint8_t none = 0;
    const Bytes *content = nullptr;
};

struct Timed {
    std::uint16_t start; // in microseconds after the MST's end
    Bytes content;
};

// What the classes below share: room for a content, and for a text of any length.
template <typename Call> std::optional<Bytes> content_by(const char *what, Call call) {
    Bytes out(SERCOS_MOST_CONTENT);
    std::size_t written = 0;
    if (!has(call(out.data(), out.size(), &written), what))
        return std::nullopt;
    out.resize(written);
    return out;
}

template <typename Call> std::string text_by(const char *what, Call call) {
    std::string out(1 << 12, '\0');
    for (;;) {
        std::size_t written = 0;
        auto status = call(reinterpret_cast<std::uint8_t *>(out.data()), out.size(), &written);
        if (status != SERCOS_WRITE_FAULT) {
            must(status, what);
            out.resize(written);
            return out;
        }
        out.resize(2 * out.size());
    }
}

inline Bytes write(const sercos_mst &mst) {
    return *content_by("the MST", [&](auto... room) { return sercos_mst_write(&mst, room...); });
}

inline Bytes write(std::uint8_t address, const sercos_record &record) {
    return *content_by("the MDT", [&](auto... room) { return sercos_single_write(address, &record, room...); });
}

// The AT of an address, or nothing if the content isn't one.
inline std::optional<sercos_at> read_at(std::uint8_t address, std::uint16_t at_len, const Bytes &content) {
    sercos_at at;
    sercos_layout why;
    Arrival read(content);
    if (!has(sercos_at_read(address, at_len, read.data(), read.size(), &at, &why), "the AT"))
        return std::nullopt;
    return at;
}

class Drive {
public:
    // The drive at a place of a ring document.
    Drive(std::string_view document, std::size_t place) {
        must(sercos_drive_open(bytes_of(document), document.size(), place, &held), "the drive");
    }
    ~Drive() { sercos_drive_close(&held); }
    Drive(const Drive &) = delete;
    Drive &operator=(const Drive &) = delete;

    void hear_mst(std::uint32_t cycle, const Arrival &mst) {
        must(sercos_drive_hear_mst(&held, cycle, mst.arrived(), mst.data(), mst.size()), "hear_mst");
    }
    void hear_mdt(const Arrival &mdt) { must(sercos_drive_hear_mdt(&held, mdt.arrived(), mdt.data(), mdt.size()), "hear_mdt"); }
    void restart() { must(sercos_drive_restart(&held), "restart"); }
    std::optional<Timed> at() {
        std::uint16_t start = 0;
        auto content = content_by("the AT", [&](auto... room) { return sercos_drive_at(&held, room..., &start); });
        return content ? std::optional<Timed>({start, std::move(*content)}) : std::nullopt;
    }
    unsigned phase() {
        std::uint8_t phase = 0;
        must(sercos_drive_phase(&held, &phase), "the phase");
        return phase;
    }

private:
    sercos_drive held = {};
};

class Master {
public:
    explicit Master(std::string_view document) {
        must(sercos_master_open(bytes_of(document), document.size(), &held), "the master");
    }
    ~Master() { sercos_master_close(&held); }
    Master(const Master &) = delete;
    Master &operator=(const Master &) = delete;

    Bytes mst() {
        return *content_by("the MST", [&](auto... room) { return sercos_master_mst(&held, room...); });
    }
    void hear_mst(const Arrival &mst) { must(sercos_master_hear_mst(&held, mst.arrived(), mst.data(), mst.size()), "hear_mst"); }
    void hear_at(const Bytes &at) {
        Arrival arrival(at);
        must(sercos_master_hear_at(&held, arrival.data(), arrival.size()), "hear_at");
    }
    std::optional<Timed> mdt() {
        std::uint16_t start = 0;
        auto content = content_by("the MDT", [&](auto... room) { return sercos_master_mdt(&held, room..., &start); });
        return content ? std::optional<Timed>({start, std::move(*content)}) : std::nullopt;
    }
    void end_cycle() { must(sercos_master_end_cycle(&held), "the end of the cycle"); }
    void restart() { must(sercos_master_restart(&held), "restart"); }
    // The lines of the trace that the events of the last cycle have.
    std::string events() {
        return text_by("the events", [&](auto... room) { return sercos_master_events(&held, room...); });
    }
    unsigned command() {
        std::uint8_t phase = 0;
        must(sercos_master_command(&held, &phase), "the phase");
        return phase;
    }

private:
    sercos_master held = {};
};

// The trace of a ring under its script: the text of `head`, that of `lines` after each `cycle` that returned true, and that of `end`.
class Ring {
public:
    explicit Ring(std::string_view document) { must(sercos_ring_open(bytes_of(document), document.size(), &held), "the ring"); }
    ~Ring() { sercos_ring_close(&held); }
    Ring(const Ring &) = delete;
    Ring &operator=(const Ring &) = delete;

    std::string head() {
        return text_by("the head", [&](auto... room) { return sercos_ring_head(&held, room...); });
    }
    bool cycle() { return has(sercos_ring_cycle(&held), "the cycle"); }
    std::string lines() {
        return text_by("the lines", [&](auto... room) { return sercos_ring_lines(&held, room...); });
    }
    std::string end() {
        return text_by("the end", [&](auto... room) { return sercos_ring_end(&held, room...); });
    }

private:
    sercos_ring held = {};
};

} // namespace sercos
#endif
