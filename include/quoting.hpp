// The quoting meter for C++17, over quoting_typed.h: a month is a value, an answer is a Result, and nothing is thrown or allocated.
//
//     quoting::Month month;
//     if (auto opened = month.open({1, 1, 31500000, 1000, 150, 3, 600}, 1, 8452); !opened) std::cerr << opened.text() << '\n';
//     (void) month.add(10000, 1, quoting::Side::buy, 8446, 1000);
//     if (auto report = month.report()) std::cout << report->kept << '\n';
#ifndef QUOTING_HPP
#define QUOTING_HPP

#include <array>
#include <cstddef>
#include <cstdint>
#include <cstring>
#include <optional>
#include <string_view>
#include <utility>

#include "quoting_typed.h"

namespace quoting {

using Row = ::quoting_row;
using Strike = ::quoting_strike;
using Ticket = ::quoting_ticket;
using Order = ::quoting_order;
using Stretch = ::quoting_stretch;
using State = ::quoting_state;
using RecordKind = ::quoting_record;
enum class Side { buy = QUOTING_BUY, sell = QUOTING_SELL };

// What a call came to: accepted, refused by a number of enum quoting_refusal, or not made, by one of enum quoting_not_made.
class [[nodiscard]] Status {
public:
    constexpr Status(quoting_status number = QUOTING_ACCEPTED) noexcept : number_(number) {}
    constexpr explicit operator bool() const noexcept { return number_ == QUOTING_ACCEPTED; }
    constexpr quoting_status number() const noexcept { return number_; }
    constexpr bool was_made() const noexcept { return number_ < QUOTING_NOT_A_CALL; }
    const char *text() const noexcept { return quoting_status_text(number_); }
    friend constexpr bool operator==(Status a, Status b) noexcept { return a.number_ == b.number_; }
    friend constexpr bool operator!=(Status a, Status b) noexcept { return a.number_ != b.number_; }

private:
    quoting_status number_;
};

// A value, or the status that there is none of. Without a value, * and -> show a default one; value_or gives another.
template <class T> class [[nodiscard]] Result {
public:
    constexpr Result(T value) noexcept : value_(value), status_() {}
    constexpr Result(Status refused) noexcept : value_(), status_(refused) {}
    constexpr explicit operator bool() const noexcept { return bool(status_); }
    constexpr bool has_value() const noexcept { return bool(status_); }
    constexpr const T &operator*() const noexcept { return value_; }
    constexpr const T *operator->() const noexcept { return &value_; }
    constexpr T value_or(T other) const noexcept { return has_value() ? value_ : other; }
    constexpr Status status() const noexcept { return status_; }
    const char *text() const noexcept { return status_.text(); }

private:
    T value_;
    Status status_;
};

// Elements that another owns, as std::span<const T> shows them.
template <class T> class Span {
public:
    constexpr Span() noexcept : data_(nullptr), size_(0) {}
    constexpr Span(const T *data, std::size_t size) noexcept : data_(data), size_(size) {}
    template <class C, class = decltype(static_cast<const T *>(std::declval<const C &>().data()))>
    constexpr Span(const C &owner) noexcept : data_(owner.data()), size_(owner.size()) {}
    constexpr const T *data() const noexcept { return data_; }
    constexpr std::size_t size() const noexcept { return size_; }
    constexpr bool empty() const noexcept { return size_ == 0; }
    constexpr const T *begin() const noexcept { return data_; }
    constexpr const T *end() const noexcept { return data_ + size_; }
    constexpr const T &operator[](std::size_t place) const noexcept { return data_[place]; }

private:
    const T *data_;
    std::size_t size_;
};

using Bytes = Span<std::uint8_t>;

inline std::optional<std::int32_t> price_of(quoting_quote quote) noexcept {
    return quote.is_there ? std::optional<std::int32_t>(quote.price) : std::nullopt;
}

inline std::optional<std::uint32_t> number_of(quoting_possible possible) noexcept {
    return possible.is_possible ? std::optional<std::uint32_t>(possible.milliseconds) : std::nullopt;
}

inline std::optional<std::uint32_t> limit_of(std::uint32_t limit) noexcept {
    return limit == QUOTING_NO_LIMIT ? std::nullopt : std::optional<std::uint32_t>(limit);
}

// A closed quantum. Charges are in kopecks; without a limit, lapse_limit is empty.
struct Cell {
    std::uint32_t kept = 0, length = 0, share = 0, lapses = 0;
    std::optional<std::uint32_t> lapse_limit;
    std::uint64_t active = 0, passive = 0;
    bool is_met = false;
    std::uint32_t weight = 0;
};

// Both best quotes after an amendment, and its ticket.
struct Asked {
    std::optional<std::int32_t> bid, ask;
    Ticket ticket{};
};

// The open quantum, the failed quanta of the six series, the fee in kopecks.
struct Report {
    bool is_open = false;
    std::uint32_t time = 0, orders = 0;
    std::optional<std::int32_t> bid, ask;
    std::uint32_t kept = 0, lapses = 0;
    std::array<std::uint32_t, 6> failed{};
    std::uint64_t fee = 0;
};

// What the open quantum still needs. `by` is the latest time until which nothing need be kept, `full` what the full weight needs; lapses_left is
// empty without a limit, and is_over says that there were too many.
struct Outlook {
    std::uint32_t need = 0, left = 0;
    std::optional<std::uint32_t> by, full, lapses_left;
    bool is_over = false, may_rest = false, is_lost = false;
    std::uint32_t weight_resting = 0, weight_keeping = 0;
};

// The open quantum as it is now.
class View {
public:
    View() noexcept : view_() {}
    explicit View(const quoting_view &view) noexcept : view_(view) {}
    std::uint32_t day() const noexcept { return view_.day; }
    const Row &row() const noexcept { return view_.row; }
    std::optional<std::int32_t> sp() const noexcept { return view_.by_strike ? std::nullopt : std::optional<std::int32_t>(view_.sp); }
    std::optional<Strike> strike() const noexcept { return view_.by_strike ? std::optional<Strike>(view_.strike) : std::nullopt; }
    std::optional<std::uint32_t> lapse_limit() const noexcept { return limit_of(view_.lapse_limit); }
    std::uint32_t widest() const noexcept { return view_.widest; }
    State state() const noexcept { return view_.state; }
    Span<Order> orders() const noexcept { return {view_.orders, view_.count}; }

private:
    quoting_view view_;
};

// How many records were taken, and what refuses the next one.
struct Applied {
    std::uint32_t taken = 0;
    Status refusal;
    explicit operator bool() const noexcept { return bool(refusal); }
};

// A month, by value: a copy is a month of its own. Threads may use different months at the same time.
class Month {
public:
    Month() noexcept {
        if (quoting_month_start(&month_) != QUOTING_ACCEPTED) month_.words[1] = 4294967295u;  // cannot be: then no call is made
    }

    Status open(const Row &row, std::uint32_t day, std::int32_t sp, std::optional<std::uint32_t> lapse_limit = std::nullopt) noexcept {
        return quoting_month_open(&month_, &row, day, sp, lapse_limit.value_or(QUOTING_NO_LIMIT));
    }
    Status open(const Row &row, std::uint32_t day, const Strike &strike, std::optional<std::uint32_t> lapse_limit = std::nullopt) noexcept {
        return quoting_month_open_strike(&month_, &row, day, &strike, lapse_limit.value_or(QUOTING_NO_LIMIT));
    }
    Status add(std::uint32_t t, std::uint32_t id, Side side, std::int32_t price, std::uint32_t volume) noexcept {
        return quoting_month_add(&month_, t, id, static_cast<quoting_side>(side), price, volume);
    }
    Status amend(std::uint32_t t, std::uint32_t id, std::int32_t price, std::uint32_t volume) noexcept {
        return quoting_month_amend(&month_, t, id, price, volume);
    }
    Status cancel(std::uint32_t t, std::uint32_t id) noexcept { return quoting_month_cancel(&month_, t, id); }
    Status deal(std::uint32_t t, std::uint32_t id, std::uint32_t volume) noexcept { return quoting_month_deal(&month_, t, id, volume); }
    Status tick(std::uint32_t t) noexcept { return quoting_month_tick(&month_, t); }
    Status close(std::uint64_t active, std::uint64_t passive) noexcept { return quoting_month_close(&month_, active, passive); }
    Status drop() noexcept { return quoting_month_drop(&month_); }
    Status charge(std::uint32_t day, std::uint32_t expiry, std::uint32_t quantum, std::uint64_t active, std::uint64_t passive) noexcept {
        return quoting_month_charge(&month_, day, expiry, quantum, active, passive);
    }
    Status withdraw(std::uint32_t day, std::uint32_t expiry, std::uint32_t quantum) noexcept {
        return quoting_month_withdraw(&month_, day, expiry, quantum);
    }
    Status commit(std::uint32_t t, std::uint32_t id, std::int32_t price, std::uint32_t volume, const Ticket &ticket) noexcept {
        return quoting_month_commit(&month_, t, id, price, volume, &ticket);
    }
    // A FIX message, with the quantum's start in the form of 60.
    Status message(std::string_view start, std::string_view message) noexcept {
        return quoting_month_message(&month_, start.data(), start.size(), message.data(), message.size());
    }
    // Event records, until one is refused.
    [[nodiscard]] Applied apply(Bytes records) noexcept {
        Applied found;
        found.refusal = quoting_month_apply(&month_, records.data(), records.size(), &found.taken);
        return found;
    }

    Result<Cell> look(std::uint32_t day, std::uint32_t expiry, std::uint32_t quantum) noexcept {
        quoting_cell c;
        if (Status s = quoting_month_look(&month_, day, expiry, quantum, &c); !s) return s;
        return Cell{c.kept, c.length, c.share, c.lapses, limit_of(c.lapse_limit), c.active, c.passive, c.is_met, c.weight};
    }
    Result<Asked> ask(std::uint32_t t, std::uint32_t id, std::int32_t price, std::uint32_t volume) noexcept {
        quoting_asked a;
        if (Status s = quoting_month_ask(&month_, t, id, price, volume, &a); !s) return s;
        return Asked{price_of(a.bid), price_of(a.ask), a.ticket};
    }
    Result<Report> report() noexcept {
        quoting_report r;
        if (Status s = quoting_month_report(&month_, &r); !s) return s;
        Report found{r.is_open, r.time, r.orders, price_of(r.bid), price_of(r.ask), r.kept, r.lapses, {}, r.fee};
        for (std::size_t i = 0; i < found.failed.size(); i++) found.failed[i] = r.failed[i];
        return found;
    }
    Result<Outlook> outlook() noexcept {
        quoting_outlook o;
        if (Status s = quoting_month_outlook(&month_, &o); !s) return s;
        const auto left = o.lapses_left == QUOTING_LAPSES_LEFT ? std::optional<std::uint32_t>(o.lapses) : std::nullopt;
        return Outlook{o.need, o.left, number_of(o.by), number_of(o.full), left, o.lapses_left == QUOTING_LAPSES_OVER, o.may_rest, o.is_lost,
                       o.weight_resting, o.weight_keeping};
    }
    // The open quantum, or nothing where none is open.
    Result<std::optional<View>> view() const noexcept {
        quoting_view v;
        if (Status s = quoting_month_now(&month_, &v); !s) return s;
        return v.is_open ? std::optional<View>(View(v)) : std::nullopt;
    }

    // The month's words, to be stored; `of` makes a month of words that a month has had.
    Span<std::uint32_t> words() const noexcept { return {month_.words, QUOTING_MONTH_WORDS}; }
    static std::optional<Month> of(Span<std::uint32_t> words) noexcept {
        Month found;
        if (words.size() != QUOTING_MONTH_WORDS) return std::nullopt;
        for (std::size_t i = 0; i < words.size(); i++) found.month_.words[i] = words[i];
        return found.view() ? std::optional<Month>(found) : std::nullopt;
    }
    friend bool operator==(const Month &a, const Month &b) noexcept { return std::memcmp(a.month_.words, b.month_.words, sizeof a.month_.words) == 0; }
    friend bool operator!=(const Month &a, const Month &b) noexcept { return !(a == b); }

private:
    quoting_month month_;
};

// What a session kept; the stretches are in the words that the caller has lent.
struct Kept {
    quoting_pairs pairs{};
    std::uint32_t place = 0;  // where it was refused: a record counted from 1, or 0
    Status status;
    explicit operator bool() const noexcept { return bool(status); }
    std::uint32_t kept() const noexcept { return pairs.kept; }
    std::uint32_t weight() const noexcept { return pairs.weight; }
    std::uint32_t size() const noexcept { return pairs.count; }
    Stretch operator[](std::uint32_t place_) const noexcept { return quoting_pair_at(&pairs, place_); }
};

// Words that are enough for the stretches of a session with so many bytes of records.
constexpr std::size_t pairs_words(std::size_t records_length) noexcept { return QUOTING_PAIRS_WORDS(records_length / QUOTING_RECORD_BYTES + 1); }

// The leading bytes of a session, which are its row and SP.
constexpr std::size_t head_bytes = 32;

// Runs a session of its 32 leading bytes and its records.
[[nodiscard]] inline Kept session(Bytes head, Bytes records, std::uint32_t *words, std::size_t words_length) noexcept {
    Kept found;
    found.status = quoting_session_stretches(
        head.data(), head.size(), records.data(), records.size(), words, words_length, &found.pairs, &found.place);
    return found;
}

// The same of a session as it is in a file, its leading bytes first.
[[nodiscard]] inline Kept session(Bytes bytes, std::uint32_t *words, std::size_t words_length) noexcept {
    const std::size_t head = bytes.size() < head_bytes ? bytes.size() : head_bytes;
    return session(Bytes(bytes.data(), head), Bytes(bytes.data() + head, bytes.size() - head), words, words_length);
}

}  // namespace quoting

#endif
