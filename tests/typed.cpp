// Every method of quoting.hpp once, on a month whose answers are known; each wrong one is named and ends the program with 2.
#include <cstdio>
#include <cstdlib>
#include <string>
#include <vector>

#include "quoting.hpp"

using quoting::Month;
using quoting::Side;

static void check(bool is_right, const char *what) {
    if (is_right) return;
    std::fprintf(stderr, "typed: %s\n", what);
    std::exit(2);
}

#define CHECK(condition) check(bool(condition), #condition)

static const quoting::Row row{1, 1, 10000, 5, 100, 10, 600};

static void refused() {
    Month month;
    CHECK(month.add(1, 1, Side::buy, 1, 1) == QUOTING_NO_QUANTUM_OPEN);
    CHECK(month.add(1, 1, static_cast<Side>(3), 1, 1) == QUOTING_NOT_A_CALL);
    CHECK(!month.add(1, 1, static_cast<Side>(3), 1, 1).was_made());
    CHECK(month.message("", std::string(5000, 'x')) == QUOTING_MESSAGE_TOO_LONG);
    CHECK(!month.outlook() && month.outlook().status() == QUOTING_NO_QUANTUM_OPEN);
    CHECK(!month.outlook()->may_rest && month.outlook()->need == 0);
    CHECK(!month.look(32, 1, 1) && month.look(32, 1, 1).status() == QUOTING_ARGUMENT_OUT_OF_RANGE);
    CHECK(month.look(1, 1, 1).value_or(quoting::Cell{}).weight == 0);
    CHECK(std::string(month.drop().text()) == quoting_refusal_text(QUOTING_NO_QUANTUM_OPEN));
    CHECK(month.view() && !*month.view());
    CHECK(month == Month());
    std::vector<std::uint32_t> damaged(month.words().begin(), month.words().end());
    CHECK(Month::of(damaged) && *Month::of(damaged) == month);
    damaged[1] = 186;
    CHECK(!Month::of(damaged));
    damaged.pop_back();
    CHECK(!Month::of(damaged));
}

static void events(Month &month) {
    CHECK(month.open(row, 1, 100, 7));
    CHECK(month.add(1000, 1, Side::buy, 99, 20) && month.add(1000, 2, Side::sell, 101, 20));
    CHECK(month.amend(2000, 1, 98, 30) && month.deal(2000, 2, 5) && month.tick(2500));
    const Month before = month;
    const auto asked = month.ask(3000, 1, 97, 10);
    CHECK(asked && asked->bid == 97 && asked->ask == 101 && asked->ticket.price == 97);
    CHECK(month == before);
    CHECK(month.commit(3000, 1, 97, 10, asked->ticket));
    CHECK(month != before);
    CHECK(month.commit(3000, 1, 97, 10, asked->ticket) == QUOTING_WRONG_TICKET);
}

static void shown(Month &month) {
    const auto view = month.view();
    CHECK(view && *view && (*view)->day() == 1 && (*view)->row().length == 10000 && (*view)->sp() == 100 && !(*view)->strike());
    CHECK((*view)->lapse_limit() == 7u && (*view)->state() == QUOTING_STATE_KEPT && (*view)->widest() > 0);
    CHECK((*view)->orders().size() == 2 && (*view)->orders()[0].price == 97 && (*view)->orders()[1].volume == 15);
    const auto report = month.report();
    CHECK(report && report->is_open && report->orders == 2 && report->bid == 97 && report->ask == 101 && report->kept == 2000 && report->lapses == 1);
    const auto outlook = month.outlook();
    CHECK(outlook && outlook->left == 7000 && outlook->lapses_left == 6u && !outlook->is_over && !outlook->is_lost && outlook->by);
}

static void records(Month &month) {
    std::vector<std::uint8_t> bytes(60);
    quoting_put_record(bytes.data(), QUOTING_RECORD_TICK, 4000, 0, 0, 0);
    quoting_put_record(bytes.data() + 20, QUOTING_RECORD_CANCEL, 4000, 2, 0, 0);
    quoting_put_record(bytes.data() + 40, QUOTING_RECORD_CANCEL, 4000, 2, 0, 0);
    const auto applied = month.apply(bytes);
    CHECK(!applied && applied.taken == 2 && applied.refusal == QUOTING_ID_NOT_LIVE);
    CHECK(month.cancel(4000, 1));
}

static void cells(Month &month) {
    CHECK(month.close(5000, 7000));
    const auto cell = month.look(1, 1, 1);
    CHECK(cell && cell->kept == 3000 && cell->length == 10000 && cell->lapse_limit == 7u && cell->active == 5000 && !cell->is_met);
    CHECK(month.charge(1, 1, 1, 1, 2) && month.look(1, 1, 1)->passive == 2 && month.report()->failed[1] == 1);
    CHECK(month.withdraw(1, 1, 1) && !month.look(1, 1, 1));
    CHECK(month.open(row, 1, quoting::Strike{200, 100000, 365, 10}) && (*month.view())->strike()->days == 365 && !(*month.view())->lapse_limit());
    const std::string body = "35=D\00111=7\00154=1\00138=5\00144=9\00160=20261102-10:00:01.000\001";
    std::string message = "8=FIX.4.4\0019=" + std::to_string(body.size()) + "\001" + body;
    unsigned sum = 0;
    for (char c : message) sum += static_cast<unsigned char>(c);
    char end[16];
    std::snprintf(end, sizeof end, "10=%03u\001", sum % 256);
    CHECK(month.message("20261102-10:00:00.000", message + end) && (*month.view())->orders()[0].id == 7);
    CHECK(month.drop());
}

static void session() {
    std::uint8_t head[32], bytes[40];
    std::uint32_t words[16];
    quoting_put_head(head, &row, 100);
    quoting_put_record(bytes, QUOTING_RECORD_ADD_BUY, 1000, 1, 99, 20);
    quoting_put_record(bytes + 20, QUOTING_RECORD_ADD_SELL, 2000, 2, 101, 20);
    const auto kept = quoting::session({head, 32}, {bytes, 40}, words, quoting::pairs_words(40));
    CHECK(kept && kept.kept() == 8000 && kept.size() == 1 && kept[0].offset == 2000 && kept[0].length == 8000);
    const auto cut = quoting::session({head, 32}, {bytes, 39}, words, 16);
    CHECK(!cut && cut.status == QUOTING_BAD_RECORD && cut.place == 2 && cut.kept() == 0);
}

int main() {
    Month month;
    refused();
    events(month);
    shown(month);
    records(month);
    cells(month);
    session();
    return 0;
}
