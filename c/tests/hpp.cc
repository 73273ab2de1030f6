// cmwq.hpp: callers, runs that wait, delays; everything ends, and each history is legal. Then the ends of items and of
// workqueues, also where memory is refused. hpp [ROUNDS]
#include "cmwq.h"
#include <atomic>
#include <cerrno>
#include <cstdio>
#include <cstdlib>
#include <new>
#include <pthread.h>
#include <random>
#include <fstream>
#include <sstream>
#include <stdlib.h>
#include <sys/wait.h>
#include <thread>
#include <unistd.h>

// Each allocation, of C++, of the shell and of the library, and each thread may be refused, and is counted.
static std::atomic<long> allocations_left{-1}, threads_left{-1}, blocks{0}, looks{0};
static bool is_refused(std::atomic<long> &left) { return left >= 0 && left-- == 0; }
__attribute__((noinline)) static void *allocate(size_t size) noexcept
{
    void *at = is_refused(allocations_left) ? nullptr : std::malloc(size ? size : 1);
    blocks += at != nullptr;
    return at;
}
__attribute__((noinline)) static void give_back(void *at) noexcept
{
    blocks -= at != nullptr;
    std::free(at);
}
static void *calloc_or_not(size_t many, size_t size)
{
    void *at = is_refused(allocations_left) ? nullptr : std::calloc(many, size);
    blocks += at != nullptr;
    return at;
}
static int create_or_not(pthread_t *thread, const pthread_attr_t *attr, void *(*body)(void *), void *at)
{
    return is_refused(threads_left) ? EAGAIN : pthread_create(thread, attr, body, at);
}
void *operator new(size_t size)
{
    if (void *at = allocate(size)) return at;
    throw std::bad_alloc();
}
void operator delete(void *at) noexcept { give_back(at); }
void operator delete(void *at, size_t) noexcept { give_back(at); }
extern "C" {
struct block { bool ok; void *at; };
block rattle_alloc(size_t size, size_t) { void *at = allocate(size); return {at != nullptr, at}; }
block rattle_realloc(void *old, size_t, size_t size, size_t)
{
    void *at = is_refused(allocations_left) ? nullptr : std::realloc(old, size);
    return {at != nullptr, at ? at : old};
}
void rattle_dealloc(void *at) { give_back(at); }
}
static uint32_t count_looks(cmwq_board *board, uint16_t item, cmwq_item *state)
{
    looks++;
    return cmwq_board_item(board, item, state);
}
#define calloc calloc_or_not
#define free give_back
#define pthread_create create_or_not
#define cmwq_board_item count_looks
#include "cmwq_hub.h"
#undef calloc
#undef free
#undef pthread_create
#include "cmwq.hpp"

#define CHECK(holds) \
    do { \
        if (!(holds)) { \
            std::fprintf(stderr, "%d: %s\n", __LINE__, #holds); \
            std::abort(); \
        } \
    } while (0)
#define REFUSED(call, kind) do { try { call; CHECK(!#call); } catch (const kind &) {} } while (0)
#define REFUSED_AS(call, status) \
    do {                                                        \
        try { call; CHECK(!#call); }                            \
        catch (const cmwq::failure &failure) { CHECK(failure.code() == status); } \
    } while (0)
using namespace std::chrono_literals;

template <class Holds> static void wait_until(Holds holds) { while (!holds()) std::this_thread::sleep_for(1ms); }

static size_t trial(unsigned seed)
{
    std::ostringstream text;
    std::atomic<unsigned> circles{0}, runs{0};
    {
        std::mt19937 random(seed);
        cmwq::shape shape;
        shape.cpus(unsigned(1 + random() % 2))
            .workers(unsigned(1 + random() % 4))
            .items(8)
            .waits(3)
            .keep(unsigned(2 + random() % 40))
            .tick(100us)
            .history(text);
        for (const char *name : {"a", "b"}) {
            auto options = cmwq::max_active(uint16_t(1 + random() % 3));
            shape.queue(name, random() % 2 ? options.intensive() : options);
        }
        cmwq::workqueues all(shape);
        std::vector<cmwq::queue> queues{all.queue("a"), all.queue("b")};
        std::vector<cmwq::item> items;
        struct act {
            std::vector<cmwq::queue> &queues; std::vector<cmwq::item> &items; std::atomic<unsigned> &circles;
            void operator()(std::mt19937 &random, bool in_run)
            {
                cmwq::item item = items[random() % items.size()];
                try {
                    switch (random() % 9) {
                    case 0: case 1: item.queue(); break;
                    case 2: item.modify(std::chrono::microseconds(random() % 500)); break;
                    case 3: item.cancel(); break;
                    case 4: item.flush(); break;
                    case 5: item.cancel_sync(); break;
                    case 6: item.flush_delayed(); break;
                    case 7: queues[random() % 2].flush(); break;
                    default: if (in_run) item.queue(); else queues[random() % 2].drain();
                    }
                } catch (const cmwq::failure &failure) {
                    circles += failure.code() == CMWQ_DEADLOCK;
                    CHECK(failure.code() >= CMWQ_STOPPED && failure.code() != CMWQ_FAILED);
                }
            }
        } act{queues, items, circles};
        bool ready = false;
        items.reserve(8);
        for (unsigned k = 0; k < 8; k++)
            items.push_back(
                queues[random() % 2].make([&, own = std::mt19937(seed * 100 + k), inside = 0](cmwq::run &run) mutable {
                    CHECK(++inside == 1);
                    runs++;
                    if (own() % 3 == 0) run.block([] { std::this_thread::yield(); });
                    for (unsigned n = own() % 3; n > 0; n--) act(own, true);
                    inside--;
                }));
        ready = true;
        CHECK(ready);
        std::vector<std::thread> callers;
        for (unsigned c = 0; c < 3; c++)
            callers.emplace_back([&, c] {
                std::mt19937 own(seed * 1000 + c);
                for (int n = 0; n < 40; n++) act(own, false);
            });
        for (auto &caller : callers) caller.join();
        all.shutdown();
    }
    std::string history = text.str();
    uint8_t line[CMWQ_LINE];
    size_t len = 0;
    uint32_t status = cmwq_check(reinterpret_cast<const uint8_t *>(history.data()), history.size(), line, sizeof line,
                                 &len);
    if (status != CMWQ_OK) std::fprintf(stderr, "seed %u: %.*s\n", seed, int(len), reinterpret_cast<char *>(line));
    CHECK(status == CMWQ_OK);
    return circles;
}

// Few numbers serve many items, one after another, and each function is dropped.
static void items_come_and_go()
{
    auto held = std::make_shared<int>(0);
    cmwq::workqueues all(cmwq::shape{}.items(3).queue("a", cmwq::max_active(1)));
    cmwq::queue queue = all.queue("a");
    std::atomic<unsigned> runs{0};
    for (unsigned k = 0; k < 1000; k++) {
        cmwq::item item = queue.make([&runs, held](cmwq::run &) { runs++; });
        item.queue();
        if (k % 2) item.flush();
        if (k % 3 == 2) queue.flush();
    }
    {
        cmwq::item a = queue.make([](cmwq::run &) {}), b = a, c = queue.make([](cmwq::run &) {});
        queue.flush();
        cmwq::item d = queue.make([](cmwq::run &) {});
        try { queue.make([](cmwq::run &) {}); CHECK(false); } catch (const std::length_error &) {}
        try {
            queue.make([](cmwq::run &) {}, 1);
            CHECK(false);
        } catch (const cmwq::failure &failure) {
            CHECK(failure.code() == CMWQ_REFUSED);
        }
    }
    queue.flush();
    CHECK(runs == 1000 && !queue.make([](cmwq::run &) {}).is_pending() && held.use_count() == 1);
}

static void waits_with_timeouts()
{
    std::atomic<bool> open{false};
    std::atomic<int> again{0}, left{0}; // outlive the runs, which end when the workqueues do
    cmwq::workqueues all(cmwq::shape{}.queue("a", cmwq::max_active(1)).queue("b", cmwq::max_active(1)));
    cmwq::queue a = all.queue("a"), b = all.queue("b");
    cmwq::item other = b.make([&](cmwq::run &run) {
        run.block([&] { while (again == 0) std::this_thread::sleep_for(1ms); });
    });
    cmwq::item item = a.make([&](cmwq::run &run) {
        run.block([&] { while (!open) std::this_thread::sleep_for(1ms); });
        if (again == 0) left = !other.flush_for(5ms);
        if (again++ == 0) run.requeue_after(2ms);
    });
    CHECK(item.queue() && other.queue());
    while (!item.is_running()) std::this_thread::sleep_for(1ms);
    CHECK(!item.flush_for(10ms) && !a.flush_for(0ms) && !item.cancel_sync_for(1ms) && item.is_running() &&
          !item.is_pending());
    open = true;
    CHECK(a.flush_for(10s) && left == 1); // a run has left its wait too
    CHECK(again == 1); // the cancel went on without its caller, and kept the run from booking its item
    item.queue_delayed(1ms);
    CHECK(item.flush_delayed() && again == 2);
    CHECK(all.freeze() && !all.freeze() && all.thaw() && a.set_max_active(1000) == 512 && a.drain_for(10s));
    a.destroy();
    try { item.queue(); CHECK(false); } catch (const cmwq::failure &failure) { CHECK(failure.code() == CMWQ_IS_GONE); }
}

// The last handle of the workqueues is dropped in a run of theirs.
static void dropped_in_a_run()
{
    std::atomic<bool> dropped{false};
    {
        auto all = std::make_shared<cmwq::workqueues>(cmwq::shape{}.queue("a", cmwq::max_active(1)));
        std::atomic<bool> *flag = &dropped;
        auto guard = std::shared_ptr<int>(new int, [flag](int *at) { delete at; *flag = true; });
        cmwq::item item = all->queue("a").make([all, guard](cmwq::run &) mutable { all.reset(); });
        item.queue();
    }
    while (!dropped) std::this_thread::sleep_for(1ms);
}

// In a run of theirs, where no thread can be started any more.
static void dropped_without_threads()
{
    std::atomic<bool> dropped{false};
    auto all = std::make_unique<cmwq::workqueues>(cmwq::shape{}.queue("a", cmwq::max_active(1)));
    cmwq::queue queue = all->queue("a");
    std::shared_ptr<int> guard(new int, [&dropped](int *at) { delete at; dropped = true; });
    cmwq::item item = queue.make([&all, guard](cmwq::run &) {
        threads_left = 0;
        allocations_left = 0;
        all.reset();
        allocations_left = -1;
    });
    guard.reset();
    item.queue();
    wait_until([&] { return dropped.load(); });
    threads_left = -1;
    REFUSED_AS(item.queue(), CMWQ_CLOSED);
    REFUSED_AS(queue.make([](cmwq::run &) {}), CMWQ_CLOSED);
}

// Two threads call shutdown() while a function runs: it is not dropped meanwhile, and both wait for it.
static void shut_down_twice()
{
    auto all = std::make_unique<cmwq::workqueues>(cmwq::shape{}.queue("a", cmwq::max_active(2)));
    auto big = std::make_shared<std::vector<int>>(1000, 7);
    std::weak_ptr<std::vector<int>> seen = big;
    std::atomic<unsigned> runs{0}, ended{0};
    cmwq::item slow = all->queue("a").make([big, seen, &runs, &ended](cmwq::run &) {
        runs++;
        std::this_thread::sleep_for(50ms);
        CHECK(!seen.expired() && (*big)[999] == 7);
        ended++;
    });
    cmwq::item quick = all->queue("a").make([&runs](cmwq::run &) { runs++; });
    big.reset();
    slow.queue();
    quick.queue();
    wait_until([&] { return runs > 0; });
    std::vector<std::thread> callers;
    for (int c = 0; c < 2; c++) callers.emplace_back([&] { all->shutdown(); CHECK(ended == 1 && runs == 2); });
    for (auto &caller : callers) caller.join();
    CHECK(seen.expired());
}

// A run calls shutdown() while its owner does: it is refused there, and goes on.
static void shut_down_in_a_run()
{
    for (bool owner_first : {true, false}) {
        cmwq::workqueues all(cmwq::shape{}.queue("a", cmwq::max_active(1)));
        std::atomic<int> code{0}, in{0};
        cmwq::item item = all.queue("a").make([&, text = std::string(100, 'x')](cmwq::run &) {
            in = 1;
            if (owner_first) std::this_thread::sleep_for(30ms);
            try { all.shutdown(); } catch (const cmwq::failure &failure) { code = failure.code(); }
            CHECK(text == std::string(100, 'x'));
        });
        item.queue();
        wait_until([&] { return in == 1; });
        if (!owner_first) item.flush();
        all.shutdown();
        CHECK(code == CMWQ_NOT_NOW);
    }
}

// An item that was moved from is empty, and says so; a queue never is.
static void moved()
{
    cmwq::workqueues all(cmwq::shape{}.items(2).queue("a", cmwq::max_active(1)));
    cmwq::queue a = all.queue("a"), b = std::move(a);
    cmwq::item one = a.make([](cmwq::run &) {}), two = std::move(one), none, three = one;
    CHECK(!one && two && !none && !three && two.queue() && two.flush_for(10s));
    REFUSED(one.queue(), std::logic_error);
    REFUSED(none.flush(), std::logic_error);
    REFUSED(three.cancel_sync_for(1ms), std::logic_error);
    REFUSED(one.queue_delayed(1ms), std::logic_error);
    REFUSED(one.is_pending(), std::logic_error);
    one = two;
    two = std::move(one);
    two = *&two;
    CHECK(two && !one && two.queue());
    two.flush();
    three = a.make([](cmwq::run &) {});
    REFUSED(b.make([](cmwq::run &) {}), std::length_error);
    three = two;
    CHECK(b.make([](cmwq::run &) {}));
    std::vector<cmwq::item> many(1, two);
    many.insert(many.begin(), b.make([](cmwq::run &) {}));
    CHECK(many[0].queue() && many[1] && many[0].flush_for(10s));
}

static void limits()
{
    auto with = [](uint64_t most) { cmwq::workqueues all(cmwq::shape{}.items(1).queue("a", cmwq::max_active(most))); };
    with(1);
    with(512);
    const uint64_t bad[] = {0, 513, 65535, 65537, 65536 + 512, uint64_t(1) << 32 | 1, ~uint64_t(0)};
    for (uint64_t most : bad)
        REFUSED_AS(with(most), CMWQ_REFUSED);
    auto twice = cmwq::shape{}.queue("a", cmwq::max_active(1)).queue("b", cmwq::max_active(1));
    REFUSED(twice.queue("a", cmwq::max_active(2)), std::invalid_argument);
    REFUSED_AS(cmwq::shape{}.tick(-1ns), CMWQ_REFUSED);
    for (unsigned items : {0u, 65536u, 65537u, ~0u}) {
        cmwq::shape shape;
        shape.items(items).queue("a", cmwq::max_active(1));
        REFUSED_AS(cmwq::workqueues(std::move(shape)), CMWQ_REFUSED);
    }
}

// A handle that is dropped costs the same with many open items, and a function is dropped when its last run ends. The
// cost is counted in how often the board is asked for an item.
static void dropped_handles()
{
    for (unsigned many : {10u, 3000u}) {
        auto held = std::make_shared<int>(0);
        std::atomic<bool> open{false};
        std::atomic<unsigned> runs{0};
        cmwq::workqueues all(cmwq::shape{}.items(many + 1).workers(2).queue("a", cmwq::max_active(512)));
        cmwq::queue queue = all.queue("a");
        cmwq::item gate = queue.make([&open](cmwq::run &) { wait_until([&] { return open.load(); }); });
        gate.queue();
        looks = 0;
        for (unsigned k = 0; k < many; k++) {
            cmwq::item item = queue.make([&runs, held](cmwq::run &) { runs++; });
            item.queue();
        }
        CHECK(looks <= 2 * many && held.use_count() == long(many) + 1 && runs == 0);
        REFUSED(queue.make([](cmwq::run &) {}), std::length_error);
        CHECK(looks <= 2 * many);
        open = true;
        queue.flush(); // all numbers are free then
        CHECK(runs == many && looks <= 3 * many + 2);
        for (unsigned k = 0; k < many; k++) queue.make([](cmwq::run &) {});
        wait_until([&] { return held.use_count() == 1; });
    }
}

// Items of two CPUs are queued at once. Those before one that fails are queued.
static void batches()
{
    std::atomic<unsigned> runs{0};
    cmwq::workqueues all(cmwq::shape{}.cpus(2).items(201).workers(2).queue("a", cmwq::max_active(512)));
    cmwq::workqueues others(cmwq::shape{}.queue("a", cmwq::max_active(1)));
    cmwq::queue queue = all.queue("a");
    std::vector<cmwq::item> items;
    for (unsigned k = 0; k < 200; k++) items.push_back(queue.make([&runs](cmwq::run &) { runs++; }, k / 3 % 2));
    CHECK(queue.queue_all(std::vector<cmwq::item>{}) == 0);
    CHECK(queue.queue_all(items) == 200);
    queue.flush();
    CHECK(runs == 200);
    items[2] = others.queue("a").make([](cmwq::run &) {});
    REFUSED_AS(queue.queue_all(items), CMWQ_REFUSED);
    items[2] = cmwq::item();
    queue.flush();
    REFUSED(queue.queue_all(items), std::logic_error);
    queue.flush();
    CHECK(runs == 204);
    all.shutdown();
    REFUSED_AS(queue.queue_all(items), CMWQ_CLOSED);
}

// A number comes back when the run has ended, whatever became of its handles.
static void numbers_come_back()
{
    std::atomic<bool> open{false};
    std::atomic<unsigned> runs{0};
    cmwq::workqueues all(cmwq::shape{}.items(1).queue("a", cmwq::max_active(1)).queue("b", cmwq::max_active(1)));
    cmwq::queue a = all.queue("a"), b = all.queue("b");
    auto slow = [&](cmwq::run &) { runs++; wait_until([&] { return open.load(); }); };
    {
        cmwq::item item = a.make(slow); // dropped while it runs, and a cancel_sync that was left waits for it
        item.queue();
        wait_until([&] { return item.is_running(); });
        CHECK(!item.cancel_sync_for(0ms));
    }
    REFUSED(b.make([](cmwq::run &) {}), std::length_error);
    open = true;
    a.flush();
    cmwq::item item = b.make([&](cmwq::run &run) { if (runs++ == 1) run.requeue_after(1ms); });
    CHECK(item.queue());
    item = cmwq::item(); // its run is not the last
    b.flush();
    REFUSED(a.make([](cmwq::run &) {}), std::length_error);
    wait_until([&] { return runs == 3; });
    b.flush();
    item = a.make([&](cmwq::run &) { item = cmwq::item(); runs++; }); // the last handle is dropped in its run
    item.queue();
    a.flush();
    CHECK(runs == 4 && a.make([](cmwq::run &) {}));
    item = a.make([&](cmwq::run &) { runs++; }); // a timer that is taken back at the end
    item.queue_delayed(1h);
    item = cmwq::item();
    all.shutdown();
    CHECK(runs == 4);
}

// What a function drops at its end may have handles, and calls the hub.
static void dropped_functions_call()
{
    std::atomic<unsigned> runs{0};
    std::atomic<int> code{-1};
    std::atomic<bool> alone{false};
    cmwq::workqueues all(cmwq::shape{}.queue("a", cmwq::max_active(1)));
    cmwq::queue queue = all.queue("a");
    cmwq::item next = queue.make([&](cmwq::run &) { runs++; });
    struct calls {
        cmwq::item next;
        std::atomic<int> *code;
        ~calls()
        {
            next.queue();
            try { next.flush(); *code = CMWQ_OK; } catch (const cmwq::failure &failure) { *code = failure.code(); }
        }
    };
    std::shared_ptr<calls> last(new calls{next, &code});
    cmwq::work work = [&runs, &alone, last](cmwq::run &) { wait_until([&] { return alone.load(); }); runs++; };
    last.reset();
    queue.make(std::move(work)).queue();
    alone = true; // the hub has it, and nobody else
    wait_until([&] { return code != -1; });
    queue.flush();
    CHECK(code == CMWQ_NOT_NOW && runs == 2); // the thread of a worker waits for nothing there
}

// In a child of a fork all is closed, and no function is dropped.
[[maybe_unused]] static void forked()
{
    std::atomic<bool> open{false}, dropped{false};
    std::unique_ptr<cmwq::workqueues> all(new cmwq::workqueues(cmwq::shape{}.queue("a", cmwq::max_active(1))));
    std::unique_ptr<cmwq::queue> queue(new cmwq::queue(all->queue("a")));
    std::shared_ptr<int> guard(new int, [&dropped](int *at) { delete at; dropped = true; });
    cmwq::item item = queue->make([&open, guard](cmwq::run &) { wait_until([&] { return open.load(); }); });
    cmwq::item other = queue->make([guard](cmwq::run &) {});
    guard.reset();
    item.queue();
    wait_until([&] { return item.is_running(); });
    std::fflush(nullptr);
    pid_t child = fork();
    CHECK(child >= 0);
    if (child == 0) {
        alarm(60);
        REFUSED_AS(item.queue(), CMWQ_CLOSED);
        REFUSED_AS(queue->flush(), CMWQ_CLOSED);
        REFUSED_AS(queue->make([](cmwq::run &) {}), CMWQ_CLOSED);
        other = cmwq::item();
        all->shutdown();
        all.reset();
        queue.reset();
        item = cmwq::item();
        _exit(dropped ? 1 : 7);
    }
    int how;
    CHECK(waitpid(child, &how, 0) == child && WIFEXITED(how) && WEXITSTATUS(how) == 7);
    open = true;
    CHECK(item.flush_for(10s) && other.queue());
    all->shutdown();
    CHECK(dropped);
}

// A small service. What it throws is of this library, or a lack of memory.
static void serve()
{
    std::atomic<unsigned> runs{0};
    auto shape = cmwq::shape{}.items(4).workers(2);
    shape.queue("a", cmwq::max_active(2)).queue("b", cmwq::max_active(1).high());
    cmwq::workqueues all(shape);
    cmwq::queue a = all.queue("a"), b = all.queue("b");
    for (unsigned k = 0; k < 6; k++) {
        cmwq::item item = a.make([&runs, k, text = std::string(50, 'x')](cmwq::run &run) {
            run.block([&] { runs += k; });
        });
        item.queue();
        item.flush();
    }
    {
        cmwq::item one = b.make([](cmwq::run &) {});
        cmwq::item two = a.make([](cmwq::run &) { throw std::runtime_error("on purpose"); });
        one.queue_delayed(1ms);
        two.queue();
        one.cancel_sync();
        two.flush();
    }
    try { all.shutdown(); CHECK(runs == 99); } catch (const std::runtime_error &) { CHECK(runs == 15); }
}

// Each allocation and each thread refused in turn: the service ends, or throws; it ends no process, and leaves nothing.
static long refuse(std::atomic<long> &left)
{
    for (long many = 0;; many++) {
        long before = blocks;
        bool thrown = false;
        left = many;
        try { serve(); }
        catch (const std::bad_alloc &) { thrown = true; }
        catch (const cmwq::failure &) { thrown = true; }
        bool ended = left >= 0;
        left = -1;
        CHECK(blocks == before && !(ended && thrown));
        if (ended) return many;
    }
}

// What workqueues leave is there in their next life, by names.
static void durable()
{
    char folder[] = "/tmp/cmwq_hpp.XXXXXX";
    CHECK(mkdtemp(folder));
    const std::string file = std::string(folder) + "/journal";
    std::atomic<int> wrote{0}, told{0}, asked{0};
    auto shape = [&] {
        return cmwq::shape{}.queue("disk", cmwq::max_active(1).freezable()).queue("net", cmwq::max_active(1))
            .item("write", "disk", [&](cmwq::run &) { wrote++; })
            .item("tell", "net", [&](cmwq::run &now) { told++; now.requeue_after(1h); })
            .durable(file).each().keep_old().again([&](const std::string &) { asked++; return true; });
    };
    {
        cmwq::workqueues all(shape());
        CHECK(all.freeze() && all.item("write").queue() && all.item("tell").queue());
        REFUSED(all.item("none"), std::out_of_range);
        REFUSED(all.queue("disk").make([](cmwq::run &) {}), std::length_error);
        REFUSED_AS(cmwq::workqueues{shape()}, CMWQ_IN_USE);
        all.queue("net").flush();
        all.sync();
    } // it is left
    CHECK(wrote == 0 && told == 1);
    {
        cmwq::workqueues all(shape());
        CHECK(all.item("write").is_pending() && all.item("tell").is_pending() && asked == 0);
        all.leave();
        REFUSED_AS(all.item("write").queue(), CMWQ_CLOSED);
        REFUSED(cmwq::workqueues{shape().item("x", "none", {})}, std::out_of_range);
        REFUSED(shape().item("write", "disk", {}), std::invalid_argument);
    }
    {
        cmwq::workqueues all(shape().item("more", "net", [](cmwq::run &) {}).queue("last", cmwq::max_active(1)));
        CHECK(all.thaw());
        all.queue("disk").flush();
        CHECK(wrote == 1 && all.item("tell").is_pending() && !all.item("more").is_pending());
        all.shutdown();
    }
    {
        cmwq::workqueues all(shape());
        CHECK(!all.item("tell").is_pending());
    }
    std::ofstream(file, std::ios::app) << "bad\n";
    try {
        cmwq::workqueues none(shape());
        CHECK(false);
    } catch (const cmwq::bad_journal &why) {
        CHECK(why.line() == 5);
    }
    cmwq::workqueues plain(cmwq::shape{}.queue("a", cmwq::max_active(1)).item("i", "a", [&](cmwq::run &) { told++; }));
    CHECK(plain.item("i").queue());
    REFUSED_AS(plain.leave(), CMWQ_REFUSED);
    REFUSED_AS(plain.sync(), CMWQ_REFUSED);
    plain.shutdown();
    CHECK(told == 2);
    for (const char *ending : {"", ".1", ".lock", ".new"}) unlink((file + ending).c_str());
    CHECK(rmdir(folder) == 0);
}

int main(int argc, char **argv)
{
    unsigned rounds = argc > 1 ? unsigned(std::atoi(argv[1])) : 100;
    size_t circles = 0;
    alarm(540); // the hang detector
    for (unsigned seed = 0; seed < rounds; seed++) circles += trial(seed);
    {
        cmwq::workqueues all(cmwq::shape{}.queue("a", cmwq::max_active(1)));
        cmwq::item bad = all.queue("a").make([](cmwq::run &) { throw std::runtime_error("on purpose"); });
        bad.queue();
        bad.flush();
        try { all.shutdown(); CHECK(false); } catch (const std::runtime_error &) {}
        all.shutdown();
        try {
            bad.queue();
            CHECK(false);
        } catch (const cmwq::failure &failure) {
            CHECK(failure.code() == CMWQ_CLOSED);
        }
        try { all.queue("b"); CHECK(false); } catch (const std::out_of_range &) {}
        try {
            cmwq::workqueues none(cmwq::shape{});
            CHECK(false);
        } catch (const cmwq::failure &failure) {
            CHECK(failure.code() == CMWQ_REFUSED);
        }
    }
    items_come_and_go();
    waits_with_timeouts();
    dropped_in_a_run();
    dropped_without_threads();
    shut_down_twice();
    shut_down_in_a_run();
    moved();
    limits();
    dropped_handles();
    batches();
    numbers_come_back();
    dropped_functions_call();
    durable();
#if !defined __SANITIZE_ADDRESS__ && !defined __SANITIZE_THREAD__
    forked(); // another thread may hold a lock of a sanitizer's own at a fork: the child hangs then
#endif
    CHECK(refuse(allocations_left) > 20 && refuse(threads_left) >= 2);
    std::printf("%u trials, %zu refused as circles\n", rounds, circles);
}
