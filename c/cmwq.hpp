// Workqueues for C++17, over cmwq_hub.h.
//
//     cmwq::workqueues all(cmwq::shape{}.cpus(2).workers(4).queue("disk", cmwq::max_active(2)));
//     cmwq::queue disk = all.queue("disk");
//     cmwq::item write = disk.make([&](cmwq::run &) { log.write(); });    // at most one run at a time
//     write.queue();
//     write.queue_delayed(50ms);
//     disk.flush();                                                       // what was queued has ended
//     write.cancel_sync();                                                // it neither is pending nor runs
//                                                                         // ~workqueues: the rest ends; joins
//
// What is refused is thrown as a cmwq::failure, whose code() is a status of cmwq.h or cmwq_hub.h. In a work function
// the same calls, by whatever handle, are the run's. Handles may outlive the workqueues: their calls are refused then.
// Destructors take no memory and throw nothing.
#ifndef CMWQ_HPP
#define CMWQ_HPP
#include "cmwq_hub.h"
#include <algorithm>
#include <atomic>
#include <chrono>
#include <exception>
#include <functional>
#include <memory>
#include <mutex> // not needed here any more, nor <thread>, but programs may count on them
#include <ostream>
#include <stdexcept>
#include <string>
#include <thread>
#include <utility>
#include <vector>

namespace cmwq {

using std::chrono::milliseconds;
using std::chrono::nanoseconds;

class failure : public std::runtime_error {
    int code_;

public:
    explicit failure(int code) : std::runtime_error(std::string("cmwq: ") + cmwq_why(-code)), code_(code) {}
    int code() const noexcept { return code_; }
};

// The journal of durable workqueues is no legal history, because of this line.
class bad_journal : public failure {
    uint64_t line_;

public:
    explicit bad_journal(uint64_t line) : failure(CMWQ_BAD_JOURNAL), line_(line) {}
    uint64_t line() const noexcept { return line_; }
};

// What a call of cmwq_hub.h returned, if that is no failure.
inline int done(int result)
{
    if (result < 0) throw failure(-result);
    return result;
}

struct queue_options {
    cmwq_queue of;
    queue_options high() const { auto made = *this; made.of.high = 1; return made; }
    queue_options intensive() const { auto made = *this; made.of.intensive = 1; return made; }
    queue_options freezable() const { auto made = *this; made.of.freezable = 1; return made; }
};

// What is no number of 16 bits is refused with all else that is above the limit.
inline queue_options max_active(uint64_t most) { return {{uint16_t(std::min<uint64_t>(most, UINT16_MAX)), 0, 0, 0}}; }

class run;
using work = std::function<void(run &)>;

struct shape {
    struct named { std::string name, queue; work function; unsigned cpu; };

    cmwq_options of{};
    std::string file;
    std::vector<named> items_named;
    std::function<bool(const std::string &)> asks;
    std::vector<std::string> names;
    std::vector<cmwq_queue> queues;
    std::ostream *to = nullptr;

    shape() { of.items = 256; }
    shape &cpus(unsigned n) { of.cpus = n; return *this; }
    shape &workers(unsigned n) { of.workers = n; return *this; }
    shape &items(unsigned n) { of.items = n; return *this; }
    shape &waits(unsigned n) { of.waits = n; return *this; }
    shape &keep(unsigned n) { of.keep = n; return *this; }
    shape &room(uint64_t n) { of.room = n; return *this; }
    shape &spins(unsigned n) { of.spins = n; return *this; }
    shape &tick(nanoseconds n)
    {
        if (n.count() < 0) throw failure(CMWQ_REFUSED);
        of.tick_ns = uint64_t(n.count());
        return *this;
    }
    shape &history(std::ostream &out) { to = &out; return *this; } // it outlives the workqueues
    // An item with a name, of this queue and CPU. Workqueues have it from their beginning on.
    shape &item(std::string name, std::string queue, work function, unsigned cpu = 0)
    {
        for (const named &it : items_named)
            if (it.name == name) throw std::invalid_argument("cmwq: two items have the name " + name);
        items_named.push_back({std::move(name), std::move(queue), std::move(function), cpu});
        return *this;
    }
    // What is queued or delayed outlives the program, with its journal in this file. Such workqueues have items with
    // names alone, in the same order in each life; new ones come last.
    shape &durable(std::string path) { file = std::move(path); return *this; }
    shape &sync(cmwq_sync level) { of.sync = level; return *this; } // CMWQ_SYNC_DATA, if it isn't called
    shape &each() { of.each = true; return *this; }                 // calls of no run return once they are durable
    shape &keep_old() { of.keep_old = true; return *this; }
    // Whether the run of this item that was broken off is had again.
    shape &again(std::function<bool(const std::string &item)> asked) { asks = std::move(asked); return *this; }
    shape &queue(std::string name, queue_options options)
    {
        if (std::find(names.begin(), names.end(), name) != names.end())
            throw std::invalid_argument("cmwq: two queues have the name " + name);
        queues.reserve(queues.size() + 1); // both get it or none
        names.push_back(std::move(name));
        queues.push_back(options.of);
        return *this;
    }
};

// The run of a work function.
class run {
    cmwq_run *run_;
    unsigned queue_, cpu_;
    uint64_t tick_;

public:
    run(cmwq_run *of, unsigned queue, unsigned cpu, uint64_t tick) : run_(of), queue_(queue), cpu_(cpu), tick_(tick) {}
    bool requeue() { return done(cmwq_queue_work_on(run_->hub, cpu_, queue_, run_->item)); }
    bool requeue_after(nanoseconds delay)
    {
        uint64_t ticks = delay.count() > 0 ? (uint64_t(delay.count()) + tick_ - 1) / tick_ : 0;
        return done(cmwq_queue_delayed_work_on(run_->hub, cpu_, queue_, run_->item, ticks));
    }
    // Does what blocks. Others of the pool may run meanwhile, if the history has room for the sleep.
    template <class Blocks> auto block(Blocks blocks)
    {
        struct wakes { cmwq_run *run; bool slept; ~wakes() { if (slept) cmwq_worker_running(run->hub); } };
        wakes then{run_, cmwq_worker_sleeping(run_->hub) == 1};
        return blocks();
    }
};

namespace detail {

struct hub;

// A number for an item, with its function.
struct slot {
    hub *of;
    unsigned number, queue, cpu;
    std::atomic<unsigned> handles;
    work function;
    slot *next;  // of the free ones
    bool orphan; // no handle is left, but it is pending or runs
};

// A hub holds the memory for all that its handles do later, so that these take none. All that follows is under the lock
// of the hub in C, so that a child of a fork does not find it held. No function is called or dropped under it.
struct hub {
    cmwq_hub of{};
    std::unique_ptr<slot[]> slots;
    unsigned items = 0;
    slot *free = nullptr;
    std::exception_ptr thrown; // the first of a work function
    uint64_t tick = 1000000;
    std::ostream *to = nullptr;
    const shape *from = nullptr; // while it is opened
    std::shared_ptr<hub> self; // until the clock's thread has closed it

    struct hold {
        cmwq_hub *of;
        explicit hold(hub &all) : of(&all.of) { pthread_mutex_lock(&of->lock); }
        ~hold() { cmwq_hub_unlock_(of); }
        hold(const hold &) = delete;
    };

    ~hub()
    {
        if (cmwq_hub_leave(&of) == -CMWQ_REFUSED) cmwq_hub_close(&of);
        if (of.forked) slots.release(); // a function may have been in the middle of its run
    }

    void make_slots(unsigned many)
    {
        slots.reset(new slot[many]());
        items = many;
        for (unsigned k = many; k-- > 0;) {
            slots[k].of = this;
            slots[k].number = k;
            slots[k].next = std::exchange(free, &slots[k]);
        }
    }

    // Gives the first numbers to the items with names, which keep them.
    void name_slots(const shape &of_these)
    {
        for (const shape::named &it : of_these.items_named) {
            auto found = std::find(of_these.names.begin(), of_these.names.end(), it.queue);
            slot &own = *std::exchange(free, free->next);
            if (found == of_these.names.end()) throw std::out_of_range("cmwq: no queue " + it.queue);
            own.queue = unsigned(found - of_these.names.begin());
            own.cpu = it.cpu;
            own.function = it.function;
            own.handles = 1;
        }
    }

    static bool again(void *at, unsigned item)
    {
        const shape &from = *static_cast<hub *>(at)->from;
        return from.asks(from.items_named[item].name);
    }

    // Lets what is queued end, or keeps it; joins, and drops the functions, which may have handles of their own. If
    // another thread closes it, that one drops them.
    int end(bool keeps)
    {
        int result = keeps ? cmwq_hub_leave(&of) : cmwq_hub_close(&of);
        if (result == CMWQ_OK || result == -CMWQ_NO_JOURNAL || result == -CMWQ_DISK_FAILED)
            for (unsigned k = 0; k < items; k++) work().swap(slots[k].function);
        return result;
    }

    // Waits until the thread that closes it has joined all others.
    void wait_for_end()
    {
        hold now(*this);
        while (of.state == CMWQ_CLOSING_) pthread_cond_wait(&of.changed, &of.lock);
    }

    // Leaves it to the clock's thread to close it, which needs no memory and no other thread.
    static void leave(const std::shared_ptr<hub> &all)
    {
        all->self = all;
        if (!cmwq_hub_leave_(&all->of, finish, all.get())) all->self = nullptr;
    }
    static void finish(void *at)
    {
        std::shared_ptr<hub> self = std::move(static_cast<hub *>(at)->self);
        self->end(self->of.disk.is);
    }

    static bool write(void *at, const char *text, size_t len)
    {
        std::ostream &out = *static_cast<hub *>(at)->to;
        try { return bool(out.write(text, std::streamsize(len)).flush()); } catch (...) { return false; }
    }

    static void call(cmwq_run *now, void *at)
    {
        slot &own = *static_cast<slot *>(at);
        try {
            run of(now, own.queue, own.cpu, own.of->tick);
            own.function(of);
        } catch (...) {
            hold its(*own.of);
            if (!own.of->thrown) own.of->thrown = std::current_exception();
        }
    }

    // Gives a function a number.
    slot *add(work &function, unsigned queue, unsigned cpu)
    {
        int status = CMWQ_OK;
        slot *own = nullptr;
        {
            hold its(*this);
            if (of.state != CMWQ_OPEN_) status = of.state == CMWQ_NONE_ ? CMWQ_CLOSED : CMWQ_STOPPED;
            else if ((own = free)) {
                free = own->next;
                own->queue = queue;
                own->cpu = cpu;
                own->function.swap(function);
                own->handles.store(1, std::memory_order_relaxed);
            }
        }
        if (status != CMWQ_OK) throw failure(status);
        if (!own) throw std::length_error("cmwq: no item is left: shape::items");
        return own;
    }

    // Of an item without a handle: takes its number back, and its function, if it neither is pending nor runs. The
    // board is asked under the lock, so that this is so or a run will end.
    bool take_back(slot &own, work &function)
    {
        cmwq_item state;
        own.orphan = cmwq_board_item(&of.board, uint16_t(own.number), &state) != CMWQ_OK ||
                     state.pending != CMWQ_NOT_PENDING || state.runs;
        if (own.orphan) return false;
        function.swap(own.function);
        own.next = std::exchange(free, &own);
        return true;
    }

    // The last handle is dropped. Of a closed hub the functions are left to whoever closed it.
    void release(slot &own)
    {
        work gone;
        hold its(*this);
        if (of.state != CMWQ_NONE_) take_back(own, gone);
    } // the lock is let go before the function is dropped

    // A run has ended; the lock is held.
    static void ended(cmwq_hub *of, unsigned item)
    {
        slot &own = *static_cast<slot *>(of->works[item].data);
        work gone;
        if (!own.orphan || !own.of->take_back(own, gone)) return;
        cmwq_hub_unlock_(of);
        gone = nullptr;
        pthread_mutex_lock(&of->lock);
    }

    uint64_t ticks(nanoseconds delay) const
    {
        return delay.count() > 0 ? (uint64_t(delay.count()) + tick - 1) / tick : 0;
    }
};

inline unsigned timeout_of(milliseconds timeout)
{
    return unsigned(std::clamp<milliseconds::rep>(timeout.count(), 0, milliseconds::rep(CMWQ_FOREVER) - 1));
}

// Whether a wait has ended in time.
inline bool in_time(int result) { return result == -CMWQ_TIMED_OUT ? false : (done(result), true); }

} // namespace detail

// A handle of an item. What is queued runs also once no handle is left. It is empty if it was moved from: then it is
// false, and its calls throw a std::logic_error.
class item {
    std::shared_ptr<detail::hub> hub_;
    detail::slot *slot_ = nullptr;
    friend class queue;
    friend class workqueues;
    item(std::shared_ptr<detail::hub> hub, detail::slot *slot) noexcept : hub_(std::move(hub)), slot_(slot) {}
    const detail::slot &own() const
    {
        if (!slot_) throw std::logic_error("cmwq: the item is empty: it was moved from, or never made");
        return *slot_;
    }
    cmwq_hub *hub() const { return &own().of->of; }
    uint64_t ticks(nanoseconds delay) const { return own().of->ticks(delay); }

public:
    item() noexcept = default;
    item(const item &from) noexcept : hub_(from.hub_), slot_(from.slot_)
    {
        if (slot_) slot_->handles.fetch_add(1, std::memory_order_relaxed);
    }
    item(item &&from) noexcept : hub_(std::move(from.hub_)), slot_(std::exchange(from.slot_, nullptr)) {}
    item &operator=(item from) noexcept
    {
        hub_.swap(from.hub_);
        std::swap(slot_, from.slot_);
        return *this;
    }
    ~item()
    {
        if (slot_ && slot_->handles.fetch_sub(1, std::memory_order_acq_rel) == 1) hub_->release(*slot_);
    }
    explicit operator bool() const noexcept { return slot_; }

    bool queue() const { return done(cmwq_queue_work_on(hub(), own().cpu, own().queue, own().number)); }
    bool queue_delayed(nanoseconds delay) const
    {
        return done(cmwq_queue_delayed_work_on(hub(), own().cpu, own().queue, own().number, ticks(delay)));
    }
    bool modify(nanoseconds delay) const
    {
        return done(cmwq_mod_delayed_work_on(hub(), own().cpu, own().queue, own().number, ticks(delay)));
    }
    bool cancel() const { return done(cmwq_cancel_work(hub(), own().number)); }
    bool cancel_sync() const { return done(cmwq_cancel_work_sync(hub(), own().number, CMWQ_FOREVER)); }
    bool flush() const { return done(cmwq_flush_work(hub(), own().number, CMWQ_FOREVER)); }
    bool flush_delayed() const { return done(cmwq_flush_delayed_work(hub(), own().number, CMWQ_FOREVER)); }
    // The same with a timeout: whether it has ended in time.
    bool cancel_sync_for(milliseconds time) const
    {
        return detail::in_time(cmwq_cancel_work_sync(hub(), own().number, detail::timeout_of(time)));
    }
    bool flush_for(milliseconds time) const
    {
        return detail::in_time(cmwq_flush_work(hub(), own().number, detail::timeout_of(time)));
    }
    bool flush_delayed_for(milliseconds time) const
    {
        return detail::in_time(cmwq_flush_delayed_work(hub(), own().number, detail::timeout_of(time)));
    }
    bool is_pending() const { return done(cmwq_work_busy(hub(), own().number)) & 1; }
    bool is_running() const { return done(cmwq_work_busy(hub(), own().number)) & 2; }
};

class queue {
    std::shared_ptr<detail::hub> hub_;
    unsigned number_;
    friend class workqueues;
    queue(std::shared_ptr<detail::hub> hub, unsigned number) : hub_(std::move(hub)), number_(number) {}

public:
    // it is copied where others are moved, so that it is never empty
    queue(const queue &) = default;
    queue &operator=(const queue &) = default;

    // An item of this queue, on this CPU.
    item make(work function, unsigned cpu = 0) const
    {
        if (cpu >= hub_->of.is.cpus) throw failure(CMWQ_REFUSED);
        return item(hub_, hub_->add(function, number_, cpu));
    }
    // Queues many items on this queue, each on its CPU, with one hold of the lock for each CMWQ_BATCH items in a row
    // that have one CPU. Returns how many were not pending. The items before one that fails are queued.
    template <class Items> size_t queue_all(const Items &items) const
    {
        unsigned numbers[CMWQ_BATCH], cpu = 0;
        size_t many = 0, queued = 0;
        auto put = [&] { queued += size_t(done(cmwq_queue_all(&hub_->of, cpu, number_, numbers, many, nullptr))); };
        for (const item &each : items) {
            bool is_own = each && each.own().of == hub_.get();
            if (many && (!is_own || many == CMWQ_BATCH || each.own().cpu != cpu)) {
                put();
                many = 0;
            }
            if (each.own().of != hub_.get()) throw failure(CMWQ_REFUSED);
            cpu = each.own().cpu;
            numbers[many++] = each.own().number;
        }
        put();
        return queued;
    }
    void flush() const { done(cmwq_flush_workqueue(&hub_->of, number_, CMWQ_FOREVER)); }
    void drain() const { done(cmwq_drain_workqueue(&hub_->of, number_, CMWQ_FOREVER)); }
    void destroy() const { done(cmwq_destroy_workqueue(&hub_->of, number_, CMWQ_FOREVER)); }
    bool flush_for(milliseconds time) const
    {
        return detail::in_time(cmwq_flush_workqueue(&hub_->of, number_, detail::timeout_of(time)));
    }
    bool drain_for(milliseconds time) const
    {
        return detail::in_time(cmwq_drain_workqueue(&hub_->of, number_, detail::timeout_of(time)));
    }
    unsigned set_max_active(unsigned most) const
    {
        return unsigned(done(cmwq_workqueue_set_max_active(&hub_->of, number_, most)));
    }
};

class workqueues {
    std::shared_ptr<detail::hub> hub_ = std::make_shared<detail::hub>();
    std::vector<std::string> names_, items_;

public:
    explicit workqueues(const shape &from) : names_(from.names)
    {
        cmwq_options options = from.of;
        size_t named = from.items_named.size();
        if (!from.file.empty() || options.items < named) options.items = unsigned(std::min<size_t>(named, UINT_MAX));
        if (options.items > UINT16_MAX) throw failure(CMWQ_REFUSED);
        for (const shape::named &it : from.items_named) {
            if (it.cpu >= std::max(options.cpus, 1u)) throw failure(CMWQ_REFUSED);
            items_.push_back(it.name);
        }
        std::vector<cmwq_work> works(options.items);
        hub_->make_slots(options.items);
        hub_->name_slots(from);
        for (unsigned k = 0; k < options.items; k++) works[k] = {detail::hub::call, &hub_->slots[k]};
        hub_->tick = options.tick_ns ? options.tick_ns : hub_->tick;
        hub_->to = from.to;
        options.works = works.data();
        options.queues = from.queues.data();
        options.queue_count = from.queues.size();
        options.journal = from.to ? detail::hub::write : nullptr;
        options.journal_data = hub_.get();
        options.ended_ = detail::hub::ended;
        options.durable = from.file.empty() ? nullptr : from.file.c_str();
        options.again = from.asks ? detail::hub::again : nullptr;
        options.again_data = hub_.get();
        hub_->from = &from;
        int result = cmwq_hub_open(&hub_->of, &options);
        hub_->from = nullptr;
        if (result == -CMWQ_BAD_JOURNAL) throw bad_journal(hub_->of.line);
        done(result);
    }
    workqueues(const workqueues &) = delete;
    workqueues &operator=(const workqueues &) = delete;
    ~workqueues()
    {
        // not in a work function or a journal of its own
        if (hub_->end(hub_->of.disk.is) == -CMWQ_NOT_NOW) detail::hub::leave(hub_);
    }

    // Lets what is queued end, joins, and throws what a work function has thrown. Where another thread does so, or did,
    // it waits for that.
    void shutdown() { end(false); }
    // The same of durable workqueues, but starts nothing more, and keeps what is queued or delayed for the next life.
    void leave() { end(true); }
    // Of durable workqueues: returns once all that was called so far is on the disk.
    void sync() const { done(cmwq_hub_sync(&hub_->of)); }

private:
    void end(bool keeps)
    {
        int result = hub_->end(keeps);
        if (result == -CMWQ_REFUSED) throw failure(CMWQ_REFUSED);
        if (result == -CMWQ_NOT_NOW) throw failure(CMWQ_NOT_NOW);
        if (result == -CMWQ_CLOSED) hub_->wait_for_end();
        std::exception_ptr thrown;
        {
            detail::hub::hold its(*hub_);
            thrown = std::exchange(hub_->thrown, nullptr);
        }
        if (thrown) std::rethrow_exception(thrown);
        if (result != -CMWQ_CLOSED) done(result);
    }

public:
    // The item with this name, of the shape.
    cmwq::item item(const std::string &name) const
    {
        auto found = std::find(items_.begin(), items_.end(), name);
        if (found == items_.end()) throw std::out_of_range("cmwq: no item " + name);
        detail::slot *own = &hub_->slots[size_t(found - items_.begin())];
        own->handles.fetch_add(1, std::memory_order_relaxed);
        return cmwq::item(hub_, own);
    }
    cmwq::queue queue(const std::string &name) const
    {
        for (size_t k = 0; k < names_.size(); k++)
            if (names_[k] == name) return cmwq::queue(hub_, unsigned(k));
        throw std::out_of_range("cmwq: no queue " + name);
    }
    bool freeze() const { return done(cmwq_freeze_workqueues(&hub_->of)); }
    bool thaw() const { return done(cmwq_thaw_workqueues(&hub_->of)); }
};

} // namespace cmwq
#endif
