// The headers in C++11: a book that closes itself, and the hub. That of the loop needs only to compile.
#include "cmwq_loop.h"
#include <cstdio>
#include <string>

namespace {

class Book {
public:
  Book(const cmwq_shape &shape, const cmwq_queue *queues, size_t len)
  {
      status_ = cmwq_open(&book_, &shape, queues, len);
  }
    ~Book() { cmwq_close(&book_); }
    Book(const Book &) = delete;
    Book &operator=(const Book &) = delete;
    bool is_open() const { return status_ == CMWQ_OK; }

    std::string step(const std::string &call)
    {
        uint8_t line[CMWQ_LINE];
        size_t len = 0;
        uint32_t status = cmwq_step_line(&book_, reinterpret_cast<const uint8_t *>(call.data()), call.size(), line,
                                         sizeof line, &len);
        return status == CMWQ_OK ? std::string(reinterpret_cast<char *>(line), len)
                                 : "status " + std::to_string(status);
    }

private:
    cmwq_book book_ = {};
    uint32_t status_;
};

void add_one(cmwq_run *, void *data) { ++*static_cast<int *>(data); }

}

int main()
{
    cmwq_shape shape = {};
    cmwq_queue queue = {1, 0, 0, 0};
    shape.room = shape.keep = 100;
    shape.items = shape.cpus = shape.callers = shape.workers = 1;
    Book book(shape, &queue, 1);
    if (!book.is_open() || book.step("c0 queue 0 0 0") != "c0 0 queue 0 0 0 = yes 0\n" ||
        book.step("c9 fire") != "status 1")
        return 1;

    static cmwq_hub hub;
    int ran = 0;
    cmwq_work work = {add_one, &ran};
    cmwq_options options = {};
    options.queues = &queue;
    options.queue_count = options.items = 1;
    options.works = &work;
    if (cmwq_hub_open(&hub, &options) != CMWQ_OK)
        return 1;
    int queued = cmwq_queue_work_on(&hub, 0, 0, 0), flushed = cmwq_flush_workqueue(&hub, 0, CMWQ_FOREVER),
        closed = cmwq_hub_close(&hub);
    std::printf("queued %d, flushed %d, closed %d, ran %d\n", queued, flushed, closed, ran);
    return queued == 1 && flushed == 1 && closed == CMWQ_OK && ran == 1 ? 0 : 1;
}
