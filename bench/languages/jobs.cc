// The loads of bench/pools on cmwq.hpp: jobs LOAD ROUNDS WORKERS ITEMS
// Prints how many runs there were in a second of the clock. Each of four callers has ITEMS items.
#include "cmwq.hpp"
#include <atomic>
#include <cstdio>
#include <cstdlib>

int main(int argc, char **argv)
{
    if (argc < 4) return 2;
    std::string load = argv[1];
    unsigned long rounds = std::strtoul(argv[2], nullptr, 10);
    size_t each = argc > 4 ? size_t(std::atoi(argv[4])) : 64;
    std::atomic<unsigned long> runs{0};
    cmwq::shape shape;
    shape.workers(unsigned(std::atoi(argv[3]))).waits(4).items(unsigned(4 * each));
    for (const char *name : {"0", "1", "2", "3"}) shape.queue(name, cmwq::max_active(512));
    cmwq::workqueues all(shape);
    std::vector<cmwq::queue> queues;
    std::vector<cmwq::item> items;
    for (const char *name : {"0", "1", "2", "3"}) queues.push_back(all.queue(name));
    bool fanout = load == "fanout";
    if (load == "self")
        items.push_back(queues[0].make([&](cmwq::run &run) { if (runs.fetch_add(1) + 1 < rounds) run.requeue(); }));
    else
        for (size_t k = 0; k < 4 * each; k++)
            items.push_back(queues[k / each].make([&, k](cmwq::run &) {
                runs++;
                for (size_t leaf = k + 1; fanout && k % each == 0 && leaf < k + each; leaf++) items[leaf].queue();
            }));
    auto begun = std::chrono::steady_clock::now();
    if (load == "self") {
        items[0].queue();
        queues[0].drain();
    } else {
        std::vector<std::thread> callers;
        for (size_t c = 0; c < 4; c++)
            callers.emplace_back([&, c] {
                for (unsigned long round = 0; round < rounds; round++) {
                    for (size_t k = c * each; k < (fanout ? c * each + 1 : c * each + each); k++) items[k].queue();
                    if (fanout) queues[c].drain();
                    else queues[c].flush();
                }
            });
        for (auto &caller : callers) caller.join();
    }
    std::chrono::duration<double> took = std::chrono::steady_clock::now() - begun;
    std::printf("%.0f\n", double(runs) / took.count());
}
