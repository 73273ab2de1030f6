// The program of docs/C.md in C++.
#include "cmwq.hpp"
#include <iostream>

int main()
{
    using namespace std::chrono_literals;
    cmwq::workqueues all(cmwq::shape{}.workers(4).queue("disk", cmwq::max_active(2)));
    cmwq::queue disk = all.queue("disk");
    unsigned lines = 0;
    cmwq::item write = disk.make([&](cmwq::run &) { lines++; });
    cmwq::item report = disk.make([&](cmwq::run &) {
        write.flush(); // the run sleeps meanwhile
        std::cout << lines << " line\n";
        try { report.flush(); } catch (const cmwq::failure &failure) { std::cout << failure.what() << '\n'; }
    });
    write.queue();
    report.queue_delayed(5ms);
    report.flush_delayed();
}
