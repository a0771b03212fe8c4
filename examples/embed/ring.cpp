// A master and its drives, coupled without bits: as ring.c, by the objects of sercos.hpp.
//
// At the top of the repository, after tools/library, or in the folder of a release, which has the library in lib/:
//
//   mkdir -p build && c++ -std=c++17 -Iinclude -o build/ring_cpp examples/embed/ring.cpp -Lbuild -Llib -l:libsercos.a
//   build/ring_cpp examples/one_read.toml
#include "sercos.hpp"

#include <algorithm>
#include <deque>
#include <fstream>
#include <iostream>
#include <iterator>

namespace {

std::deque<sercos::Drive> drives_of(const std::string &document) {
    std::deque<sercos::Drive> drives;
    try {
        for (;;)
            drives.emplace_back(document, drives.size());
    } catch (const sercos::Error &error) {
        // There is no such drive.
        if (error.status != SERCOS_NO)
            throw;
    }
    return drives;
}

// The ATs of a cycle in the order in which they start, those of one start in the order of the ring.
std::vector<sercos::Timed> ats_of(std::deque<sercos::Drive> &drives) {
    std::vector<sercos::Timed> ats;
    for (auto &drive : drives)
        if (auto at = drive.at())
            ats.push_back(std::move(*at));
    std::stable_sort(ats.begin(), ats.end(), [](const auto &one, const auto &other) { return one.start < other.start; });
    return ats;
}

void run_cycle(sercos::Master &master, std::deque<sercos::Drive> &drives, std::uint32_t cycle) {
    sercos::Bytes mst = master.mst();
    for (auto &drive : drives)
        drive.hear_mst(cycle, mst);
    master.hear_mst(mst);
    for (const auto &at : ats_of(drives))
        master.hear_at(at.content);
    auto mdt = master.mdt();
    for (auto &drive : drives)
        drive.hear_mdt(mdt ? sercos::Arrival(mdt->content) : sercos::Arrival());
    master.end_cycle();
}

} // namespace

int main(int count, char **words) try {
    std::ifstream file(count == 2 ? words[1] : "", std::ios::binary);
    std::string document{std::istreambuf_iterator<char>(file), {}};
    sercos::Master master(document);
    auto drives = drives_of(document);
    for (std::uint32_t cycle = 0; cycle < 300; cycle++) {
        run_cycle(master, drives, cycle);
        std::cout << master.events();
    }
    std::cout << "phase " << master.command() << " after 300 cycles\n";
    return 0;
} catch (const sercos::Error &error) {
    std::cerr << error.what() << "\n";
    return 1;
}
