// A drive in this program's own process: as drive.c, by the objects of sercos.hpp.
//
// At the top of the repository, after tools/library, or in the folder of a release, which has the library in lib/:
//
//   mkdir -p build && c++ -std=c++17 -Iinclude -o build/drive_cpp examples/embed/drive.cpp -Lbuild -Llib -l:libsercos.a
//   build/drive_cpp examples/one_read.toml
#include "sercos.hpp"

#include <fstream>
#include <iostream>
#include <iterator>

namespace {

struct Cycle {
    std::uint8_t phase;
    std::optional<sercos_record> step;
};

sercos_record step(bool mhs, bool write, bool last, std::uint8_t element, std::uint16_t info) {
    return {mhs, write, last, element, 0, info};
}

const Cycle cycles[] = {
    {0, std::nullopt},
    {1, step(false, false, false, 0, 0)},
    {2, step(true, true, true, 1, 0x0003)}, // open S-0-0003
    {2, step(false, false, true, 7, 0)},    // read its operation data
    {2, step(false, false, false, 0, 0)},
};

void play(sercos::Drive &drive, std::uint32_t number, const Cycle &cycle) {
    drive.hear_mst(number, sercos::write(sercos_mst{cycle.phase}));
    std::cout << "cycle " << number << " phase " << drive.phase();
    if (auto sent = drive.at()) {
        auto at = sercos::read_at(1, 4, sent->content);
        std::cout << " AT at " << sent->start << " ahs " << at->ahs << " info " << at->info;
    }
    std::cout << "\n";
    std::optional<sercos::Bytes> mdt;
    if (cycle.step)
        mdt = sercos::write(1, *cycle.step);
    drive.hear_mdt(mdt);
}

} // namespace

int main(int count, char **words) try {
    std::ifstream file(count == 2 ? words[1] : "", std::ios::binary);
    std::string document{std::istreambuf_iterator<char>(file), {}};
    sercos::Drive drive(document, 0);
    std::uint32_t number = 0;
    for (const Cycle &cycle : cycles)
        play(drive, number++, cycle);
    return 0;
} catch (const sercos::Error &error) {
    std::cerr << error.what() << "\n";
    return 1;
}
