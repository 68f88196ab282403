// Eight readings of one shot of 12.345 m with a sigma of 4 mm.
//
//   c++ noise.cpp $(pkg-config --cflags --libs jabulghi) -o noise
#include <array>
#include <iomanip>
#include <iostream>
#include <jabulghi.h>

int main() {
    jabulghi_record record;
    std::array<std::int16_t, 8> block;
    if (jabulghi_seed(3770694558, 3532774216, 2901327257, 4093209576, 2137023497, 2889436789, &record) != JABULGHI_OK)
        return 1;
    if (jabulghi_block(&record, block.data(), block.size()) != JABULGHI_OK) return 1;
    std::cout << std::fixed << std::setprecision(2);
    for (auto sample : block) std::cout << 12345 + 4.0 * sample / 2048 << " mm\n";
}
