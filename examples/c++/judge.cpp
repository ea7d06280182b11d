// Whether the file named is a sound .zt file. g++ -std=c++17 judge.cpp $(pkg-config --cflags --libs zt)
#include <fstream>
#include <iostream>
#include <iterator>
#include <zt.h>
int main(int count, char **words) {
    std::ifstream in(count == 2 ? words[1] : "", std::ios::binary);
    if (!in) return std::cerr << "usage: judge PATH\n", 2;
    const std::string file(std::istreambuf_iterator<char>(in), {});
    const auto refusal = zt_accept(reinterpret_cast<const uint8_t *>(file.data()), file.size());
    return std::cout << (refusal == ZT_ACCEPTED ? "sound" : zt_refusal_name(refusal)) << "\n", refusal != ZT_ACCEPTED;
}
