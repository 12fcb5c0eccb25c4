// A filter in C++, loaded once: the one below, or the only global function of the ELF object that the first word names. Over
// several runs the board counts what was let through.
#include <byzlab_sandbox.h>
#include <array>
#include <cstdint>
#include <cstdio>
#include <fstream>
#include <iterator>
#include <vector>

namespace {

using Bytes = std::vector<std::uint8_t>;

const Bytes own_filter = {
    0x71, 0x16, 0, 0, 0, 0, 0, 0, // r6 = the context's first byte
    0xb7, 0x00, 0, 0, 0, 0, 0, 0, // r0 = 0
    0x25, 0x06, 4, 0, 9, 0, 0, 0, // if r6 > 9 goto the exit
    0xb7, 0x01, 0, 0, 3, 0, 0, 0, // r1 = slot 3
    0xb7, 0x02, 0, 0, 1, 0, 0, 0, // r2 = 1
    0x85, 0x00, 0, 0, 3, 0, 0, 0, // r0 = board_add(3, 1), the old word
    0xb7, 0x00, 0, 0, 1, 0, 0, 0, // r0 = 1
    0x95, 0x00, 0, 0, 0, 0, 0, 0, // exit
};

// The bytes of an object's program. There are none if the object has a fault.
Bytes program_of(const char *path, byzlab_fault &fault) {
    std::ifstream file(path, std::ios::binary);
    const Bytes object{std::istreambuf_iterator<char>(file), {}};
    Bytes program(BYZLAB_MOST_BYTES);
    std::size_t needed = 0;
    auto status = byzlab_object(object.data(), object.size(), nullptr, 0, program.data(), program.size(), &needed, &fault);
    program.resize(status == BYZLAB_DONE ? needed : 0);
    return program;
}

// A program that is unloaded at the end of its scope.
struct Loaded : byzlab_program {
    Loaded() : byzlab_program{} {}
    Loaded(const Loaded &) = delete;
    ~Loaded() { byzlab_unload(this); }
};

} // namespace

int main(int count, char **words) {
    std::array<std::uint64_t, BYZLAB_BOARD_WORDS> board{};
    byzlab_fault fault{};
    const Bytes filter = count > 1 ? program_of(words[1], fault) : own_filter;
    Loaded loaded;
    auto status = byzlab_load(filter.data(), filter.size(), BYZLAB_BOARD_HELPERS, &loaded, &fault);
    for (std::uint8_t value : {3, 12, 9, 200, 0}) {
        byzlab_outcome outcome{};
        if (status == BYZLAB_DONE) status = byzlab_run_loaded(&loaded, &value, 1, board.data(), &outcome);
        if (status != BYZLAB_DONE) {
            std::printf("status %u number %u unit %zu\n", status, fault.number, fault.unit);
            return 1;
        }
        std::printf("%d: %s\n", value, outcome.r0 ? "let through" : "dropped");
    }
    std::printf("let through: %llu\n", static_cast<unsigned long long>(board[3]));
}
