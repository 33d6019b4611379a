// A class that owns a machine: it is loaded where it is made, moved but not copied, and freed at its end.
#include "bpfspec.h"
#include <cstdio>
#include <stdexcept>
#include <string>
#include <string_view>
#include <utility>

class Machine {
public:
    explicit Machine(std::string_view text)
    {
        bpfspec_refusal refusal{};
        const int status = bpfspec_load(&machine_, text.data(), text.size(), &refusal);
        if (status == BPFSPEC_MEMORY)
            throw std::bad_alloc();
        if (status != BPFSPEC_DONE)
            throw std::invalid_argument(std::string(1, static_cast<char>(refusal.kind))
                + std::to_string(refusal.number) + " at " + std::to_string(refusal.place));
    }
    Machine(Machine &&other) noexcept : machine_(std::exchange(other.machine_, {})) {}
    Machine &operator=(Machine &&other) noexcept
    {
        std::swap(machine_, other.machine_);
        return *this;
    }
    Machine(const Machine &) = delete;
    Machine &operator=(const Machine &) = delete;
    ~Machine() { bpfspec_free(&machine_); }

    std::uint64_t run(std::uint64_t argument)
    {
        std::uint64_t answer = 0;
        check(bpfspec_run(&machine_, argument, &answer));
        return answer;
    }
    std::uint64_t get(std::uint32_t map, std::uint32_t index)
    {
        std::uint64_t value = 0;
        check(bpfspec_get(&machine_, map, index, &value));
        return value;
    }

private:
    static void check(int status)
    {
        if (status == BPFSPEC_RANGE)
            throw std::out_of_range("there is no such element");
        if (status != BPFSPEC_DONE)
            throw std::logic_error("the handle holds no machine");
    }
    bpfspec_machine machine_{};
};

int main()
{
    Machine machine("maps 1\n"
                    "ldmapval r2, 0, 0\n"
                    "atomic64 add [r2+0], r1\n"
                    "ldx64 r0, [r2+0]\n"
                    "exit\n");
    Machine moved = std::move(machine);
    for (std::uint64_t number = 1; number <= 100; number++)
        moved.run(number);
    std::printf("%llu\n", static_cast<unsigned long long>(moved.get(0, 0)));
    try {
        Machine refused("maps 1\nexit\n");
    } catch (const std::invalid_argument &why) {
        std::printf("%s\n", why.what());
    }
    return 0;
}
