/* Prints how long an exception takes, in nanoseconds, from where it is thrown to where it is caught: in one
 * function of the program, through ten functions of a library, and with eight threads that throw at once.
 * With -DLIBRARY this is the library. With an argument the program only starts and ends. */
#include <chrono>
#include <iostream>
#include <stdexcept>
#include <thread>
#include <vector>

int fall(int depth);
#ifdef LIBRARY
__attribute__((noinline)) int fall(int depth) {
    if (!depth) throw std::runtime_error("fallen");
    int below = fall(depth - 1);
    asm volatile("" : "+r"(below)); /* no loop instead of the calls */
    return below + depth;
}
#else
static int caught(int depth) {
    try {
        if (depth < 0) throw std::runtime_error("here");
        return fall(depth);
    } catch (const std::exception &) {
        return 1;
    }
}
static double each(int depth, int threads) {
    const int count = 50000;
    auto from = std::chrono::steady_clock::now();
    std::vector<std::thread> all;
    for (int i = 0; i < threads; i++)
        all.emplace_back([=] {
            for (int k = 0; k < count; k++) caught(depth);
        });
    for (auto &it : all) it.join();
    std::chrono::duration<double, std::nano> took = std::chrono::steady_clock::now() - from;
    return took.count() / count;
}
int main(int words, char **) {
    if (words > 1) return 0;
    std::cout << "in a function " << (int)each(-1, 1) << ", through 10 of a library " << (int)each(10, 1)
              << ", in each of 8 threads " << (int)each(10, 8) << std::endl;
}
#endif
