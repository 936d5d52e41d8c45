/* Uses most of C++'s standard library, with two libraries and a module. */
#include "driver_cxx.h"
#include <algorithm>
#include <chrono>
#include <condition_variable>
#include <dlfcn.h>
#include <filesystem>
#include <fstream>
#include <future>
#include <iostream>
#include <locale>
#include <map>
#include <memory>
#include <regex>
#include <sstream>
#include <thread>
#include <typeinfo>
#include <vector>

namespace files = std::filesystem;

static void exceptions() {
    try {
        make_shape(7);
    } catch (const std::exception &found) {
        std::cout << found.what() << " " << (typeid(found) == typeid(std::out_of_range)) << "\n";
    }
    try {
        square it(5);
        visit(it, [](const shape &) -> int { throw_failure(1); return 0; });
    } catch (const std::logic_error &outer) {
        try {
            std::rethrow_if_nested(outer);
        } catch (const failure &inner) {
            std::cout << outer.what() << ": " << inner.what() << "\n";
        }
    }
    try {
        std::vector<int>().at(3);
    } catch (const std::out_of_range &) {
        std::cout << "out of range\n";
    }
    volatile std::size_t most = ~std::size_t(0) / 4;
    try {
        ::operator delete(::operator new(most));
    } catch (const std::bad_alloc &) {
        std::cout << "bad_alloc\n";
    }
}
static void types() {
    std::unique_ptr<shape> one(make_shape(0)), other(make_shape(1));
    const square *found = dynamic_cast<const square *>(other.get());
    std::cout << (dynamic_cast<const square *>(one.get()) == nullptr) << found->side << " "
              << (typeid(*other) == typeid(square)) << " " << shape::alive << "\n";
    try {
        dynamic_cast<const square &>(*one);
    } catch (const std::bad_cast &) {
        std::cout << "bad_cast, " << next_number() << "\n";
    }
}
static void module() {
    void *handle = dlopen("./libmodule.so", RTLD_NOW);
    if (!handle) {
        std::cout << dlerror() << "\n";
        return;
    }
    auto make = reinterpret_cast<shape *(*)()>(dlsym(handle, "make"));
    auto fail = reinterpret_cast<void (*)()>(dlsym(handle, "fail"));
    std::unique_ptr<shape> made(make());
    std::cout << "module: " << dynamic_cast<square &>(*made).area() << "\n";
    try {
        fail();
    } catch (const failure &found) {
        std::cout << found.what() << ", " << found.number << "\n";
    }
}
static void threads() {
    std::mutex mutex;
    std::condition_variable changed;
    int waiting = 0;
    std::vector<std::thread> all;
    for (int i = 0; i < 8; i++)
        all.emplace_back([&, i] {
            for (int k = 0; k < 500; k++) {
                try {
                    throw_failure(k % 2);
                } catch (const failure &) {
                }
            }
            std::unique_lock<std::mutex> lock(mutex);
            if (++waiting == 8) changed.notify_all();
            changed.wait(lock, [&] { return waiting >= 8 + i; });
            use_thread_local(i);
            waiting++;
            changed.notify_all();
        });
    for (auto &it : all) it.join();
    std::string names = names_of_ended_threads();
    std::sort(names.begin(), names.end());
    std::cout << "ended:" << names << ", alive " << shape::alive << "\n";
    std::future<int> answer = std::async(std::launch::async, [] { return next_number() > 2000 ? 42 : 0; });
    std::promise<void> broken;
    std::future<void> told = broken.get_future();
    std::thread([&] { broken.set_exception(std::make_exception_ptr(failure("promised", 1))); }).join();
    try {
        told.get();
    } catch (const failure &found) {
        std::cout << answer.get() << " " << found.what() << "\n";
    }
    std::once_flag once;
    for (int i = 0; i < 3; i++) std::call_once(once, [] { std::cout << "once\n"; });
}
static void texts() {
    std::smatch found;
    const std::string text = "libone.so.12 and libtwo.so.3";
    std::regex_search(text, found, std::regex(R"((\w+)\.so\.(\d+)$)"));
    std::cout << found[1] << " " << found[2] << " "
              << std::regex_replace(text, std::regex("lib(.)"), "$1_") << "\n";
    std::ostringstream out;
    out << std::hex << 255 << " " << std::fixed << 1.5 << " " << std::boolalpha << true;
    double number = 0;
    std::istringstream("2.25") >> number;
    std::cout << out.str() << " " << number << " " << std::stoi("-17") << " " << std::to_string(0.5) << "\n";
    try {
        std::stoi("none");
    } catch (const std::invalid_argument &found) {
        std::cout << found.what() << "\n";
    }
    std::wostringstream wide;
    wide << L"wide " << 7;
    std::cout << wide.str().size() << "\n";
    std::map<std::string, int> count;
    for (char it : std::string("abca")) count[std::string(1, it)]++;
    std::cout << count["a"] << count.size() << " " << std::locale().name() << "\n";
}
static void folders() {
    files::create_directories("made/inner");
    std::ofstream("made/inner/file") << "line 1\nline 2\n";
    std::ifstream in("made/inner/file");
    std::string line;
    int lines = 0;
    while (std::getline(in, line)) lines++;
    int entries = 0;
    for (const auto &it : files::recursive_directory_iterator("made")) entries += it.exists();
    std::cout << lines << " lines, " << entries << " entries, " << files::file_size("made/inner/file") << "\n";
    files::remove_all("made");
    try {
        std::cout << files::file_size("made") << "\n";
    } catch (const files::filesystem_error &found) {
        std::cout << found.path1() << " " << found.code().value() << "\n";
    }
}
static struct program {
    ~program() { std::cout << "program ends" << std::endl; }
} last;
int main() {
    exceptions();
    types();
    module();
    threads();
    texts();
    folders();
    return shape::alive;
}
