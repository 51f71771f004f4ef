// Streams, exceptions through frames that clean up, thread-local data, threads, a priority of constructors, weak and inline symbols.
#include <algorithm>
#include <exception>
#include <functional>
#include <iomanip>
#include <iostream>
#include <map>
#include <memory>
#include <sstream>
#include <stdexcept>
#include <string>
#include <thread>
#include <typeinfo>
#include <vector>

struct Early { int order; explicit Early(int n) : order(n) {} };
static int count;
__attribute__((init_priority(200))) static Early second(++count);
__attribute__((init_priority(101))) static Early first(++count);
inline int shared_by_name() { static int calls = 0; return ++calls; }
__attribute__((weak)) void nowhere();
thread_local std::vector<int> per_thread{1, 2, 3};

struct Base { virtual ~Base() {} virtual std::string name() const = 0; };
struct One : Base { std::string name() const override { return "One"; } };
struct Two : One { std::string name() const override { return "Two:" + One::name(); } };

struct Trace {
    std::string what;
    explicit Trace(std::string w) : what(std::move(w)) {}
    ~Trace() { std::cout << "left " << what << "\n"; }
};

static int deep(int n) {
    Trace here("level " + std::to_string(n));
    if (n == 0) throw std::out_of_range("the bottom");
    return deep(n - 1) + 1;
}

int main(int argc, char **argv) {
    std::cout << first.order << second.order << " " << shared_by_name() << shared_by_name() << " " << (nowhere == nullptr) << "\n";
    std::unique_ptr<Base> it(new Two);
    std::cout << it->name() << " " << (dynamic_cast<One *>(it.get()) != nullptr) << " " << typeid(*it).name() << "\n";
    try {
        deep(3);
    } catch (const std::logic_error &e) {
        std::cout << "caught " << e.what() << "\n";
    }
    std::exception_ptr kept;
    std::thread other([&] {
        per_thread.push_back(4);
        try { throw 42; } catch (...) { kept = std::current_exception(); }
        std::cout << "thread has " << per_thread.size() << "\n";
    });
    other.join();
    try { std::rethrow_exception(kept); } catch (int n) { std::cout << "rethrown " << n << ", " << per_thread.size() << "\n"; }
    std::map<std::string, int> words;
    std::istringstream in("to be or not to be");
    for (std::string w; in >> w;) words[w]++;
    for (auto &[w, n] : words) std::cout << std::setw(4) << w << "=" << n;
    std::cout << "\n" << std::hex << std::showbase << 255 << " " << std::fixed << std::setprecision(3) << 3.14159 << std::endl;
    std::function<int(int)> twice = [](int n) { return 2 * n; };
    return argc > 1 ? twice(std::stoi(argv[1])) : 0;
}
