// What the benches in C++ share.
#pragma once
#include <cstdint>
#include <cstdio>
#include <cstdlib>
#include <ctime>
#include <fstream>
#include <string>
#include <vector>

inline void fail(const std::string &what)
{
    fprintf(stderr, "%s\n", what.c_str());
    exit(1);
}

// The seconds of a processor until now.
inline double now()
{
    timespec time;
    clock_gettime(CLOCK_PROCESS_CPUTIME_ID, &time);
    return time.tv_sec + time.tv_nsec * 1e-9;
}

// The numbers of a file.
template <typename Number> std::vector<Number> numbers(const std::string &path)
{
    std::ifstream file(path, std::ios::binary | std::ios::ate);
    std::vector<Number> found(file.tellg() / sizeof(Number));
    file.seekg(0);
    file.read(reinterpret_cast<char *>(found.data()), sizeof(Number) * found.size());
    return found;
}
