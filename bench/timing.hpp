// What the benchmarks share.
#pragma once
#include <algorithm>
#include <chrono>
#include <vector>

inline double microseconds(std::chrono::steady_clock::time_point from)
{
    return std::chrono::duration<double, std::micro>(std::chrono::steady_clock::now() - from).count();
}

inline double median(std::vector<double> &v)
{
    std::nth_element(v.begin(), v.begin() + v.size() / 2, v.end());
    return v[v.size() / 2];
}
