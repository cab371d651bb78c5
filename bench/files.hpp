// Files of points and answers, for the programs of the peers.
#pragma once
#include <cstdint>
#include <cstdio>
#include <cstdlib>
#include <ctime>
#include <string>
#include <vector>

// Points of u8 numbers: count and dimension as u32, then the bytes.
struct Points {
    uint32_t count = 0, dim = 0;
    std::vector<uint8_t> bytes;
    const uint8_t *at(size_t i) const { return bytes.data() + i * dim; }
};

[[noreturn]] inline void fail(const char *what, const char *name) {
    fprintf(stderr, "%s %s\n", what, name);
    exit(1);
}

inline Points read_points(const char *name) {
    Points points;
    FILE *file = fopen(name, "rb");
    if (!file) fail("cannot read", name);
    if (fread(&points.count, 4, 1, file) != 1 || fread(&points.dim, 4, 1, file) != 1) fail("short", name);
    points.bytes.resize(size_t(points.count) * points.dim);
    if (fread(points.bytes.data(), 1, points.bytes.size(), file) != points.bytes.size()) fail("short", name);
    fclose(file);
    return points;
}

// Ids of answers, k for each query, as u32.
inline void write_ids(const char *name, const std::vector<uint32_t> &ids) {
    FILE *file = fopen(name, "wb");
    if (!file || fwrite(ids.data(), 4, ids.size(), file) != ids.size() || fclose(file)) fail("cannot write", name);
}

// Seconds of processor time of this process so far.
inline double spent() {
    timespec now;
    clock_gettime(CLOCK_PROCESS_CPUTIME_ID, &now);
    return double(now.tv_sec) + 1e-9 * double(now.tv_nsec);
}
