// hnswlib over bytes (its L2SpaceI), with the words of the benchmark:
//   build POINTS INDEX M EF THREADS
//   query POINTS INDEX QUERIES K EF IDS    (one thread; prints the seconds of processor time of the searches)
#include "files.hpp"
#include <atomic>
#include <cstring>
#include <hnswlib/hnswlib.h>
#include <thread>

int main(int argc, char **argv) {
    if (argc < 7) fail("words:", "build POINTS INDEX M EF THREADS | query POINTS INDEX QUERIES K EF IDS");
    Points points = read_points(argv[2]);
    hnswlib::L2SpaceI space(points.dim);
    if (!strcmp(argv[1], "build")) {
        int threads = atoi(argv[6]);
        hnswlib::HierarchicalNSW<int> index(&space, points.count, atoi(argv[4]), atoi(argv[5]));
        index.addPoint(points.at(0), 0);
        std::atomic<size_t> next{1};
        auto work = [&] {
            for (size_t i; (i = next.fetch_add(1)) < points.count;) index.addPoint(points.at(i), i);
        };
        std::vector<std::thread> workers;
        for (int t = 1; t < threads; t++) workers.emplace_back(work);
        work();
        for (auto &worker : workers) worker.join();
        index.saveIndex(argv[3]);
        return 0;
    }
    hnswlib::HierarchicalNSW<int> index(&space, argv[3]);
    Points queries = read_points(argv[4]);
    size_t k = atoi(argv[5]);
    index.setEf(atoi(argv[6]));
    std::vector<uint32_t> ids(queries.count * k);
    double before = spent();
    for (size_t q = 0; q < queries.count; q++) {
        auto found = index.searchKnn(queries.at(q), k);
        for (size_t i = found.size(); i-- > 0; found.pop()) ids[q * k + i] = uint32_t(found.top().second);
    }
    printf("%.6f\n", spent() - before);
    write_ids(argv[7], ids);
}
