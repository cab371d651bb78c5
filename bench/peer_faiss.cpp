// FAISS's IndexHNSWFlat over the same points as floats, with the words of the benchmark:
//   build POINTS INDEX M EF THREADS
//   query POINTS INDEX QUERIES K EF IDS    (one thread; prints the seconds of processor time of the searches)
#include "files.hpp"
#include <cstring>
#include <faiss/IndexHNSW.h>
#include <faiss/index_io.h>
#include <memory>
#include <omp.h>

static std::vector<float> floats_of(const Points &points) {
    return std::vector<float>(points.bytes.begin(), points.bytes.end());
}

int main(int argc, char **argv) {
    if (argc < 7) fail("words:", "build POINTS INDEX M EF THREADS | query POINTS INDEX QUERIES K EF IDS");
    if (!strcmp(argv[1], "build")) {
        Points points = read_points(argv[2]);
        omp_set_num_threads(atoi(argv[6]));
        faiss::IndexHNSWFlat index(int(points.dim), atoi(argv[4]));
        index.hnsw.efConstruction = atoi(argv[5]);
        auto floats = floats_of(points);
        index.add(points.count, floats.data());
        faiss::write_index(&index, argv[3]);
        return 0;
    }
    omp_set_num_threads(1);
    std::unique_ptr<faiss::Index> index(faiss::read_index(argv[3]));
    Points queries = read_points(argv[4]);
    size_t k = atoi(argv[5]);
    dynamic_cast<faiss::IndexHNSW &>(*index).hnsw.efSearch = atoi(argv[6]);
    auto floats = floats_of(queries);
    std::vector<float> distances(queries.count * k);
    std::vector<faiss::Index::idx_t> labels(queries.count * k);
    double before = spent();
    index->search(queries.count, floats.data(), k, distances.data(), labels.data());
    printf("%.6f\n", spent() - before);
    write_ids(argv[7], std::vector<uint32_t>(labels.begin(), labels.end()));
}
