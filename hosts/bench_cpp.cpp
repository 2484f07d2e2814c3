// Times building and holes against CGAL's Surface_mesh and OpenMesh's TriMesh, whichever is installed, on lists of
// triangles that the Rust benchmark has written, and prints tables in Markdown.
//
//     bench_cpp build LIST..
//     bench_cpp holes LIST..
//
// Runs are interleaved. In building, each library fills a new mesh in each run, with room reserved, and frees it; the
// kernel writes to the buffers of the run before. Holes are those of meshes that were built before the first run.
#include "borzhanu.h"

#include <algorithm>
#include <cstdio>
#include <cstdlib>
#include <ctime>
#include <fstream>
#include <numeric>
#include <string>
#include <vector>

#if __has_include(<CGAL/Surface_mesh.h>)
#define HAS_CGAL 1
#include <CGAL/Simple_cartesian.h>
#include <CGAL/Surface_mesh.h>
#else
#define HAS_CGAL 0
#endif

#if __has_include(<OpenMesh/Core/Mesh/TriMesh_ArrayKernelT.hh>)
#define HAS_OPENMESH 1
#include <OpenMesh/Core/Mesh/TriMesh_ArrayKernelT.hh>
#else
#define HAS_OPENMESH 0
#endif

namespace {

constexpr int rounds = 21;

struct List {
    std::string name;
    std::uint32_t n, m;
    std::vector<std::uint32_t> rows;
};

void fail(const std::string &what) {
    std::fprintf(stderr, "bench_cpp: %s\n", what.c_str());
    std::exit(1);
}

std::string base_name(const std::string &path) {
    std::size_t start = path.find_last_of('/') + 1;
    return path.substr(start, path.find_last_of('.') - start);
}

List read_list(const std::string &path) {
    std::ifstream file(path, std::ios::binary);
    std::uint32_t sizes[2];
    file.read(reinterpret_cast<char *>(sizes), sizeof sizes);
    if (!file)
        fail("can't read " + path);
    List list{base_name(path), sizes[0], sizes[1], std::vector<std::uint32_t>(4 * std::size_t(sizes[1]))};
    file.read(reinterpret_cast<char *>(list.rows.data()), std::streamsize(4 * list.rows.size()));
    if (!file)
        fail("can't read " + path);
    return list;
}

double milliseconds() {
    std::timespec time;
    clock_gettime(CLOCK_THREAD_CPUTIME_ID, &time);
    return double(time.tv_sec) * 1e3 + double(time.tv_nsec) * 1e-6;
}

struct Kernel {
    explicit Kernel(const List &list)
        : v2e(list.n), e2e(3 * std::size_t(list.m)), b2e(list.n), work(borzhanu_work_length(list.n, list.m)) {}

    bool build(const List &list) {
        std::uint64_t built = borzhanu_build(list.n, list.rows.data(), list.rows.size(), v2e.data(), v2e.size(),
                                             e2e.data(), e2e.size(), b2e.data(), b2e.size(), work.data(), work.size());
        k = borzhanu_first(built);
        return borzhanu_refusal(built) == 0;
    }

    std::size_t k = 0;
    std::vector<std::uint32_t> v2e, e2e, b2e, work;
};

#if HAS_CGAL
using SurfaceMesh = CGAL::Surface_mesh<CGAL::Simple_cartesian<double>::Point_3>;

bool fill_surface_mesh(const List &list, SurfaceMesh &mesh) {
    mesh.reserve(list.n, list.n + list.m, list.m);
    for (std::uint32_t v = 0; v < list.n; v++)
        mesh.add_vertex();
    bool all = true;
    for (std::uint32_t f = 0; f < list.m; f++) {
        const std::uint32_t *row = &list.rows[4 * std::size_t(f)];
        all &= mesh.add_face(SurfaceMesh::Vertex_index(row[0] - 1), SurfaceMesh::Vertex_index(row[1] - 1),
                             SurfaceMesh::Vertex_index(row[2] - 1)) != SurfaceMesh::null_face();
    }
    return all;
}

bool build_surface_mesh(const List &list) {
    SurfaceMesh mesh;
    return fill_surface_mesh(list, mesh);
}
#endif

#if HAS_OPENMESH
using TriMesh = OpenMesh::TriMesh_ArrayKernelT<>;

bool fill_tri_mesh(const List &list, TriMesh &mesh) {
    mesh.reserve(list.n, list.n + list.m, list.m);
    for (std::uint32_t v = 0; v < list.n; v++)
        mesh.add_vertex(TriMesh::Point(0, 0, 0));
    bool all = true;
    for (std::uint32_t f = 0; f < list.m; f++) {
        const std::uint32_t *row = &list.rows[4 * std::size_t(f)];
        all &= mesh.add_face(TriMesh::VertexHandle(int(row[0] - 1)), TriMesh::VertexHandle(int(row[1] - 1)),
                             TriMesh::VertexHandle(int(row[2] - 1)))
                   .is_valid();
    }
    return all;
}

bool build_tri_mesh(const List &list) {
    TriMesh mesh;
    return fill_tri_mesh(list, mesh);
}
#endif

// The holes of a list's tables, built once.
struct KernelHoles {
    explicit KernelHoles(const List &list) : kernel(list) {
        if (!kernel.build(list))
            fail("build refused " + list.name);
        hole.resize(kernel.k);
        lengths.resize(kernel.k);
    }

    std::size_t find(const List &list) {
        std::uint64_t found =
            borzhanu_holes(list.n, 3, list.rows.data(), list.rows.size(), kernel.v2e.data(), kernel.v2e.size(),
                           kernel.e2e.data(), kernel.e2e.size(), kernel.b2e.data(), kernel.k, hole.data(), hole.size(),
                           lengths.data(), lengths.size(), kernel.work.data(), kernel.work.size());
        if (borzhanu_refusal(found) != 0)
            fail("holes refused " + list.name);
        return borzhanu_first(found);
    }

    Kernel kernel;
    std::vector<std::uint32_t> hole, lengths;
};

#if HAS_CGAL
// A walk over each border, which marks its half-edges with the number of their hole.
struct SurfaceMeshHoles {
    explicit SurfaceMeshHoles(const List &list) {
        if (!fill_surface_mesh(list, mesh))
            fail("CGAL refused " + list.name);
        hole = mesh.add_property_map<SurfaceMesh::Halfedge_index, std::uint32_t>("hole", 0).first;
    }

    std::size_t find(const List &) {
        lengths.clear();
        for (SurfaceMesh::Halfedge_index h : mesh.halfedges())
            hole[h] = 0;
        for (SurfaceMesh::Halfedge_index h : mesh.halfedges())
            if (mesh.is_border(h) && hole[h] == 0) {
                lengths.push_back(0);
                for (SurfaceMesh::Halfedge_index at = h; hole[at] == 0; at = mesh.next(at)) {
                    hole[at] = std::uint32_t(lengths.size());
                    lengths.back()++;
                }
            }
        return lengths.size();
    }

    SurfaceMesh mesh;
    SurfaceMesh::Property_map<SurfaceMesh::Halfedge_index, std::uint32_t> hole;
    std::vector<std::uint32_t> lengths;
};
#endif

#if HAS_OPENMESH
struct TriMeshHoles {
    explicit TriMeshHoles(const List &list) {
        if (!fill_tri_mesh(list, mesh))
            fail("OpenMesh refused " + list.name);
        mesh.add_property(hole);
    }

    std::size_t find(const List &) {
        lengths.clear();
        for (TriMesh::HalfedgeHandle h : mesh.halfedges())
            mesh.property(hole, h) = 0;
        for (TriMesh::HalfedgeHandle h : mesh.halfedges())
            if (mesh.is_boundary(h) && mesh.property(hole, h) == 0) {
                lengths.push_back(0);
                for (TriMesh::HalfedgeHandle at = h; mesh.property(hole, at) == 0; at = mesh.next_halfedge_handle(at)) {
                    mesh.property(hole, at) = std::uint32_t(lengths.size());
                    lengths.back()++;
                }
            }
        return lengths.size();
    }

    TriMesh mesh;
    OpenMesh::HPropHandleT<std::uint32_t> hole;
    std::vector<std::uint32_t> lengths;
};
#endif

template <class Run> void time_run(std::vector<double> &times, const List &list, Run run) {
    double start = milliseconds();
    bool accepted = run(list);
    times.push_back(milliseconds() - start);
    if (!accepted)
        fail("a build refused " + list.name);
}

double median(std::vector<double> times) {
    std::sort(times.begin(), times.end());
    return times[times.size() / 2];
}

void print_column(const std::vector<double> &times, double kernel) {
    if (times.empty())
        std::printf(" – | – |");
    else
        std::printf(" %.2f | %.2f |", median(times), kernel / median(times));
}

void print_build_row(const List &list) {
    std::vector<double> kernel_times, cgal_times, openmesh_times;
    Kernel kernel(list);
    for (int round = 0; round < rounds; round++) {
        time_run(kernel_times, list, [&](const List &l) { return kernel.build(l); });
#if HAS_CGAL
        time_run(cgal_times, list, build_surface_mesh);
#endif
#if HAS_OPENMESH
        time_run(openmesh_times, list, build_tri_mesh);
#endif
    }
    double build = median(kernel_times);
    std::printf("| %s | %.2f |", list.name.c_str(), build);
    print_column(cgal_times, build);
    print_column(openmesh_times, build);
    std::printf("\n");
}

// Nanoseconds per border half-edge of a run that has to find so many holes, of k border half-edges altogether.
template <class Holes>
void time_holes(std::vector<double> &times, const List &list, std::size_t k, std::size_t count, Holes &holes) {
    double start = milliseconds();
    std::size_t found = holes.find(list);
    times.push_back((milliseconds() - start) * 1e6 / double(k));
    auto end = holes.lengths.begin() + std::ptrdiff_t(found);
    if (found != count || std::accumulate(holes.lengths.begin(), end, std::size_t(0)) != k)
        fail("other holes in " + list.name);
}

void print_holes_row(const List &list) {
    std::vector<double> kernel_times, cgal_times, openmesh_times;
    KernelHoles kernel(list);
    std::size_t k = kernel.kernel.k, count = kernel.find(list);
#if HAS_CGAL
    SurfaceMeshHoles surface_mesh(list);
#endif
#if HAS_OPENMESH
    TriMeshHoles tri_mesh(list);
#endif
    for (int round = 0; round < rounds; round++) {
        time_holes(kernel_times, list, k, count, kernel);
#if HAS_CGAL
        time_holes(cgal_times, list, k, count, surface_mesh);
#endif
#if HAS_OPENMESH
        time_holes(openmesh_times, list, k, count, tri_mesh);
#endif
    }
    double time = median(kernel_times);
    std::printf("| %s | %zu | %zu | %.1f |", list.name.c_str(), k, count, time);
    print_column(cgal_times, time);
    print_column(openmesh_times, time);
    std::printf("\n");
}

void print_builds(char **paths, int count) {
    std::printf("## Other libraries\n\n");
    std::printf(
        "Milliseconds of processor time, medians of %d interleaved runs on the lists of 100,000 triangles. The\n"
        "kernel writes to buffers that hold what the run before left; nothing is cleared first, and its time\n"
        "includes clearing its work buffer at the end, and all its checks. A library fills a mesh that is made\n"
        "anew in every run, with room reserved; its time includes making the mesh and freeing it. A ratio is of\n"
        "build to the library before it.\n\n",
        rounds);
    std::printf("| list | build | CGAL Surface_mesh | ratio | OpenMesh TriMesh | ratio |\n|---|---|---|---|---|---|\n");
    for (int i = 0; i < count; i++)
        print_build_row(read_list(paths[i]));
    std::printf("\n");
}

void print_holes(char **paths, int count) {
    std::printf(
        "Holes: nanoseconds of processor time per border half-edge, medians of %d interleaved runs on meshes that\n"
        "were built before. A library walks along each border and gives its half-edges a number; it clears the\n"
        "numbers first, and looks at every half-edge for those on a border. The kernel clears its work buffer\n"
        "at the end. The lists with rims are those above: few of their half-edges are on a border.\n\n",
        rounds);
    std::printf("| list | border half-edges | holes | time | CGAL Surface_mesh | ratio | OpenMesh TriMesh | ratio |\n"
                "|---|---|---|---|---|---|---|---|\n");
    for (int i = 0; i < count; i++)
        print_holes_row(read_list(paths[i]));
}

} // namespace

int main(int argc, char **argv) {
    std::string call = argc > 1 ? argv[1] : "";
    if (call == "build")
        print_builds(argv + 2, argc - 2);
    else if (call == "holes")
        print_holes(argv + 2, argc - 2);
    else
        fail("name build or holes, and then lists");
    return 0;
}
