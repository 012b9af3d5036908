// A mesh as mesh libraries hold it, points and indexed triangles, and questions about walks on it.
#include <homotopy.hpp>

#include <array>
#include <cmath>
#include <cstdint>
#include <iostream>
#include <vector>

struct IndexedMesh {
    std::vector<std::array<double, 3>> points;
    std::vector<std::array<std::uint32_t, 3>> triangles;
};

// The same as arrays: each triangle has three corners, and no coordinates are asked for.
homotopy::Mesh arrays_of(const IndexedMesh &mesh) {
    homotopy::Mesh arrays{static_cast<std::uint32_t>(mesh.points.size()), std::vector<std::uint32_t>(mesh.triangles.size(), 3), {}};
    for (const auto &triangle : mesh.triangles) arrays.corners.insert(arrays.corners.end(), triangle.begin(), triangle.end());
    return arrays;
}

int main() {
    // A torus of 40 times 20 points, as modelling programs make it.
    const std::uint32_t around = 40, across = 20;
    IndexedMesh torus;
    auto at = [&](std::uint32_t i, std::uint32_t j) { return across * (i % around) + j % across; };
    for (std::uint32_t i = 0; i < around; i++)
        for (std::uint32_t j = 0; j < across; j++) {
            const double u = 2 * M_PI * i / around, v = 2 * M_PI * j / across;
            torus.points.push_back({(3 + std::cos(v)) * std::cos(u), (3 + std::cos(v)) * std::sin(u), std::sin(v)});
            torus.triangles.push_back({at(i, j), at(i + 1, j), at(i + 1, j + 1)});
            torus.triangles.push_back({at(i, j), at(i + 1, j + 1), at(i, j + 1)});
        }
    homotopy::Walk long_way, ring, both, other;
    for (std::uint32_t i = 0; i <= around; i++) long_way.push_back(at(i, 0));
    for (std::uint32_t j = 0; j <= across; j++) ring.push_back(at(0, j));
    both = long_way, both.insert(both.end(), ring.begin() + 1, ring.end());
    other = ring, other.insert(other.end(), long_way.begin() + 1, long_way.end());

    homotopy::Mesh mesh = arrays_of(torus);
    std::cout << "genus " << homotopy::surface(mesh).genera.at(0) << '\n';
    for (const auto answer : homotopy::decide(mesh, {{both, other}, {long_way, ring}, {ring, {0}}, {{0, 1}, {0, 21, 1}}, {{0, 1}, {0}}}))
        std::cout << (answer == HOMOTOPY_HOMOTOPIC ? "homotopic" : answer == HOMOTOPY_DIFFERENT ? "different" : "no pair") << '\n';

    // The same mesh, kept: a walk that is dragged is asked about again and again.
    homotopy::KeptMesh kept(mesh);
    for (std::uint32_t j = 0; j < 3; j++) {
        homotopy::Walk dragged = {0};
        for (std::uint32_t k = 1; k <= j; k++) dragged.push_back(at(0, k));
        for (std::uint32_t i = 1; i <= around; i++) dragged.push_back(at(i, j));
        for (std::uint32_t k = j; k > 0; k--) dragged.push_back(at(0, k - 1));
        const bool homotopic = kept.decide({{long_way, dragged}})[0] == HOMOTOPY_HOMOTOPIC;
        std::cout << "dragged by " << j << ": " << (homotopic ? "homotopic" : "not") << '\n';
    }

    // Closed walks with no point in common.
    homotopy::Walk moved_ring;
    for (std::uint32_t j = 0; j <= across; j++) moved_ring.push_back(at(5, j + 3));
    std::cout << "loops";
    for (const auto answer : kept.loops({{ring, moved_ring}, {ring, long_way}, {ring, {0, 1}}}))
        std::cout << (answer == HOMOTOPY_FREELY_HOMOTOPIC ? " freely" : answer == HOMOTOPY_OPEN_WALK ? " open" : " not");
    std::cout << '\n';

    // Loops at one point, sorted by their classes.
    homotopy::Walk twice = ring;
    twice.insert(twice.end(), ring.begin() + 1, ring.end());
    std::cout << "classes";
    for (const auto number : kept.classes({both, ring, other, long_way, {0, 1, 0}, {0}, twice})) std::cout << ' ' << number;
    std::cout << '\n';

    std::cout << "homology";
    for (const auto &pair : {std::make_pair(both, other), std::make_pair(long_way, ring)})
        std::cout << (homotopy::homology(mesh, pair.first, pair.second).answer == HOMOTOPY_HOMOLOGOUS ? " homologous" : " not");
    std::cout << '\n';

    // A Moebius band of five triangles: its boundary goes round twice.
    const homotopy::Mesh band{5, {3, 3, 3, 3, 3}, {0, 1, 2, 1, 2, 3, 2, 3, 4, 3, 4, 0, 4, 0, 1}};
    const homotopy::Walk boundary = {0, 2, 4, 1, 3, 0}, core = {0, 1, 2, 3, 4, 0}, core_twice = {0, 1, 2, 3, 4, 0, 1, 2, 3, 4, 0};
    std::cout << "band";
    for (const auto answer : homotopy::decide_any(band, {{boundary, core_twice}, {boundary, core}, {{0}, {5}}}))
        std::cout << (answer == HOMOTOPY_HOMOTOPIC ? " homotopic" : answer == HOMOTOPY_DIFFERENT ? " different" : " no pair");
    std::cout << '\n';

    // A step by 1 counts 1, and a step by 2 counts 2: so to go round once is not homologous to staying.
    const homotopy::Homology counted{HOMOTOPY_NOT_HOMOLOGOUS, {1, 1, -2, 1, 1, -2, 1, 1, -2, 1, 1, -2, 1, 1, -2}};
    std::cout << "a cocycle on the band, " << (homotopy::verify_homology(band, core, {0}, counted) ? "accepted" : "rejected") << '\n';

    const homotopy::Mesh tetrahedron{4, {3, 3, 3, 3}, {0, 1, 2, 0, 3, 1, 0, 2, 3, 1, 3, 2}};
    const auto shown = homotopy::certify(tetrahedron, {0, 1, 2}, {0, 2});
    const auto verdict = homotopy::verify(tetrahedron, {0, 1, 2}, {0, 2}, shown.text);
    std::cout << (shown.answer == HOMOTOPY_HOMOTOPIC ? "a list of moves" : "a denial") << (verdict ? ", accepted" : verdict.reason) << '\n';
    std::cout << "rejected: " << homotopy::verify(tetrahedron, {0, 1, 2}, {0, 2}, "MOVES 0 2\n").reason << '\n';
    mesh.corners[0] = 800;
    try {
        homotopy::surface(mesh);
    } catch (const homotopy::Refused &refused) {
        std::cout << "refused: " << refused.what() << '\n';
    }
}
