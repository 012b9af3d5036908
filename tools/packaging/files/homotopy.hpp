// The questions of homotopy.h for C++17: arrays of the standard library in place of pointers, and exceptions in place of codes. It adds no
// question, and needs nothing but the C library behind homotopy.h.
#ifndef HOMOTOPY_HPP
#define HOMOTOPY_HPP

#include <homotopy.h>

#include <algorithm>
#include <cstdint>
#include <new>
#include <stdexcept>
#include <string>
#include <utility>
#include <vector>

namespace homotopy {

using Walk = std::vector<std::uint32_t>;

// The code of a pair: HOMOTOPY_HOMOTOPIC, HOMOTOPY_DIFFERENT, HOMOTOPY_FREELY_HOMOTOPIC, HOMOTOPY_NOT_FREELY_HOMOTOPIC, HOMOTOPY_HOMOLOGOUS or
// HOMOTOPY_NOT_HOMOLOGOUS, or 31 to 37 for what is first wrong with its walks.
using Answer = homotopy_code;

// A mesh: a vertex count, the number of corners of each face, and the corners of all faces, face after face.
struct Mesh {
    std::uint32_t vertices = 0;
    std::vector<std::uint32_t> sizes, corners;
};

struct Surface {
    homotopy_numbers numbers;
    std::vector<std::uint32_t> genera;
};

// The components of a surface, in the order of their least vertices, and for each vertex the place of its own in that order; for one that no
// face names, how many there are.
struct Components {
    std::vector<homotopy_component> components;
    std::vector<std::uint32_t> places;
};

// What two walks are, HOMOTOPY_HOMOTOPIC or HOMOTOPY_DIFFERENT, and the text that shows it.
struct Certificate {
    Answer answer;
    std::string text;
};

// What two walks are, HOMOTOPY_HOMOLOGOUS or HOMOTOPY_NOT_HOMOLOGOUS, and the numbers that show it: of a chain for each face, or of a cocycle
// for each side, from each corner to the next.
struct Homology {
    Answer answer;
    std::vector<std::int64_t> numbers;
};

// What comes of a certificate, or of numbers: accepted, or the first reason against it.
struct Verdict {
    bool accepted;
    std::string reason;
    explicit operator bool() const { return accepted; }
};

// Why a question has no answer. What is thrown for want of memory is std::bad_alloc.
class Refused : public std::invalid_argument {
public:
    explicit Refused(const homotopy_outcome &outcome) : std::invalid_argument(told(outcome)), outcome(outcome) {}

    static std::string told(const homotopy_outcome &outcome) {
        std::string text(homotopy_tell(&outcome, nullptr, 0) + 1, ' ');
        homotopy_tell(&outcome, &text[0], text.size());
        text.pop_back();
        return text;
    }

    homotopy_outcome outcome;
};

namespace detail {

// Where an array lies. One without numbers lies somewhere too, since the library takes no null.
template <class Number>
const Number *of(const std::vector<Number> &array) {
    static const Number none[1] = {};
    return array.empty() ? none : array.data();
}

[[noreturn]] inline void refuse(const homotopy_outcome &outcome) {
    if (outcome.code == HOMOTOPY_NO_MEMORY) throw std::bad_alloc();
    throw Refused(outcome);
}

inline Verdict verdict_of(const homotopy_outcome &outcome) {
    if (outcome.code == HOMOTOPY_ACCEPTED) return {true, ""};
    if (outcome.code >= HOMOTOPY_REJECTED_PEAK && outcome.code <= HOMOTOPY_REJECTED_ZERO) return {false, Refused::told(outcome)};
    refuse(outcome);
}

// Walks in two arrays, walk after walk.
struct Listed {
    void put(const Walk &walk) {
        if (walk.size() > UINT32_MAX) throw std::length_error("a walk is too long");
        sizes.push_back(static_cast<std::uint32_t>(walk.size()));
        vertices.insert(vertices.end(), walk.begin(), walk.end());
    }

    std::vector<std::uint32_t> sizes, vertices;
};

// Pairs of walks, with room for their answers.
struct Asked : Listed {
    explicit Asked(const std::vector<std::pair<Walk, Walk>> &pairs) : answers(pairs.size() + 1) {
        for (const auto &pair : pairs) put(pair.first), put(pair.second);
    }

    // What is answered of each pair, where the question is.
    std::vector<Answer> told(const homotopy_outcome &outcome) const {
        if (outcome.code != HOMOTOPY_DONE) refuse(outcome);
        std::vector<Answer> each;
        for (std::size_t pair = 0; pair < sizes.size() / 2; pair++) each.push_back(static_cast<Answer>(answers[pair]));
        return each;
    }

    std::vector<std::uint8_t> answers;
};

}  // namespace detail

inline Surface surface(const Mesh &mesh) {
    Surface found{{}, std::vector<std::uint32_t>(1)};
    homotopy_outcome outcome;
    for (;;) {
        homotopy_surface(mesh.vertices, detail::of(mesh.sizes), mesh.sizes.size(), detail::of(mesh.corners), mesh.corners.size(),
                         &found.numbers, found.genera.data(), found.genera.size(), &outcome);
        if (outcome.code != HOMOTOPY_SHORT_ROOM) break;
        found.genera.resize(outcome.numbers[0]);
    }
    if (outcome.code != HOMOTOPY_DONE) detail::refuse(outcome);
    found.genera.resize(found.numbers.components);
    return found;
}

inline Components components(const Mesh &mesh) {
    // Room for one component, and for all vertices where there are no more than corners.
    Components found{std::vector<homotopy_component>(1),
                     std::vector<std::uint32_t>(std::min<std::size_t>(mesh.vertices, mesh.corners.size()) + 1)};
    homotopy_outcome outcome;
    for (;;) {
        homotopy_components(mesh.vertices, detail::of(mesh.sizes), mesh.sizes.size(), detail::of(mesh.corners), mesh.corners.size(),
                            found.components.data(), found.components.size(), found.places.data(), found.places.size(), &outcome);
        if (outcome.code != HOMOTOPY_SHORT_ROOM) break;
        found.components.resize(outcome.numbers[0]);
        found.places.resize(outcome.numbers[1]);
    }
    if (outcome.code != HOMOTOPY_DONE) detail::refuse(outcome);
    found.components.resize(outcome.numbers[0]);
    found.places.resize(mesh.vertices);
    return found;
}

inline std::vector<Answer> decide(const Mesh &mesh, const std::vector<std::pair<Walk, Walk>> &pairs) {
    detail::Asked asked(pairs);
    homotopy_outcome outcome;
    homotopy_decide(mesh.vertices, detail::of(mesh.sizes), mesh.sizes.size(), detail::of(mesh.corners), mesh.corners.size(),
                    detail::of(asked.sizes), asked.sizes.size(), detail::of(asked.vertices), asked.vertices.size(), asked.answers.data(),
                    pairs.size(), &outcome);
    return asked.told(outcome);
}

// The same on a surface of any kind, closed or with boundary, orientable or not.
inline std::vector<Answer> decide_any(const Mesh &mesh, const std::vector<std::pair<Walk, Walk>> &pairs) {
    detail::Asked asked(pairs);
    homotopy_outcome outcome;
    homotopy_decide_any(mesh.vertices, detail::of(mesh.sizes), mesh.sizes.size(), detail::of(mesh.corners), mesh.corners.size(),
                        detail::of(asked.sizes), asked.sizes.size(), detail::of(asked.vertices), asked.vertices.size(),
                        asked.answers.data(), pairs.size(), &outcome);
    return asked.told(outcome);
}

// A surface that is kept, so that questions can be asked as they come, by one thread at a time. It is moved, and not copied; of one that was
// moved from, nothing is asked.
class KeptMesh {
public:
    // An orientable closed surface.
    explicit KeptMesh(const Mesh &mesh) : KeptMesh(mesh, homotopy_mesh_new) {}

    // A surface of any kind, closed or with boundary, orientable or not.
    static KeptMesh any(const Mesh &mesh) { return KeptMesh(mesh, homotopy_mesh_new_any); }

    KeptMesh(KeptMesh &&other) noexcept { std::swap(held, other.held); }

    KeptMesh &operator=(KeptMesh &&other) noexcept {
        std::swap(held, other.held);
        return *this;
    }

    ~KeptMesh() { homotopy_mesh_free(&held); }

    std::vector<Answer> decide(const std::vector<std::pair<Walk, Walk>> &pairs) {
        detail::Asked asked(pairs);
        homotopy_outcome outcome;
        homotopy_mesh_decide(&held, detail::of(asked.sizes), asked.sizes.size(), detail::of(asked.vertices), asked.vertices.size(),
                             asked.answers.data(), pairs.size(), &outcome);
        return asked.told(outcome);
    }

    // Whether the closed walks of each pair are freely homotopic. Refused where the surface is not orientable.
    std::vector<Answer> loops(const std::vector<std::pair<Walk, Walk>> &pairs) {
        detail::Asked asked(pairs);
        homotopy_outcome outcome;
        homotopy_mesh_loops(&held, detail::of(asked.sizes), asked.sizes.size(), detail::of(asked.vertices), asked.vertices.size(),
                            asked.answers.data(), pairs.size(), &outcome);
        return asked.told(outcome);
    }

    // For each walk the place of the first one with the same ends that is homotopic to it. Refused where a walk is none of the surface.
    std::vector<std::size_t> classes(const std::vector<Walk> &walks) {
        detail::Listed listed;
        for (const Walk &walk : walks) listed.put(walk);
        std::vector<std::size_t> each(walks.size() + 1);
        homotopy_outcome outcome;
        homotopy_mesh_classes(&held, detail::of(listed.sizes), listed.sizes.size(), detail::of(listed.vertices), listed.vertices.size(),
                              each.data(), walks.size(), &outcome);
        if (outcome.code != HOMOTOPY_DONE) detail::refuse(outcome);
        each.pop_back();
        return each;
    }

private:
    KeptMesh(const Mesh &mesh, decltype(&homotopy_mesh_new) keep) {
        homotopy_outcome outcome;
        keep(mesh.vertices, detail::of(mesh.sizes), mesh.sizes.size(), detail::of(mesh.corners), mesh.corners.size(), &held, &outcome);
        if (outcome.code != HOMOTOPY_DONE) detail::refuse(outcome);
    }

    homotopy_mesh held = HOMOTOPY_EMPTY_MESH;
};

inline Certificate certify(const Mesh &mesh, const Walk &first, const Walk &second) {
    std::string text(65536, ' ');
    homotopy_outcome outcome;
    for (;;) {
        homotopy_certify(mesh.vertices, detail::of(mesh.sizes), mesh.sizes.size(), detail::of(mesh.corners), mesh.corners.size(),
                         detail::of(first), first.size(), detail::of(second), second.size(), reinterpret_cast<std::uint8_t *>(&text[0]),
                         text.size(), &outcome);
        if (outcome.code != HOMOTOPY_SHORT_ROOM) break;
        text.resize(outcome.numbers[0]);
    }
    if (outcome.code != HOMOTOPY_HOMOTOPIC && outcome.code != HOMOTOPY_DIFFERENT) detail::refuse(outcome);
    text.resize(outcome.numbers[0]);
    return {static_cast<Answer>(outcome.code), std::move(text)};
}

namespace detail {

inline Homology shown(decltype(&homotopy_homology) ask, const Mesh &mesh, const Walk &first, const Walk &second) {
    std::vector<std::int64_t> numbers(mesh.corners.size() + 1);
    homotopy_outcome outcome;
    ask(mesh.vertices, of(mesh.sizes), mesh.sizes.size(), of(mesh.corners), mesh.corners.size(), of(first), first.size(), of(second),
        second.size(), numbers.data(), numbers.size(), &outcome);
    if (outcome.code != HOMOTOPY_HOMOLOGOUS && outcome.code != HOMOTOPY_NOT_HOMOLOGOUS) refuse(outcome);
    numbers.resize(outcome.numbers[0]);
    return {static_cast<Answer>(outcome.code), std::move(numbers)};
}

}  // namespace detail

inline Homology homology(const Mesh &mesh, const Walk &first, const Walk &second) {
    return detail::shown(homotopy_homology, mesh, first, second);
}

// The same on an orientable surface that may have boundary.
inline Homology homology_any(const Mesh &mesh, const Walk &first, const Walk &second) {
    return detail::shown(homotopy_homology_any, mesh, first, second);
}

inline Verdict verify(const Mesh &mesh, const Walk &first, const Walk &second, const std::string &certificate) {
    homotopy_outcome outcome;
    homotopy_verify(mesh.vertices, detail::of(mesh.sizes), mesh.sizes.size(), detail::of(mesh.corners), mesh.corners.size(),
                    detail::of(first), first.size(), detail::of(second), second.size(),
                    reinterpret_cast<const std::uint8_t *>(certificate.data()), certificate.size(), &outcome);
    return detail::verdict_of(outcome);
}

// What comes of numbers that are to show what their answer says, HOMOTOPY_HOMOLOGOUS or HOMOTOPY_NOT_HOMOLOGOUS, on any mesh: `homology` gives
// such numbers on an orientable closed surface.
inline Verdict verify_homology(const Mesh &mesh, const Walk &first, const Walk &second, const Homology &shown) {
    homotopy_outcome outcome;
    homotopy_verify_homology(mesh.vertices, detail::of(mesh.sizes), mesh.sizes.size(), detail::of(mesh.corners), mesh.corners.size(),
                             detail::of(first), first.size(), detail::of(second), second.size(), shown.answer, detail::of(shown.numbers),
                             shown.numbers.size(), &outcome);
    return detail::verdict_of(outcome);
}

}  // namespace homotopy

#endif
