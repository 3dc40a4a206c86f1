// terra.hpp: terra.h for C++17 and later. Handles are freed with their owners, and a status that isn't expected is an
// exception.
#ifndef TERRA_HPP
#define TERRA_HPP

#include "terra.h"

#include <cstddef>
#include <cstdint>
#include <optional>
#include <stdexcept>
#include <string>
#include <utility>
#include <vector>

namespace terra {

// An answer other than TERRA_DONE that the caller didn't ask to see.
class Error : public std::runtime_error {
public:
    explicit Error(std::uint8_t status)
        : std::runtime_error("terra: status " + std::to_string(status)), status_(status)
    {
    }
    std::uint8_t status() const noexcept { return status_; }

private:
    std::uint8_t status_;
};

inline void check(std::uint8_t status)
{
    if (status != TERRA_DONE)
        throw Error(status);
}

// An owner of a handle. It moves, and isn't copied.
class Handle {
public:
    Handle() noexcept = default;
    Handle(Handle &&other) noexcept : handle_(std::exchange(other.handle_, terra_handle{})) {}
    Handle &operator=(Handle &&other) noexcept
    {
        std::swap(handle_, other.handle_);
        return *this;
    }
    Handle(const Handle &) = delete;
    Handle &operator=(const Handle &) = delete;
    ~Handle() { terra_close(&handle_); }

    explicit operator bool() const noexcept { return handle_.is_open; }
    terra_handle *get() noexcept { return &handle_; }

private:
    terra_handle handle_{};
};

// The mesh of a leaf, in room that is kept from one block to the next.
struct Block {
    terra_block_size size{};
    std::vector<terra_float3> vertices;
    std::vector<terra_triangle> triangles;
};

class Snapshot;

// What has a frame to read: a world or a snapshot.
class Readable : public Handle {
public:
    // Another holder of the frame, which stays as it is, for whatever thread.
    Snapshot snapshot();
    // Copies the block of a leaf; a node that isn't one is false.
    bool read(const terra_node &node, Block &block)
    {
        const std::uint8_t status = terra_block(get(), &node, &block.size);
        if (status == TERRA_NOT_A_LEAF)
            return false;
        check(status);
        block.vertices.resize(block.size.vertices + 1);
        block.triangles.resize(block.size.triangles + 1);
        check(terra_floats(get(), &node, block.vertices.data(), block.size.vertices));
        check(terra_triangles(get(), &node, block.triangles.data(), block.size.triangles));
        block.vertices.resize(block.size.vertices);
        block.triangles.resize(block.size.triangles);
        return true;
    }
    // Copies the normals of a leaf's vertices, in their order; a node that isn't one is false.
    bool read_normals(const terra_node &node, std::vector<terra_normal> &normals)
    {
        terra_block_size size;
        const std::uint8_t status = terra_block(get(), &node, &size);
        if (status == TERRA_NOT_A_LEAF)
            return false;
        check(status);
        normals.resize(size.vertices + 1);
        check(terra_normals(get(), &node, normals.data(), size.vertices));
        normals.resize(size.vertices);
        return true;
    }
    // The highest point over the place (x, y), in 1/256 fine cells, if there is one.
    std::optional<terra_hit> pick(std::uint32_t x, std::uint32_t y)
    {
        terra_hit hit;
        const std::uint8_t status = terra_pick(get(), x, y, &hit);
        if (status == TERRA_NO_SURFACE)
            return std::nullopt;
        check(status);
        return hit;
    }
    std::vector<terra_node> leaves() { return nodes(terra_leaves); }
    terra_counts stats()
    {
        terra_counts counts;
        check(terra_stats(get(), &counts));
        return counts;
    }
    terra_audit_counts audit()
    {
        terra_audit_counts counts;
        check(terra_audit(get(), &counts));
        return counts;
    }

protected:
    using List = std::uint8_t (*)(terra_handle *, terra_node *, std::size_t, std::size_t *);
    std::vector<terra_node> nodes(List list)
    {
        terra_node first;
        std::size_t count = 0;
        const std::uint8_t status = list(get(), &first, 0, &count);
        if (status != TERRA_DONE && status != TERRA_NO_ROOM)
            throw Error(status);
        std::vector<terra_node> nodes(count + 1);
        check(list(get(), nodes.data(), count, &count));
        nodes.resize(count);
        return nodes;
    }
};

// A frame that stays as it is, for whatever thread.
class Snapshot : public Readable {
};

inline Snapshot Readable::snapshot()
{
    Snapshot made;
    check(terra_snapshot(get(), made.get()));
    return made;
}

// A brick to mesh, in whatever thread.
class Job : public Handle {
public:
    void make() { check(terra_make(get())); }
};

class World : public Readable {
public:
    World(std::uint8_t depth, std::uint8_t reach) { check(terra_open(get(), depth, reach)); }
    void edit(const terra_brush &brush) { check(terra_edit(get(), &brush)); }
    // The same, where the brush may be refused.
    std::uint8_t try_edit(const terra_brush &brush) { return terra_edit(get(), &brush); }
    void look_from(const terra_point &at) { check(terra_look_from(get(), &at)); }
    void view_from(uint8_t view, const terra_point &at) { check(terra_view_from(get(), view, &at)); }
    void view_away(uint8_t view) { check(terra_view_away(get(), view)); }
    // Undoes the last edit that is in force, and is false where there is none.
    bool undo()
    {
        const std::uint8_t status = terra_undo(get());
        if (status == TERRA_NOTHING_TO_UNDO)
            return false;
        check(status);
        return true;
    }
    void settle() { check(terra_settle(get())); }
    // Brings the frame up to date, and is false where a leaf isn't meshed yet.
    bool update()
    {
        const std::uint8_t status = terra_update(get());
        if (status == TERRA_NOT_READY)
            return false;
        check(status);
        return true;
    }
    std::vector<terra_node> put() { return nodes(terra_put); }
    std::vector<terra_node> gone() { return nodes(terra_gone); }
    // Takes the next job, and is false where no leaf is wanted.
    bool take(Job &job)
    {
        const std::uint8_t status = terra_take(get(), job.get());
        if (status == TERRA_NOTHING)
            return false;
        check(status);
        return true;
    }
    // Hands a job in, and is false where it came too late.
    bool deliver(Job &job)
    {
        const std::uint8_t status = terra_deliver(get(), job.get());
        if (status == TERRA_STALE)
            return false;
        check(status);
        return true;
    }
    void recall() { check(terra_recall(get())); }
};

inline terra_brush ground(std::uint32_t height, std::uint32_t mode = TERRA_FILL)
{
    return terra_brush{TERRA_GROUND, mode, {0, 0, 0}, {0, 0, 0}, height};
}

inline terra_brush ball(std::uint32_t mode, terra_point at, std::uint32_t radius)
{
    return terra_brush{TERRA_BALL, mode, at, {0, 0, 0}, radius};
}

} // namespace terra

#endif
