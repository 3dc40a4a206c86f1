// Four threads mesh bricks while the world is edited, and a reader looks at snapshots. In the end the blocks are those
// of a world that was meshed by one thread.
#include "terra.hpp"
#include "terra_obj.h"

#include <atomic>
#include <condition_variable>
#include <cstdio>
#include <deque>
#include <mutex>
#include <thread>

namespace {

// A queue of jobs under a lock.
class Queue {
public:
    void push(terra::Job job)
    {
        std::lock_guard<std::mutex> lock(mutex_);
        jobs_.push_back(std::move(job));
        ready_.notify_one();
    }
    // Waits for a job; false where the queue is closed.
    bool pop(terra::Job &job)
    {
        std::unique_lock<std::mutex> lock(mutex_);
        ready_.wait(lock, [this] { return closed_ || !jobs_.empty(); });
        if (jobs_.empty())
            return false;
        job = std::move(jobs_.front());
        jobs_.pop_front();
        return true;
    }
    bool try_pop(terra::Job &job)
    {
        std::lock_guard<std::mutex> lock(mutex_);
        if (jobs_.empty())
            return false;
        job = std::move(jobs_.front());
        jobs_.pop_front();
        return true;
    }
    void close()
    {
        std::lock_guard<std::mutex> lock(mutex_);
        closed_ = true;
        ready_.notify_all();
    }

private:
    std::mutex mutex_;
    std::condition_variable ready_;
    std::deque<terra::Job> jobs_;
    bool closed_ = false;
};

terra_brush edit_number(unsigned n)
{
    const unsigned mixed = n * 2654435761u;
    const terra_point at = {mixed % 128, (mixed >> 8) % 128, 20 + (mixed >> 16) % 60};
    return terra::ball(n % 2 == 0 ? TERRA_CARVE : TERRA_FILL, at, 3 + n % 9);
}

void apply(terra::World &world, unsigned n)
{
    if (n % 16 == 0)
        world.look_from({(n * 7) % 128, (n * 13) % 128, 60});
    world.edit(edit_number(n));
}

bool same(const std::optional<terra_hit> &a, const std::optional<terra_hit> &b)
{
    if (!a || !b)
        return !a && !b;
    const terra_node &m = a->node, &n = b->node;
    return m.level == n.level && m.i == n.i && m.j == n.j && m.k == n.k && a->triangle == b->triangle && a->num == b->num
           && a->den == b->den;
}

} // namespace

int main(int argc, char **argv)
{
    const unsigned edits = argc > 1 ? static_cast<unsigned>(std::atoi(argv[1])) : 120;
    terra::World world(3, 1);
    world.edit(terra::ground(64));

    Queue wanted, made;
    std::vector<std::thread> workers;
    for (int w = 0; w < 4; w++)
        workers.emplace_back([&] {
            terra::Job job;
            while (wanted.pop(job)) {
                job.make();
                made.push(std::move(job));
            }
        });

    // The reader has a snapshot of its own, which it audits, and from which it picks the same before and after.
    std::mutex shown_mutex;
    terra::Snapshot shown = world.snapshot();
    std::atomic<bool> done{false};
    std::atomic<unsigned> looks{0}, cracks{0}, moved{0};
    std::thread reader([&] {
        while (!done || looks == 0) {
            shown_mutex.lock();
            terra::Snapshot mine = shown.snapshot();
            shown_mutex.unlock();
            const std::uint32_t at = looks * 4099 % 32769;
            const auto hit = mine.pick(at, at);
            if (mine.audit().cracks != 0)
                cracks++;
            if (!same(hit, mine.pick(at, at)))
                moved++;
            looks++;
        }
    });

    unsigned kept = 0, stale = 0, updates = 0;
    std::size_t out = 0;
    const auto deliver = [&](terra::Job &job) {
        world.deliver(job) ? kept++ : stale++;
        out--;
    };
    const auto exchange = [&] {
        terra::Job job;
        while (world.take(job)) {
            wanted.push(std::move(job));
            job = terra::Job();
            out++;
        }
        while (made.try_pop(job))
            deliver(job);
        if (world.update()) {
            updates++;
            terra::Snapshot next = world.snapshot();
            std::lock_guard<std::mutex> lock(shown_mutex);
            shown = std::move(next);
        }
    };
    for (unsigned n = 0; n < edits; n++) {
        apply(world, n);
        exchange();
    }
    while (out > 0) {
        exchange();
        std::this_thread::yield();
    }
    exchange();
    wanted.close();
    for (auto &worker : workers)
        worker.join();
    done = true;
    reader.join();

    // The same by one thread.
    terra::World alone(3, 1);
    alone.edit(terra::ground(64));
    for (unsigned n = 0; n < edits; n++)
        apply(alone, n);
    alone.settle();
    if (!alone.update())
        return 2;
    terra::check(terra_obj_shot(stdout, world.get(), 1, false));
    std::FILE *other = std::fopen(argc > 2 ? argv[2] : "/dev/null", "w");
    if (other == nullptr)
        return 3;
    terra::check(terra_obj_shot(other, alone.get(), 1, false));
    std::fclose(other);
    std::fprintf(stderr, "%u kept, %u stale, %u updates, %u looks, %u cracks\n", kept, stale, updates, looks.load(),
                 cracks.load());
    return cracks == 0 && moved == 0 ? 0 : 4;
}
