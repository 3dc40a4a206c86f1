// Digs terrain under the mouse: a window by SDL2 and OpenGL, and the engine by terra.hpp.
//
//   dig                     left button digs, right button builds, wheel: radius; drag with the middle button to turn,
//                           W A S D to move; Escape ends
//   dig --frames N --ppm F  plays a path of its own for N frames, and writes the last one
//
// The world's thread applies the edits and draws; two threads mesh. A frame never waits for a mesh: it draws what is
// there, and asks for the rest.
#define GL_GLEXT_PROTOTYPES
#include "terra.hpp"

#include <SDL2/SDL.h>
#include <SDL2/SDL_opengl.h>

#include <algorithm>
#include <array>
#include <cmath>
#include <condition_variable>
#include <cstdio>
#include <cstdlib>
#include <cstring>
#include <deque>
#include <fstream>
#include <map>
#include <mutex>
#include <thread>
#include <tuple>

namespace {

constexpr std::uint8_t DEPTH = 4, REACH = 2;
constexpr float SIDE = 16 << DEPTH;

struct Vec {
    float x, y, z;
};
Vec operator+(Vec a, Vec b) { return {a.x + b.x, a.y + b.y, a.z + b.z}; }
Vec operator-(Vec a, Vec b) { return {a.x - b.x, a.y - b.y, a.z - b.z}; }
Vec operator*(Vec a, float s) { return {a.x * s, a.y * s, a.z * s}; }
float dot(Vec a, Vec b) { return a.x * b.x + a.y * b.y + a.z * b.z; }
Vec cross(Vec a, Vec b) { return {a.y * b.z - a.z * b.y, a.z * b.x - a.x * b.z, a.x * b.y - a.y * b.x}; }
Vec unit(Vec a)
{
    const float n = std::sqrt(dot(a, a));
    return n > 0 ? a * (1 / n) : Vec{0, 0, 1};
}

// Two threads that make jobs.
class Workers {
public:
    Workers()
    {
        for (auto &thread : threads_)
            thread = std::thread([this] { work(); });
    }
    ~Workers()
    {
        {
            std::lock_guard<std::mutex> lock(mutex_);
            closed_ = true;
        }
        wanted_ready_.notify_all();
        for (auto &thread : threads_)
            thread.join();
    }
    void give(terra::Job job)
    {
        {
            std::lock_guard<std::mutex> lock(mutex_);
            wanted_.push_back(std::move(job));
        }
        wanted_ready_.notify_one();
    }
    std::deque<terra::Job> made()
    {
        std::lock_guard<std::mutex> lock(mutex_);
        return std::exchange(made_, {});
    }

private:
    void work()
    {
        std::unique_lock<std::mutex> lock(mutex_);
        for (;;) {
            wanted_ready_.wait(lock, [this] { return closed_ || !wanted_.empty(); });
            if (closed_)
                return;
            terra::Job job = std::move(wanted_.front());
            wanted_.pop_front();
            lock.unlock();
            job.make();
            lock.lock();
            made_.push_back(std::move(job));
        }
    }
    std::mutex mutex_;
    std::condition_variable wanted_ready_;
    std::deque<terra::Job> wanted_, made_;
    bool closed_ = false;
    std::array<std::thread, 2> threads_;
};

struct Camera {
    static constexpr float NEAR = 0.5f, FAR = 1000, TOP = 0.55f;
    Vec at{118, 40, 150};
    float yaw = 1.45f, pitch = -0.42f, aspect = 1;
    Vec forward() const
    {
        return {std::cos(yaw) * std::cos(pitch), std::sin(yaw) * std::cos(pitch), std::sin(pitch)};
    }
    Vec right() const { return unit(cross(forward(), {0, 0, 1})); }
    Vec up() const { return cross(right(), forward()); }
    void load() const
    {
        const Vec f = forward(), r = right(), u = up();
        const float top = NEAR * TOP, side = top * aspect;
        glMatrixMode(GL_PROJECTION);
        glLoadIdentity();
        glFrustum(-side, side, -top, top, NEAR, FAR);
        const float view[16] = {r.x, u.x, -f.x, 0, r.y, u.y, -f.y, 0, r.z, u.z, -f.z, 0, 0, 0, 0, 1};
        glMatrixMode(GL_MODELVIEW);
        glLoadMatrixf(view);
        glTranslatef(-at.x, -at.y, -at.z);
    }
    // Whether a ball may be seen: it isn't behind one of the sides.
    bool sees(Vec centre, float radius) const
    {
        const Vec from = centre - at;
        const float ahead = dot(from, forward()), wide = TOP * aspect;
        return ahead > -radius && std::abs(dot(from, right())) < ahead * wide + radius * std::sqrt(1 + wide * wide)
               && std::abs(dot(from, up())) < ahead * TOP + radius * std::sqrt(1 + TOP * TOP);
    }
};

// A block as OpenGL has it: just what the engine copied out.
struct Drawn {
    GLuint vertices = 0, triangles = 0;
    GLsizei indices = 0;
};
using Key = std::tuple<std::uint8_t, std::uint32_t, std::uint32_t, std::uint32_t>;
Key key(const terra_node &n) { return {n.level, n.k, n.j, n.i}; }

const char *const VERTEX = R"(#version 120
varying vec3 place;
void main()
{
    place = gl_Vertex.xyz;
    gl_FrontColor = gl_Color;
    gl_Position = gl_ModelViewProjectionMatrix * gl_Vertex;
})";
// A triangle's normal is that of its plane, which the change of the place from pixel to pixel tells.
const char *const FRAGMENT = R"(#version 120
varying vec3 place;
void main()
{
    vec3 normal = normalize(cross(dFdx(place), dFdy(place)));
    float light = 0.3 + 0.7 * max(dot(normal, vec3(-0.39, -0.49, 0.78)), 0.0);
    gl_FragColor = vec4(gl_Color.rgb * light, 1.0);
})";

class Renderer {
public:
    Renderer()
    {
        const GLuint program = glCreateProgram();
        for (const auto &[kind, text] : {std::pair{GL_VERTEX_SHADER, VERTEX}, {GL_FRAGMENT_SHADER, FRAGMENT}}) {
            const GLuint shader = glCreateShader(kind);
            glShaderSource(shader, 1, &text, nullptr);
            glCompileShader(shader);
            glAttachShader(program, shader);
        }
        glLinkProgram(program);
        glUseProgram(program);
        glEnable(GL_DEPTH_TEST);
        glEnable(GL_CULL_FACE);
        glEnableClientState(GL_VERTEX_ARRAY);
        glClearColor(0.62f, 0.74f, 0.86f, 1);
    }
    void remove(const terra_node &node)
    {
        const auto found = drawn_.find(key(node));
        if (found == drawn_.end())
            return;
        glDeleteBuffers(1, &found->second.vertices);
        glDeleteBuffers(1, &found->second.triangles);
        drawn_.erase(found);
    }
    void put(const terra_node &node, const terra::Block &block)
    {
        Drawn &drawn = drawn_[key(node)];
        drawn.indices = static_cast<GLsizei>(block.triangles.size() * 3);
        if (drawn.indices == 0)
            return;
        if (drawn.vertices == 0) {
            glGenBuffers(1, &drawn.vertices);
            glGenBuffers(1, &drawn.triangles);
        }
        glBindBuffer(GL_ARRAY_BUFFER, drawn.vertices);
        glBufferData(GL_ARRAY_BUFFER, static_cast<GLsizeiptr>(block.vertices.size() * sizeof(terra_float3)),
                     block.vertices.data(), GL_DYNAMIC_DRAW);
        glBindBuffer(GL_ELEMENT_ARRAY_BUFFER, drawn.triangles);
        glBufferData(GL_ELEMENT_ARRAY_BUFFER, static_cast<GLsizeiptr>(block.triangles.size() * sizeof(terra_triangle)),
                     block.triangles.data(), GL_DYNAMIC_DRAW);
    }
    // Draws the blocks that the camera may see, and returns how many triangles they have.
    std::size_t draw(const Camera &camera) const
    {
        std::size_t triangles = 0;
        for (const auto &[node, drawn] : drawn_) {
            const auto [level, k, j, i] = node;
            const float side = static_cast<float>(16u << level);
            const Vec centre = Vec{i + 0.5f, j + 0.5f, k + 0.5f} * side;
            if (drawn.indices == 0 || !camera.sees(centre, side * 0.9f))
                continue;
            glColor3f(0.45f + 0.08f * level, 0.55f - 0.03f * level, 0.30f + 0.05f * level);
            glBindBuffer(GL_ARRAY_BUFFER, drawn.vertices);
            glBindBuffer(GL_ELEMENT_ARRAY_BUFFER, drawn.triangles);
            glVertexPointer(3, GL_FLOAT, 0, nullptr);
            glDrawElements(GL_TRIANGLES, drawn.indices, GL_UNSIGNED_INT, nullptr);
            triangles += static_cast<std::size_t>(drawn.indices) / 3;
        }
        return triangles;
    }

private:
    std::map<Key, Drawn> drawn_;
};

std::uint32_t cell(float v) { return static_cast<std::uint32_t>(std::min(std::max(v, 0.0f), SIDE)); }

// The point under a pixel, by the depth that was drawn there; false where there is sky.
bool under(int x, int y, int height, Vec &point)
{
    GLfloat depth = 1;
    GLdouble model[16], projection[16];
    GLint view[4];
    glReadPixels(x, height - 1 - y, 1, 1, GL_DEPTH_COMPONENT, GL_FLOAT, &depth);
    if (depth >= 1)
        return false;
    glGetDoublev(GL_MODELVIEW_MATRIX, model);
    glGetDoublev(GL_PROJECTION_MATRIX, projection);
    glGetIntegerv(GL_VIEWPORT, view);
    const double nx = 2.0 * (x + 0.5) / view[2] - 1, ny = 2.0 * (height - y - 0.5) / view[3] - 1, nz = 2.0 * depth - 1;
    const double w = projection[14] / (nz + projection[10]);
    const double eye[3] = {nx * w / projection[0], ny * w / projection[5], -w};
    for (int row = 0; row < 3; row++) {
        double sum = 0;
        for (int k = 0; k < 3; k++)
            sum += model[row * 4 + k] * (eye[k] - model[12 + k]);
        (&point.x)[row] = static_cast<float>(sum);
    }
    return true;
}

void write_ppm(const char *name, int width, int height)
{
    std::vector<unsigned char> rows(static_cast<std::size_t>(width) * height * 3);
    glPixelStorei(GL_PACK_ALIGNMENT, 1);
    glReadPixels(0, 0, width, height, GL_RGB, GL_UNSIGNED_BYTE, rows.data());
    std::ofstream out(name, std::ios::binary);
    out << "P6\n" << width << ' ' << height << "\n255\n";
    for (int y = height - 1; y >= 0; y--)
        out.write(reinterpret_cast<char *>(&rows[static_cast<std::size_t>(y) * width * 3]), width * 3);
}

// Hills to begin with.
void build(terra::World &world)
{
    world.edit(terra::ground(110));
    std::uint32_t state = 7;
    const auto draw = [&state](std::uint32_t below) {
        state = state * 1664525u + 1013904223u;
        return static_cast<std::uint32_t>((std::uint64_t{state} * below) >> 32);
    };
    for (int n = 0; n < 60; n++)
        world.edit(terra::ball(n % 3 == 0 ? TERRA_CARVE : TERRA_FILL, {draw(257), draw(257), 100 + draw(24)},
                               8 + draw(26)));
    world.edit({TERRA_SMOOTH, TERRA_FILL, {0, 0, 60}, {256, 256, 180}, 0});
}

// What the frames took, in milliseconds; the first one, which meshes the world, isn't counted.
struct Times {
    double engine = 0, worst_engine = 0, whole = 0, worst = 0;
    int frames = 0;
    void add(double engine_took, double took)
    {
        if (frames++ == 0)
            return;
        engine += engine_took;
        worst_engine = std::max(worst_engine, engine_took);
        whole += took;
        worst = std::max(worst, took);
    }
    void print(std::size_t triangles) const
    {
        const int counted = std::max(1, frames - 1);
        std::printf("%d frames: %.2f ms a frame (worst %.2f): the engine %.2f (worst %.2f), drawing %.2f; %zu triangles\n",
                    frames, whole / counted, worst, engine / counted, worst_engine, (whole - engine) / counted, triangles);
    }
};

double now() { return static_cast<double>(SDL_GetPerformanceCounter()) * 1e3 / static_cast<double>(SDL_GetPerformanceFrequency()); }

} // namespace

int main(int argc, char **argv)
{
    int frames = 0;
    const char *picture = nullptr;
    for (int i = 1; i + 1 < argc; i += 2) {
        if (std::strcmp(argv[i], "--frames") == 0)
            frames = std::atoi(argv[i + 1]);
        if (std::strcmp(argv[i], "--ppm") == 0)
            picture = argv[i + 1];
    }
    if (SDL_Init(SDL_INIT_VIDEO) != 0)
        return std::fprintf(stderr, "SDL: %s\n", SDL_GetError()), 1;
    int width = 1280, height = 720;
    SDL_GL_SetAttribute(SDL_GL_DEPTH_SIZE, 24);
    SDL_Window *window = SDL_CreateWindow("terra", SDL_WINDOWPOS_CENTERED, SDL_WINDOWPOS_CENTERED, width, height,
                                          SDL_WINDOW_OPENGL | SDL_WINDOW_RESIZABLE);
    SDL_GLContext context = window != nullptr ? SDL_GL_CreateContext(window) : nullptr;
    if (context == nullptr)
        return std::fprintf(stderr, "SDL: %s\n", SDL_GetError()), 1;
    SDL_GL_SetSwapInterval(frames == 0 ? 1 : 0);

    terra::World world(DEPTH, REACH);
    build(world);
    Workers workers;
    Renderer renderer;
    std::vector<terra_node> put;
    std::vector<terra::Block> blocks;
    Camera camera;
    Times times;
    std::uint32_t radius = 6;
    float dig_at = 0;
    Vec looked_from{-1, -1, -1};
    for (bool is_on = true; is_on;) {
        const double start = now();
        int mouse_x = width / 2, mouse_y = height / 2;
        Uint32 buttons = SDL_GetMouseState(&mouse_x, &mouse_y);
        SDL_Event event;
        while (SDL_PollEvent(&event)) {
            if (event.type == SDL_QUIT || (event.type == SDL_KEYDOWN && event.key.keysym.sym == SDLK_ESCAPE))
                is_on = false;
            if (event.type == SDL_MOUSEWHEEL)
                radius = static_cast<std::uint32_t>(std::min(24, std::max(2, static_cast<int>(radius) + event.wheel.y)));
            if (event.type == SDL_MOUSEMOTION && (event.motion.state & SDL_BUTTON_MMASK) != 0) {
                camera.yaw -= static_cast<float>(event.motion.xrel) * 0.004f;
                camera.pitch = std::min(1.5f, std::max(-1.5f, camera.pitch - static_cast<float>(event.motion.yrel) * 0.004f));
            }
        }
        const Uint8 *keys = SDL_GetKeyboardState(nullptr);
        const Vec right = camera.right();
        camera.at = camera.at + camera.forward() * static_cast<float>(keys[SDL_SCANCODE_W] - keys[SDL_SCANCODE_S])
                    + right * static_cast<float>(keys[SDL_SCANCODE_D] - keys[SDL_SCANCODE_A]);
        if (frames != 0) {
            // The path of its own: a trench that winds away from the camera.
            dig_at += 1.0f / static_cast<float>(frames);
            mouse_x = static_cast<int>(static_cast<float>(width) * (0.5f + 0.28f * std::sin(dig_at * 9)));
            mouse_y = static_cast<int>(static_cast<float>(height) * (0.92f - 0.42f * dig_at));
            buttons = SDL_BUTTON_LMASK;
            is_on = times.frames + 1 < frames;
        }

        // The engine's part of a frame: an edit, what came back, what is wanted, what changed.
        Vec point;
        const bool is_digging = (buttons & (SDL_BUTTON_LMASK | SDL_BUTTON_RMASK)) != 0;
        const bool is_hit = is_digging && times.frames > 0 && under(mouse_x, mouse_y, height, point);
        const double engine = now();
        if (is_hit) {
            const std::uint32_t mode = (buttons & SDL_BUTTON_LMASK) != 0 ? TERRA_CARVE : TERRA_FILL;
            world.try_edit(terra::ball(mode, {cell(point.x), cell(point.y), cell(point.z)}, radius));
        }
        const Vec moved = camera.at - looked_from;
        if (dot(moved, moved) > 64) {
            looked_from = camera.at;
            world.look_from({cell(camera.at.x), cell(camera.at.y), cell(camera.at.z)});
        }
        for (terra::Job &job : workers.made())
            world.deliver(job);
        for (terra::Job job; world.take(job); job = terra::Job())
            workers.give(std::move(job));
        if (times.frames == 0)
            world.settle();
        std::vector<terra_node> gone;
        put.clear();
        if (world.update()) {
            gone = world.gone();
            put = world.put();
            blocks.resize(std::max(blocks.size(), put.size()));
            for (std::size_t n = 0; n < put.size(); n++)
                world.read(put[n], blocks[n]);
        }
        const double engine_took = now() - engine;

        for (const terra_node &node : gone)
            renderer.remove(node);
        for (std::size_t n = 0; n < put.size(); n++)
            renderer.put(put[n], blocks[n]);
        SDL_GL_GetDrawableSize(window, &width, &height);
        glViewport(0, 0, width, height);
        glClear(GL_COLOR_BUFFER_BIT | GL_DEPTH_BUFFER_BIT);
        camera.aspect = static_cast<float>(width) / static_cast<float>(height);
        camera.load();
        const std::size_t triangles = renderer.draw(camera);
        if (!is_on && picture != nullptr)
            write_ppm(picture, width, height);
        SDL_GL_SwapWindow(window);
        times.add(engine_took, now() - start);
        if (times.frames % 120 == 0 || !is_on)
            times.print(triangles);
    }
    SDL_GL_DeleteContext(context);
    SDL_DestroyWindow(window);
    SDL_Quit();
    return 0;
}
