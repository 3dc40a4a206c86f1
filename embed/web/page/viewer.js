// What is drawn: the blocks, the brush and the bounds of the world. It draws when something changed, and not else.

import * as THREE from './three.module.js';

const LEVEL_COLOURS = [0x6fae5a, 0xd9b44a, 0xd9794a, 0xa9609f, 0x5a7fb5];
const PLAIN = 0x8aa06a;
const BRUSH_COLOURS = { dig: 0xff5a3c, fill: 0x2fbf71, smooth: 0x3c8cff };
const SKY = 0xbfd4e6;
const BLOCK_CELLS = 16;

const VERTEX = `
varying vec3 place;
varying vec3 led;
uniform float smoothly;
void main() {
    place = position;
    led = smoothly * normal / max(length(normal), 1.0);
    gl_Position = projectionMatrix * modelViewMatrix * vec4(position, 1.0);
}`;
// A triangle's normal is that of its plane, which the change of the place from pixel to pixel tells, or is led from
// vertex to vertex where the blocks came with normals. The border of a block is where a coordinate is a multiple of the
// block's side; a triangle that lies in such a plane is none.
const FRAGMENT = `
varying vec3 place;
varying vec3 led;
uniform vec3 colour;
uniform float side;
uniform float borders;
void main() {
    vec3 plane = normalize(cross(dFdx(place), dFdy(place)));
    vec3 normal = dot(led, led) > 0.0 ? normalize(led) : plane;
    float light = 0.34 + 0.66 * max(dot(normal, vec3(-0.39, -0.49, 0.78)), 0.0);
    vec3 shade = mix(vec3(0.55, 0.50, 0.45), colour, 0.45 + 0.55 * smoothstep(0.35, 0.8, normal.z));
    vec3 in_blocks = place / side;
    vec3 off = abs(fract(in_blocks - 0.5) - 0.5);
    vec3 wide = max(fwidth(in_blocks), 1e-6);
    vec3 near_border = (1.0 - smoothstep(0.5, 1.3, off / wide)) * step(abs(plane), vec3(0.99));
    float line = borders * max(near_border.x, max(near_border.y, near_border.z));
    gl_FragColor = vec4(mix(shade * light, vec3(0.10, 0.16, 0.38), 0.75 * line), 1.0);
}`;

const materialOf = (level) =>
    new THREE.ShaderMaterial({
        vertexShader: VERTEX,
        fragmentShader: FRAGMENT,
        extensions: { derivatives: true },
        uniforms: {
            colour: { value: new THREE.Color(LEVEL_COLOURS[level]) },
            side: { value: BLOCK_CELLS << level },
            borders: { value: 1 },
            smoothly: { value: 0 },
        },
    });

export class Viewer {
    #meshes = new Map();
    #materials = LEVEL_COLOURS.map((_, level) => materialOf(level));
    #scene = new THREE.Scene();
    #camera = new THREE.PerspectiveCamera(55, 1, 0.5, 2000);
    #rays = new THREE.Raycaster();
    #blocks = new THREE.Group();
    #brush = new THREE.Group();
    #bounds = null;
    #isSmooth = false;
    #renderer;

    constructor(canvas) {
        this.canvas = canvas;
        this.#renderer = new THREE.WebGLRenderer({ canvas, antialias: true });
        this.#renderer.setClearColor(SKY);
        this.#camera.up.set(0, 0, 1);
        this.#makeBrush();
        this.#scene.add(this.#blocks, this.#brush);
    }

    get blockCount() {
        return this.#meshes.size;
    }

    // ---- blocks

    /** Takes away all blocks, for a world of this side. */
    clear(side) {
        for (const name of [...this.#meshes.keys()]) {
            this.remove(name);
        }
        this.#scene.remove(this.#bounds);
        const box = new THREE.Box3(new THREE.Vector3(0, 0, 0), new THREE.Vector3(side, side, side));
        this.#bounds = new THREE.Box3Helper(box, 0x7f94a8);
        this.#scene.add(this.#bounds);
    }

    /** Shows a block in the place of the one that has its name. One without triangles has nothing to show. */
    put({ name, node, positions, indices, normals }) {
        this.remove(name);
        if (indices.length === 0) {
            return;
        }
        const side = BLOCK_CELLS << node.level;
        const middle = new THREE.Vector3(node.i + 0.5, node.j + 0.5, node.k + 0.5).multiplyScalar(side);
        const geometry = new THREE.BufferGeometry();
        geometry.setAttribute('position', new THREE.BufferAttribute(positions, 3));
        if (normals && this.#isSmooth) {
            geometry.setAttribute('normal', new THREE.BufferAttribute(normals, 3));
        }
        geometry.setIndex(new THREE.BufferAttribute(indices, 1));
        geometry.boundingSphere = new THREE.Sphere(middle, side * 0.87);
        const mesh = new THREE.Mesh(geometry, this.#materials[node.level]);
        mesh.matrixAutoUpdate = false;
        this.#blocks.add(mesh);
        this.#meshes.set(name, mesh);
    }

    remove(name) {
        const mesh = this.#meshes.get(name);
        if (mesh) {
            this.#blocks.remove(mesh);
            mesh.geometry.dispose();
            this.#meshes.delete(name);
        }
    }

    /** Lends what is shown: for each block its name, its vertices, its normals if it has them, and its triangles. */
    *shown() {
        for (const [name, { geometry }] of this.#meshes) {
            const { position, normal } = geometry.attributes;
            yield { name, positions: position.array, normals: normal?.array ?? [], indices: geometry.index.array };
        }
    }

    showLevels(is_on) {
        this.#materials.forEach((material, level) => {
            material.uniforms.colour.value.set(is_on ? LEVEL_COLOURS[level] : PLAIN);
        });
    }

    showBorders(is_on) {
        for (const material of this.#materials) {
            material.uniforms.borders.value = is_on ? 1 : 0;
        }
    }

    /** Shades by the normals of vertices from now on, or by triangles; the blocks lose their normals then. */
    showSmooth(is_on) {
        this.#isSmooth = is_on;
        for (const material of this.#materials) {
            material.uniforms.smoothly.value = is_on ? 1 : 0;
        }
        for (const { geometry } of is_on ? [] : this.#meshes.values()) {
            geometry.deleteAttribute('normal');
        }
    }

    // ---- the brush

    #makeBrush() {
        const look = { transparent: true, opacity: 0.3, depthWrite: false };
        this.brushMaterial = new THREE.MeshBasicMaterial(look);
        this.lineMaterial = new THREE.LineBasicMaterial({ transparent: true, opacity: 0.8 });
        const cube = new THREE.BoxBufferGeometry(2, 2, 2);
        const shapes = {
            ball: new THREE.Mesh(new THREE.SphereBufferGeometry(1, 40, 24), this.brushMaterial),
            box: new THREE.Mesh(cube, this.brushMaterial),
            edges: new THREE.LineSegments(new THREE.EdgesGeometry(cube), this.lineMaterial),
        };
        this.#brush.add(...Object.values(shapes));
        this.shapes = shapes;
        this.#brush.visible = false;
    }

    /** Shows the brush that a click would take, or none. */
    showBrush(brush) {
        this.#brush.visible = brush !== null;
        if (brush === null) {
            return;
        }
        const { tool, shape, middle, half } = brush;
        this.#brush.position.set(...middle);
        this.#brush.scale.set(...half);
        this.shapes.ball.visible = shape === 'ball';
        this.shapes.box.visible = this.shapes.edges.visible = shape !== 'ball';
        this.brushMaterial.color.set(BRUSH_COLOURS[tool]);
        this.lineMaterial.color.set(BRUSH_COLOURS[tool]);
    }

    /** Returns the point of the ground under a place of the picture, whose corners are (-1, -1) and (1, 1), or null. */
    pick(at) {
        this.#rays.setFromCamera(at, this.#camera);
        const [hit] = this.#rays.intersectObjects(this.#blocks.children);
        return hit ? hit.point.toArray() : null;
    }

    // ---- the picture

    look(eye, target) {
        this.#camera.position.set(...eye);
        this.#camera.lookAt(...target);
        this.#camera.updateMatrixWorld();
    }

    fit() {
        const { clientWidth: width, clientHeight: height } = this.canvas;
        this.#renderer.setPixelRatio(Math.min(globalThis.devicePixelRatio, 2));
        this.#renderer.setSize(width, height, false);
        this.#camera.aspect = width / Math.max(1, height);
        this.#camera.updateProjectionMatrix();
    }

    draw() {
        this.#renderer.render(this.#scene, this.#camera);
    }
}
