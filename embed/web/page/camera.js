// Where the picture is seen from. It orbits a point of the ground, or flies: a turn keeps the one or the other.

const MOST_PITCH = 1.5;
const LEAST = 2, MOST = 900;

const plus = (a, b, times = 1) => a.map((value, axis) => value + times * b[axis]);
const clamp = (value, least, most) => Math.min(Math.max(value, least), most);

export class Camera {
    eye = [0, 0, 0];
    yaw = 0;
    pitch = 0;
    distance = 100;
    isFlying = false;

    get forward() {
        const level = Math.cos(this.pitch);
        return [Math.cos(this.yaw) * level, Math.sin(this.yaw) * level, Math.sin(this.pitch)];
    }

    get right() {
        return [Math.sin(this.yaw), -Math.cos(this.yaw), 0];
    }

    get target() {
        return plus(this.eye, this.forward, this.distance);
    }

    /** Looks from a point at another one. */
    place(eye, target) {
        const ahead = plus(target, eye, -1);
        this.distance = clamp(Math.hypot(...ahead), LEAST, MOST);
        this.eye = eye;
        this.yaw = Math.atan2(ahead[1], ahead[0]);
        this.pitch = clamp(Math.atan2(ahead[2], Math.hypot(ahead[0], ahead[1])), -MOST_PITCH, MOST_PITCH);
    }

    /** Turns by these angles: about the target, or about the eye in flight. */
    turn(yaw, pitch) {
        const target = this.target;
        this.yaw += yaw;
        this.pitch = clamp(this.pitch + pitch, -MOST_PITCH, MOST_PITCH);
        if (!this.isFlying) {
            this.eye = plus(target, this.forward, -this.distance);
        }
    }

    /** Moves by so many cells ahead, to the right, and up. Ahead is along the ground, and in flight where one looks. */
    move(ahead, right, up) {
        const forward = this.isFlying ? this.forward : [Math.cos(this.yaw), Math.sin(this.yaw), 0];
        this.eye = plus(plus(this.eye, forward, ahead), this.right, right);
        this.eye[2] += up;
    }

    /** Goes nearer to the target, or away from it by a factor above 1; ahead or back in flight. */
    zoom(factor) {
        if (this.isFlying) {
            this.move(-40 * Math.log(factor), 0, 0);
            return;
        }
        const target = this.target;
        this.distance = clamp(this.distance * factor, LEAST, MOST);
        this.eye = plus(target, this.forward, -this.distance);
    }
}
