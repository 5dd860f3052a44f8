"""A pose and what is computed with it, in plain doubles and in the order of operations of the
definitions (linalg, frames and choice in crates/): camera points and scores have their bits."""

import math
from typing import NamedTuple


def dot(a, b):
    return (a[0] * b[0] + a[1] * b[1]) + a[2] * b[2]


def cross(a, b):
    return [
        a[1] * b[2] - a[2] * b[1],
        a[2] * b[0] - a[0] * b[2],
        a[0] * b[1] - a[1] * b[0],
    ]


def norm(v):
    return math.sqrt(dot(v, v))


class Pose(NamedTuple):
    """camera = R * world + t; the rotation by rows."""

    updates: int
    rows: list
    translation: list
    # whether a pair of roots that it came from was lifted
    lifted: bool

    def camera_point(self, world):
        return [dot(row, world) + t for row, t in zip(self.rows, self.translation)]

    def centre(self):
        """The camera's place in the world, -R^T t."""
        return [-dot(column, self.translation) for column in zip(*self.rows)]

    def fits(self, points, bearings):
        """Whether each point is put on the line of its bearing: within 1e-4 of the distance of the
        farthest, since a camera may stand in a target, and what rounding leaves of t."""
        cameras = [self.camera_point(point) for point in points]
        slack = 1e-4 * max(map(norm, cameras)) + 1e-14 * norm(self.translation)
        return not any(norm(cross(c, f)) > slack * norm(f) for c, f in zip(cameras, bearings))

    def score(self, target, bearing):
        """The squared tangent of the angle between the camera point and the bearing; None where the
        depth along the bearing is not above zero: the pose has no score then."""
        camera = self.camera_point(target)
        depth = dot(camera, bearing)
        if not depth > 0:
            return None
        normal = cross(camera, bearing)
        off_ray = dot(normal, normal)
        if depth * depth == 0:  # where Python has no quotient
            return math.inf if off_ray > 0 else math.nan
        return off_ray / (depth * depth)

    def angle(self, target, bearing):
        """The angle between the camera point and the bearing in degrees, above 90 where the point
        is behind the camera; nan where the depth along the bearing is no number or zero."""
        camera = self.camera_point(target)
        depth = dot(camera, bearing)
        if math.isnan(depth) or depth == 0:
            return math.nan
        return math.degrees(math.atan2(norm(cross(camera, bearing)), depth))


def best(poses, target, bearing):
    """The place, from 1, of the lowest finite score, the earlier on a tie; 0 where none is."""
    scores = [(pose.score(target, bearing), i) for i, pose in enumerate(poses, 1)]
    finite = [entry for entry in scores if entry[0] is not None and math.isfinite(entry[0])]
    return min(finite, default=(0, 0))[1]
