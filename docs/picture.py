#!/usr/bin/env python3
"""Draws docs/pose.svg: plate, camera, bearings, axes, and which way a pose goes.

    docs/picture.py            write the drawing
    docs/picture.py --check    say whether the file is as this script makes it; exit status 1 if not

The plate is the worked one: the first frame of samples/frames.bin, under its best pose of
samples/listing.txt. All is drawn in the camera's frame, by a parallel projection."""

import os
import sys

sys.dont_write_bytecode = True
HERE = os.path.dirname(os.path.abspath(__file__))
SAMPLES = os.path.join(HERE, "..", "samples")
DRAWING = os.path.join(HERE, "pose.svg")
sys.path.insert(0, SAMPLES)

from tool import listings, numbers, records
from tool.poses import cross, dot, norm

WIDTH, HEIGHT = 820, 500
# toward the viewer, who stands to the right of the camera, above and behind it
VIEWER = (0.78, -0.3, -0.6)
SCALE, ORIGIN = 280, (90, 334)
HOLE_POINT = (0.25, -0.5, 0.0)
# the outline of the plate; the camera sees the checking target, which lies behind, by its notch
OUTLINE = ((-0.16, -0.64), (0.64, -0.64), (0.64, 0.14), (0.36, 0.14), (0.36, 0.5), (-0.16, 0.5))
RED, GREEN, BLUE = "#c02020", "#187818", "#1f4fc0"
INK, GREY, RAY, CHECK = "#202020", "#707070", "#b06000", "#7030a0"


def content(name):
    with open(os.path.join(SAMPLES, name), "rb") as file:
        return file.read()


def worked_plate():
    """The vectors of the first frame, and its best pose."""
    record = records.decode("frames.bin", content("frames.bin"))[0]
    frame = listings.read("listing.txt", content("listing.txt").decode()).frames[0]
    return [numbers.doubles(v) for _, v in record.vectors()], frame.poses[frame.best - 1]


def unit(vector):
    return [x / norm(vector) for x in vector]


def screen(point):
    """A point of the camera's frame on the drawing."""
    toward = unit(VIEWER)
    right = unit(cross((0.0, -1.0, 0.0), toward))
    down = cross(right, toward)
    return ORIGIN[0] + SCALE * dot(point, right), ORIGIN[1] + SCALE * dot(point, down)


def at(point):
    x, y = screen(point)
    return f"{x:.1f},{y:.1f}"


def polygon(points, style):
    return f'<polygon points="{" ".join(map(at, points))}" {style}/>'


def line(a, b, colour, width=1.5, more=""):
    return (
        f'<path d="M{at(a)} L{at(b)}" stroke="{colour}" stroke-width="{width}" fill="none" {more}/>'
    )


def arrow(a, b, colour, width=2.5):
    return line(a, b, colour, width, f'marker-end="url(#head-{colour[1:]})"')


def disc(point, colour, radius=5):
    x, y = screen(point)
    return f'<circle cx="{x:.1f}" cy="{y:.1f}" r="{radius}" fill="{colour}"/>'


def words(x, y, text, colour=INK, more=""):
    """Text with a white rim, so that lines under it do not hide it."""
    return (
        f'<text x="{x:.1f}" y="{y:.1f}" fill="{colour}" stroke="white" stroke-width="4" '
        f'paint-order="stroke" stroke-linejoin="round" {more}>{text}</text>'
    )


def label(point, dx, dy, text, colour=INK, more=""):
    x, y = screen(point)
    return words(x + dx, y + dy, text, colour, more)


def heads():
    """An arrow head of each colour."""
    size = 'viewBox="0 0 10 10" refX="8" refY="5" markerWidth="5" markerHeight="5" orient="auto"'
    for colour in (RED, GREEN, BLUE, RAY, CHECK, INK):
        shape = f'<path d="M0,0 L10,5 L0,10 z" fill="{colour}"/>'
        yield f'<marker id="head-{colour[1:]}" {size}>{shape}</marker>'


def camera():
    """A pyramid from the camera's centre."""
    centre = (0, 0, 0)
    corners = [(x, y, 0.2) for x, y in ((-0.14, -0.1), (0.14, -0.1), (0.14, 0.1), (-0.14, 0.1))]
    yield polygon(corners, f'fill="#e4e4e4" fill-opacity="0.6" stroke="{GREY}"')
    for corner in corners:
        yield line(centre, corner, GREY, 1)
    yield label(centre, -66, -16, "camera", INK, 'font-weight="bold"')


def camera_axes():
    """Drawn over the rays, z longer than these, so that its head and label stand free."""
    centre = (0, 0, 0)
    for axis, colour, text, dx, dy in (
        ((0.3, 0, 0), RED, "x right", -2, 22),
        ((0, 0.3, 0), GREEN, "y down", -26, 20),
        ((0, 0, 1.25), BLUE, "z forward", 6, 10),
    ):
        yield arrow(centre, axis, colour)
        yield label(axis, dx, dy, text, colour)
    yield disc(centre, INK, 4)


def plate(pose):
    put = pose.camera_point
    yield polygon([put((x, y, 0.0)) for x, y in OUTLINE], f'fill="#e8eef8" stroke="{GREY}"')
    axes = (
        ((0.27, 0, 0), RED, "world x", 4, -8),
        ((0, 0.24, 0), GREEN, "world y", 8, 6),
        ((0, 0, 0.27), BLUE, "world z", -4, -12),
    )
    for axis, colour, text, dx, dy in axes:
        yield arrow(put((0.0, 0.0, 0.0)), put(axis), colour)
        yield label(put(axis), dx, dy, text, colour)


def rays(vectors, pose):
    """Each bearing as a unit vector, and its ray on to the target."""
    targets = vectors[:3] + [vectors[6]]
    bearings = vectors[3:6] + [vectors[7]]
    labels = (("f0", -4, -10), ("f1", 4, -8), ("f2", 2, -8), ("checking bearing", -8, 22))
    for target, bearing, (name, dx, dy) in zip(targets, bearings, labels):
        colour = CHECK if target is vectors[6] else RAY
        yield line(bearing, pose.camera_point(target), colour, 1, 'stroke-dasharray="4 4"')
        yield arrow((0, 0, 0), bearing, colour, 2)
        yield label(bearing, dx, dy, name, colour)
    yield label(bearings[3], -8, 50, "bearings f0, f1, f2: unit vectors", RAY)
    yield label(bearings[3], -8, 68, "from the camera toward P0, P1, P2", RAY)


def targets(vectors, pose):
    put = pose.camera_point
    for i, (dx, dy) in enumerate(((-26, -10), (12, 2), (10, -6))):
        yield disc(put(vectors[i]), INK)
        yield label(put(vectors[i]), dx, dy, f"P{i}", INK, 'font-weight="bold"')
    yield disc(put(vectors[6]), CHECK)
    for i, text in enumerate(("checking target,", "behind the plate,", "seen in its notch")):
        yield label(put(vectors[6]), 12, 6 + 18 * i, text, CHECK)


def number(x):
    return f"{round(x, 9) + 0.0:g}".replace("-", "−")


def triple(vector):
    return "(" + ", ".join(map(number, vector)) + ")"


def hole(pose):
    there = pose.camera_point(HOLE_POINT)
    x, y = screen(there)
    yield f'<circle cx="{x:.1f}" cy="{y:.1f}" r="7" fill="white" stroke="{INK}" stroke-width="2"/>'
    yield words(x + 16, y - 4, "hole", INK, 'font-weight="bold"')


def direction(pose):
    """The arrow from the plate to the camera, and what a pose computes."""
    (x0, y0), (x1, y1) = screen(pose.camera_point((-0.16, -0.3, 0.0))), screen((0, 0, 0))
    yield (
        f'<path d="M{x0 - 10:.1f},{y0:.1f} Q{x1 + 90:.1f},{y0:.1f} {x1 + 20:.1f},{y1 - 62:.1f}" '
        f'stroke="{INK}" stroke-width="3" fill="none" marker-end="url(#head-{INK[1:]})"/>'
    )
    yield words(20, 34, "A pose takes world points to camera points:")
    yield words(20, 60, "camera = R · world + t", INK, 'font-weight="bold" font-size="18"')
    rows = ", ".join(map(triple, pose.rows))
    yield words(20, HEIGHT - 36, f"R = rows {rows};  t = {triple(pose.translation)}")
    there = triple(pose.camera_point(HOLE_POINT))
    yield words(20, HEIGHT - 12, f"hole: world {triple(HOLE_POINT)}  →  camera {there}")


def drawing():
    vectors, pose = worked_plate()
    parts = [
        f'<svg xmlns="http://www.w3.org/2000/svg" viewBox="0 0 {WIDTH} {HEIGHT}" '
        f'width="{WIDTH}" height="{HEIGHT}" font-family="sans-serif" font-size="15">',
        "<title>A pose takes world points to camera points: camera = R · world + t</title>",
        "<defs>",
        *heads(),
        "</defs>",
        f'<rect width="{WIDTH}" height="{HEIGHT}" fill="white"/>',
        *plate(pose),
        *camera(),
        *rays(vectors, pose),
        *camera_axes(),
        *targets(vectors, pose),
        *hole(pose),
        *direction(pose),
        "</svg>",
    ]
    return "\n".join(parts) + "\n"


def main(words):
    if words not in ([], ["--check"]):
        sys.exit(__doc__)
    made = drawing().encode()
    if not words:
        with open(DRAWING, "wb") as file:
            file.write(made)
        return
    with open(DRAWING, "rb") as file:
        if file.read() != made:
            sys.exit("docs/pose.svg differs from what docs/picture.py makes")


if __name__ == "__main__":
    main(sys.argv[1:])
