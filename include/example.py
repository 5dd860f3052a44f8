"""The first record of standard input, solved from Python by a shared library.

    python3 include/example.py LIBRARY < samples/frames.bin     # LIBRARY: the path of libp3p.so

Prints the best pose's number, how far the checking target is off its bearing, and where the hole
is; a refusal, and a pose that the target does not confirm, end it with the exit status 1."""
import ctypes
import math
import sys
from ctypes import byref, c_double, c_size_t, c_uint32

HOLE = 0.25, -0.5, 0.0
# How far off its bearing the checking target may be, in degrees: your measuring error.
LIMIT = 0.01


def ask(function, *arguments):
    """Calls a function that returns 0 or a refusal number."""
    refusal = function(*arguments)
    if refusal != 0:
        sys.exit(f"{function.__name__} refused {refusal}")


def apply(pose, point):
    """Rotation times point plus translation: from the world to the camera."""
    x, y, z = point
    return [pose[i] * x + pose[3 + i] * y + pose[6 + i] * z + pose[9 + i] for i in range(3)]


def confirmed(score):
    """Whether the checking target is seen where the best pose puts it: the score tells how far it
    is off its bearing."""
    angle = math.degrees(math.atan(math.sqrt(score)))
    print(f"checking target {angle:.6f} degrees off its bearing")
    return angle <= LIMIT


if len(sys.argv) != 2 or sys.argv[1] == "--help":
    sys.exit(__doc__)
p3p = ctypes.CDLL(sys.argv[1])
frame, poses, score = (c_double * 24)(), (c_double * 48)(), c_double()
updates, lifted, count, best = (c_uint32 * 4)(), (c_uint32 * 4)(), c_uint32(), c_uint32()

record = sys.stdin.buffer.read(195)
ask(p3p.p3p_read_record, record, c_size_t(len(record)), frame)
ask(p3p.p3p_solve, frame, poses, updates, lifted, byref(count))
target, bearing = (c_double * 3)(*frame[18:21]), (c_double * 3)(*frame[21:24])
ask(p3p.p3p_choose, poses, count, target, bearing, byref(best), byref(score))

print(f"best {best.value}" + " (lifted)" * lifted[best.value - 1])
if not confirmed(score.value):
    sys.exit("not confirmed")
pose = poses[12 * best.value - 12 : 12 * best.value]
print("hole at camera", *(f"{c:.6f}" for c in apply(pose, HOLE)))
