"""The plan of `make demo`, on which the tests of the page work: my28 is released, and my29 is opened from it and changed. What is typed here of its
colours and its differences follows from the rows, by docs/FORMATS.md and by the order of its suppliers."""
from examples.demo import BOSS, BRAKES, CAMERA, CLUSTER, REQUESTS

__all__ = "BOSS", "BRAKES", "CAMERA", "CHANGED", "CLUSTER", "COLOURS", "REQUESTS", "SUPPLIERS"
COLOURS = "#56B4E9", "#E69F00", "#009E73", "#F0E442", "#CC79A7", "#D55E00", "#0072B2", "#882255"
SUPPLIERS = "brakeworks", "camtech", "powerdrive", "steertech", "suspenco"
# What is new in my29 since my28 to camtech, as docs/FORMATS.md sorts it.
CHANGED = """\
+ GRANT 0017 A front_camera
+ GRANT 0017 B front_camera
- FRAME camera_status front_camera
+ FRAME walkers front_camera
- AT camera_status 0012 A 04 16
- AT free_space 0013 B 00 02
+ AT free_space 0013 B 00 04
+ AT walkers 0017 AB 00 02
- SIGNAL camera_status 0000 01 little blinded
- SIGNAL camera_status 0008 08 little temperature
+ SIGNAL walkers 0000 08 little count
- GAP   80000 camera_status
- GAP   10000 free_space
+ GAP   20000 free_space
+ GAP   10000 walkers
"""
