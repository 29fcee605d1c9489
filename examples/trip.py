"""trip.py NETWORK FROM TO LEAVE: a plain trip from Python, by the shared object that `make shared` builds."""
import ctypes
import os
import sys

BUILT = os.path.join(os.path.dirname(os.path.abspath(__file__)), "../target/desk/libvarnwalnut.so")
library = ctypes.CDLL(os.environ.get("VARNWALNUT_LIBRARY", BUILT))
size, number = ctypes.c_size_t, ctypes.c_uint32

with open(sys.argv[1], "rb") as file:
    network = file.read()
start, target, leave = (number(int(word)) for word in sys.argv[2:5])
arrivals, roads, answer = (number * 512)(), (ctypes.c_uint16 * 512)(), (number * 6)()
refusal = library.varnwalnut_plain_trip_lists(network, size(len(network)), start, target, leave,
                                              arrivals, size(512), roads, size(512), answer, size(6))
if refusal != 0:
    sys.exit(f"refused {refusal} at {answer[:3]}")
print(f"arrives at tick {answer[3]}, by roads {roads[:answer[4]]}")
if answer[5] != answer[3]:
    print(f"shut until tick {answer[5]}")
