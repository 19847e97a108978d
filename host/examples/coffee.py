"""Three steps from reset with 4,096 zero cells (Manual 16). Prints '3 0 00000000'.

    python3 coffee.py [LIBRARY]

LIBRARY is libcoffee.so, if the system does not find it by its name.
"""
import ctypes
import sys


class Answer(ctypes.Structure):
    """struct coffee_answer"""
    _fields_ = [(name, ctypes.c_uint32) for name in ("refusal", "steps", "ending")]


IMAGE_MIN, IMAGE_MAX, PC = 528, 720, 488

size, pointer = ctypes.c_size_t, ctypes.c_void_p
coffee = ctypes.CDLL(sys.argv[1] if len(sys.argv) > 1 else "libcoffee.so.2")
coffee.coffee_reset.argtypes = [pointer, size]
coffee.coffee_reset.restype = ctypes.c_uint32
coffee.coffee_run.argtypes = [pointer, size, pointer, size, pointer, size, pointer, size,
                              ctypes.c_uint32, pointer, size]
coffee.coffee_run.restype = Answer

program = bytes.fromhex("88010005 4807883F DC000003")
cells = (ctypes.c_uint32 * 4096)()
reset = ctypes.create_string_buffer(IMAGE_MAX)
image = ctypes.create_string_buffer(IMAGE_MAX)

coffee.coffee_reset(reset, IMAGE_MAX)
answer = coffee.coffee_run(program, len(program), cells, len(cells), reset, IMAGE_MIN, None, 0, 3,
                           image, IMAGE_MAX)
print(answer.steps, answer.ending, image.raw[PC:PC + 4].hex().upper())
sys.exit(answer.refusal != 0)
