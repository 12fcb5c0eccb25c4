"""Explains a rejected program by ctypes, and disassembles the function whose object and name are the words, if there are
words. LIBRARY is the path of libbyzlab.so."""
import ctypes
import os
import sys


class Fault(ctypes.Structure):
    _fields_ = [("number", ctypes.c_uint32), ("unit", ctypes.c_size_t)]


library = ctypes.CDLL(os.environ.get("LIBRARY", "libbyzlab.so"))
SIZE, TEXT = ctypes.c_size_t, ctypes.c_char_p
for name in ("byzlab_explain", "byzlab_disassemble"):
    function = getattr(library, name)
    function.restype = ctypes.c_uint32
    function.argtypes = [TEXT, SIZE, TEXT, SIZE, ctypes.POINTER(SIZE), ctypes.POINTER(Fault)]
library.byzlab_object.restype = ctypes.c_uint32
library.byzlab_object.argtypes = [TEXT, SIZE, TEXT, SIZE, TEXT, SIZE, ctypes.POINTER(SIZE), ctypes.POINTER(Fault)]


def program_of(object, entry):
    """Returns status, program and fault of a function of an ELF object."""
    needed, fault, room = SIZE(0), Fault(), ctypes.create_string_buffer(32768)
    to = ctypes.byref(needed), ctypes.byref(fault)
    status = library.byzlab_object(object, len(object), entry, len(entry), room, len(room), *to)
    return status, room.raw[: needed.value] if status == 0 else b"", fault


def text_of(function, program):
    """Returns status, text and fault. The first call asks for the length of the text."""
    needed, fault = SIZE(0), Fault()
    function(program, len(program), None, 0, ctypes.byref(needed), ctypes.byref(fault))
    room = ctypes.create_string_buffer(needed.value + 1)
    status = function(program, len(program), room, needed.value, ctypes.byref(needed), ctypes.byref(fault))
    return status, room.raw[: needed.value].decode("ascii"), fault


# r0 = r2, which nothing has set; exit
program = bytes.fromhex("bf20000000000000 9500000000000000")
status, text, fault = text_of(library.byzlab_explain, program)
print(f"status {status} number {fault.number} unit {fault.unit}{text}")
print(text_of(library.byzlab_disassemble, program)[1], end="")
if len(sys.argv) > 2:
    with open(sys.argv[1], "rb") as file:
        status, program, fault = program_of(file.read(), sys.argv[2].encode())
    print(f"{sys.argv[2]}: status {status} number {fault.number} unit {fault.unit}")
    print(text_of(library.byzlab_disassemble, program)[1], end="")
