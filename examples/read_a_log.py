"""Reads a log through the library: judges it, then prints what the program prints.
Run: gcc -shared -o libanduri.so -Wl,--whole-archive crates/desk/out/libdesk.a -Wl,--no-whole-archive
     python3 examples/read_a_log.py libanduri.so examples/case_a.log"""
import ctypes
import sys


class Verdict(ctypes.Structure):
    _fields_ = [("refusal", ctypes.c_uint32), ("place", ctypes.c_uint32), ("records", ctypes.c_uint32)]


library = ctypes.CDLL(sys.argv[1])
library.anduri_judge.restype = Verdict
library.anduri_judge.argtypes = [ctypes.c_char_p, ctypes.c_size_t]
library.anduri_report.restype = ctypes.c_size_t
library.anduri_report.argtypes = [ctypes.c_char_p, ctypes.c_size_t, ctypes.c_char_p]

with open(sys.argv[2], "rb") as file:
    log = file.read()
verdict = library.anduri_judge(log, len(log))
print("refusal", verdict.refusal, "at", verdict.place, "with", verdict.records, "records")
out = ctypes.create_string_buffer(65536)
length = library.anduri_report(log, len(log), out)
print(out.raw[:length].decode("ascii"), end="")
