"""jslit in Python: what a litmus text may do under the memory model of ECMAScript.

    import jslit
    answer = jslit.check(open("sb.lit", "rb").read())
    answer.status     0, or 1 where the text is refused
    answer.bytes      what the command prints

Each call works in the library libjslit, by ctypes, on the thread that calls, and lets other threads of Python go on meanwhile. It can't be
stopped. It needs 2 MiB of stack, which threads have unless threading.stack_size says less. Where memory runs out it raises MemoryError.

JSLIT_LIBRARY names the library; else the one that was installed with this file is taken, or else one that the system finds."""
import ctypes
import os
import pathlib
import typing

__all__ = ["Answer", "check", "quick", "schedule", "why", "text"]

NAME = "libjslit.so.0"
ROOM = 1 << 16  # bytes that most answers fit into: one that doesn't is computed twice
BYTES = (ctypes.c_char_p, ctypes.c_size_t)
OUT = (ctypes.c_char_p, ctypes.c_size_t, ctypes.POINTER(ctypes.c_size_t))
QUESTIONS = {"met": 0, "unmet": 1, "race": 2, "choice": 3, "from": 4}


class Answer(typing.NamedTuple):
    """A status, and the bytes that the command prints."""
    status: int
    bytes: bytes


def _library():
    beside = pathlib.Path(__file__).resolve().parents[2] / NAME
    found = ctypes.CDLL(os.environ.get("JSLIT_LIBRARY") or (str(beside) if beside.exists() else NAME))
    for name, more in (("check", ()), ("quick", ()), ("text", ()), ("schedule", BYTES),
                       ("why", (ctypes.c_uint8, ctypes.c_uint64, *BYTES, *BYTES, ctypes.c_size_t, ctypes.c_uint8))):
        function = getattr(found, f"jslit_{name}")
        function.restype, function.argtypes = ctypes.c_uint8, (*BYTES, *more, *OUT)
    return found


_LIBRARY = _library()


def _given(text):
    """Text as bytes, which C reads by a pointer and a length."""
    data = text.encode() if isinstance(text, str) else bytes(text)
    return data, len(data)


def _called(function, *given):
    room, length = ROOM, ctypes.c_size_t()
    while True:
        out = ctypes.create_string_buffer(room)
        status = function(*given, out, room, ctypes.byref(length))
        if status == 3:
            raise MemoryError("jslit: out of memory")
        if length.value <= room:
            return Answer(status, out.raw[:length.value])
        room = length.value


def check(text):
    """The whole report, as `jslit` prints it."""
    return _called(_LIBRARY.jslit_check, *_given(text))


def quick(text):
    """The quick report, as `jslit --quick`."""
    return _called(_LIBRARY.jslit_quick, *_given(text))


def schedule(text, turns):
    """The outcome of one schedule, as `jslit --schedule TURNS`, such as "A,B,A"."""
    return _called(_LIBRARY.jslit_schedule, *_given(text), *_given(turns))


def why(text, question="met", *, choice=0, words="", condition="", most=0, json=False):
    """What `jslit-why` answers. The question is met, unmet, race, choice (of a number) or from (with its words)."""
    if question not in QUESTIONS or not 0 <= choice < 1 << 64 or not 0 <= most < 1 << 64:
        raise ValueError("jslit: there is no such question")
    answer = _called(_LIBRARY.jslit_why, *_given(text), QUESTIONS[question], choice, *_given(words), *_given(condition), most, int(json))
    if answer.status == 2:
        raise ValueError("jslit: the question's words, condition or number are none")
    return answer


def text(text):  # pylint: disable=redefined-outer-name
    """What a text says, as JSON, as `jslit-text` prints it."""
    return _called(_LIBRARY.jslit_text, *_given(text))
