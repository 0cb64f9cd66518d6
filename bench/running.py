"""Texts of programs that run long: loops, loads, and the program of `gen`. A size is that of files.py: the whole file has the greatest."""
from spelling import SIZE

HEAD = '''abc 16 46
string "trace"
string "int"
string "next"
string "sum"
ns Package 0
set 1
name QName 1 1 ; trace
name QName 1 2 ; int
name QName 1 3 ; next
name QName 1 4 ; sum
name MultinameL 1 ; the name on the stack
'''
MAIN = "method 0 0 0\n"
NEXT = "method 2 0 0\nparam 2\n"
BODY = '''body 0 4 4 0 1
getlocal_0
pushscope
'''
END = '''findpropstrict 1
getlocal_1
callpropvoid 1 1
returnvoid
'''


def loop(rounds, first, each):
    """Local 1 is the result and local 2 counts the rounds."""
    return f'''{first}pushbyte 0
setlocal_2
Next:
label
{each}inclocal_i 2
getlocal_2
pushint 1
iflt Next
'''


def program(rounds, first, each, last="", methods=MAIN, traits="script 0\n", more=""):
    ints = f"int {rounds}\n"
    head = HEAD.replace('string "trace"', ints + 'string "trace"', 1)
    return (head + methods + traits + BODY + loop(rounds, first, each) + last + END + more).encode()


def rounds_of(size, most):
    return most * size // SIZE


def loop_locals(rng, size):
    """Adds the rounds' numbers and mixes their bits."""
    first = "pushbyte 0\nsetlocal_1\n"
    each = "getlocal_1\ngetlocal_2\nadd_i\nsetlocal_3\ngetlocal_3\npushbyte 5\nbitxor\nsetlocal_1\n"
    return program(rounds_of(size, 10_000_000), first + "pushbyte 0\nsetlocal_3\n", each)


def loop_calls(rng, size):
    """Calls a method of the script with a number."""
    first = "pushbyte 0\nsetlocal_1\n"
    each = "getlocal_0\ngetlocal_1\ncallproperty 3 1\nconvert_i\nsetlocal_1\n"
    more = "body 1 2 2 0 0\ngetlocal_1\npushbyte 1\nadd_i\nreturnvalue\n"
    return program(rounds_of(size, 5_000_000), first, each, methods=MAIN + NEXT, traits="script 0\ntrait method 0 3 0 1\n", more=more)


def loop_properties(rng, size):
    """Reads and writes a property of an object."""
    first = "newobject 0\nsetlocal_1\ngetlocal_1\npushbyte 0\nsetproperty 4\n"
    each = "getlocal_1\ngetlocal_1\ngetproperty 4\npushbyte 3\nadd_i\nsetproperty 4\n"
    last = "getlocal_1\ngetproperty 4\nconvert_i\nsetlocal_1\n"
    return program(rounds_of(size, 5_000_000), first, each, last)


def loop_arrays(rng, size):
    """Reads and writes elements of an array of eight. The text of an element's number takes room, a byte each time."""
    numbers = "".join(f"pushbyte {n}\n" for n in range(8))
    first = numbers + "newarray 8\nsetlocal_1\n"
    each = (
        "getlocal_1\ngetlocal_2\npushbyte 7\nbitand\ngetlocal_1\ngetlocal_2\npushbyte 7\nbitand\ngetproperty 5\n"
        "getlocal_2\nadd_i\nsetproperty 5\n"
    )
    last = "getlocal_1\npushbyte 7\ngetproperty 5\nconvert_i\nsetlocal_1\n"
    return program(rounds_of(size, 5_000_000), first, each, last).replace(b"body 0 4 4 0 1", b"body 0 8 4 0 1")


def load_elements(rng, size):
    """Adds a million elements to an array, and reads each once, far from the one before."""
    count = rounds_of(size, 1_000_000)
    first = "newarray 0\nsetlocal_1\n" + loop(count, "", "getlocal_1\ngetlocal_2\ngetlocal_2\nsetproperty 5\n").replace("Next", "Added")
    first += "pushbyte 0\nsetlocal 4\n"
    each = (
        "getlocal_1\ngetlocal_3\ngetproperty 5\ngetlocal 4\nadd_i\nsetlocal 4\n"
        "getlocal_3\npushshort 7919\nadd_i\npushint 1\nmodulo\nconvert_i\nsetlocal_3\n"
    )
    last = "getlocal 4\nsetlocal_1\n"
    return program(count, first + "pushbyte 0\nsetlocal_3\n", each, last).replace(b"body 0 4 4 0 1", b"body 0 4 5 0 1")


def load_properties(rng, size):
    """Gives one object 400,000 properties, named by numbers, and reads each once."""
    first = "newobject 0\nsetlocal_1\n" + loop(0, "", "getlocal_1\ngetlocal_2\ngetlocal_2\nsetproperty 5\n").replace("Next", "Added")
    each = "getlocal_1\ngetlocal_2\ngetproperty 5\ngetlocal_3\nadd_i\nsetlocal_3\n"
    return program(rounds_of(size, 400_000), first + "pushbyte 0\nsetlocal_3\n", each, "getlocal_3\nsetlocal_1\n")


def load_names(rng, size):
    """Reads names of the first of eleven classes in a chain on an instance of the last, a hundred a round. Each class has 1000 slots of
    texts of its own."""
    steps, own, looked, rounds = 11, 1000, 100, rounds_of(size, 20_000)
    slots = [f"t{n:x}" for n in range(steps * own)]
    lines = ["abc 16 46", f"int {rounds}", *(f"int {n}" for n in range(own)), 'string "trace"', 'string "int"']
    lines += [f'string "{text}"' for text in slots] + [f'string "c{n}"' for n in range(steps)] + ["ns Package 0"]
    # Names of slots from 3 on, and behind them those of classes.
    lines += [f"name QName 1 {n + 1}" for n in range(2 + len(slots) + steps)]
    lines += ["method 0 0 0"] * (2 * steps + 1)
    for n in range(steps):
        base = 3 + len(slots) + n
        lines += [f"instance {base} {base - 1 if n else 0} 0", f"iinit {2 * n}"]
        lines += [f"trait slot 0 {3 + n * own + k} 0 2 {k + 2} Int" for k in range(own)]
    lines += [f"class {2 * n + 1}" for n in range(steps)] + [f"script {2 * steps}"]
    lines += [f"body {n} 1 1 0 0\nreturnvoid" for n in range(2 * steps)]
    lines += [f"body {2 * steps} 2 4 0 1", "getlocal_0", "pushscope", "pushnull"] + [f"newclass {n}" for n in range(steps)]
    lines += ["construct 0", "setlocal_3", "pushbyte 0", "setlocal_1", "pushbyte 0", "setlocal_2", "Next:", "label"]
    for k in range(looked):
        lines += ["getlocal_3", f"getproperty {3 + k * 7919 % own}", "getlocal_1", "add_i", "setlocal_1"]
    lines += ["inclocal_i 2", "getlocal_2", "pushint 1", "iflt Next"]
    return ("\n".join(lines) + "\n" + END).encode()


def generated(rng, size):
    """The program of `gen`: a script that calls ten thousand methods, each with a loop."""
    methods, drawn = rounds_of(size, 10_000), [1]

    def draw():
        drawn[0] = (drawn[0] * 1664525 + 1013904223) % 2**32
        return drawn[0] // 65536

    lines = ["abc 16 46", 'string "trace"', 'string "int"']
    lines += [f'string "f{i}"' for i in range(1, methods + 1)]
    lines += ["ns Package 0"] + [f"name QName 1 {k}" for k in range(1, methods + 3)] + ["method 0 0 0"]
    lines += ["method 2 0 0", "param 2"] * methods + ["script 0"]
    lines += [f"trait method 0 {i + 2} 0 {i}" for i in range(1, methods + 1)]
    lines += ["body 0 2 2 0 1", "getlocal_0", "pushscope", "pushbyte 1", "setlocal_1"]
    for i in range(1, methods + 1):
        lines += ["getlocal_0", "getlocal_1", f"callproperty {i + 2} 1", "convert_i", "setlocal_1"]
    lines += ["findpropstrict 1", "getlocal_1", "callpropvoid 1 1", "returnvoid"]
    for i in range(1, methods + 1):
        rounds, number, operation = draw() % 8 + 1, draw() % 32768, draw() % 4
        lines += [f"body {i} 2 3 0 0", "getlocal_1", "convert_i", "setlocal_2", f"pushbyte {rounds}", "setlocal_1", "L:", "label"]
        lines += ["getlocal_2", f"pushshort {number}", ["add_i", "subtract_i", "multiply_i", "bitxor"][operation], "setlocal_2"]
        lines += ["declocal_i 1", "getlocal_1", "pushbyte 0", "ifgt L", "getlocal_2", "returnvalue"]
    return ("\n".join(lines) + "\n").encode()
