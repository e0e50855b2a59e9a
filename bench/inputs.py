"""The inputs that `measure` gives a `ddm`: trees, two images, schedules, and what the program itself makes of them."""
import pathlib
import struct
import subprocess

TURNS = 1_000_000
PAGED = 100_000
ROUNDS = 50_000
BUSY = 8000
# The shape of each tree, the sets of a leaf and the bytes of a stack.
TREES = {
    "L": ("(L)", 64, 256),
    "LL": ("(LL)", 4096, 0),
    "2x2": ("((LL)(LL))", 2048, 0),
    "deep8": ("((((LL)(LL))((LL)(LL))))", 1024, 0),
    "narrow8": ("((((L)(L))((L)(L)))(((L)(L))((L)(L))))", 1024, 0),
    "leaves64": ("(" + ("(" + "((LLLL)(LLLL)(LLLL)(LLLL))" * 2 + ")") * 2 + ")", 128, 0),
    "one16": ("(" + "L" * 16 + ")", 512, 0),
}
EXAMPLES = pathlib.Path(__file__).resolve().parent.parent / "examples"
# The image of the stencil, and trees of four and of sixteen leaves.
STENCIL = [str(EXAMPLES / "stencil" / name) for name in ("image", "tree.toml", "sixteen_leaves.toml")]
RECORDED = ("LL", "2x2", "deep8", "leaves64")
# Four instructions on one word, for ever: lui; lw, addi, sw, jal.
LOOP = (0x000202B7, 0x0002A303, 0x00130313, 0x0062A023, 0xFF5FF06F)


def tree(name):
    shape, sets, stack = TREES[name]
    return (f'shape = "{shape}"\nways = 4\nsets = {sets}\nbuffer = 4\nparking = 4\n'
            "down = 16\nrequests = 16\nreplies = 16\n"
            f"stack_base = {196608 if stack else 2147483648}\nstack_bytes = {stack}\n").encode()


def image(code, align, data, memory, contents):
    """An ELF file: the words of code at 0x10000, and bytes of memory at the address data, of which it has contents."""
    body = struct.pack(f"<{len(code)}I", *code)
    head = b"\x7fELF\x01\x01\x01" + bytes(9)
    head += struct.pack("<HHIIIIIHHHHHH", 2, 243, 1, 0x10000, 52, 0, 0, 52, 32, 2, 0, 0, 0)
    first = struct.pack("<8I", 1, 116, 0x10000, 0x10000, len(body), len(body), 5, align)
    second = struct.pack("<8I", 1, 116 + len(body), data, data, len(contents), memory, 6, align)
    return head + first + second + body + contents


def words_of(seed, number):
    """The first words of the generator PCG XSH RR 64/32 with this seed and stream 54."""
    step = lambda state: (state * 6364136223846793005 + 109) % 2**64
    state = step((seed + 109) % 2**64)
    for _ in range(number):
        mixed, turned = ((state >> 18 ^ state) >> 27) % 2**32, state >> 59
        yield (mixed >> turned | mixed << (32 - turned)) % 2**32
        state = step(state)


def made_image(seed, rounds):
    """The random program of `make`, as docs/formats.md says it under "Made images"."""
    code = [0x002002B7]
    for word in words_of(seed, rounds):
        at = word % 64 * 4
        address = at << 20 | 0x00028413
        code += (
            (at << 20 | 0x0002A303, 0x006383B3),
            (at >> 5 << 25 | at % 32 << 7 | 0x0072A023, 0x00138393),
            (address, 0x0074232F),
            (address, 0x086423AF),
        )[word // 64 % 4]
    return image(code + [0x05D00893, 0x00038513, 0x00000073], 1, 0x200000, 256, b"")


def buses_of(shape):
    """For each bus, level by level, how many children it has."""
    def node(place):
        if shape[place] == "L":
            return None, place + 1
        children, place = [], place + 1
        while shape[place] != ")":
            child, place = node(place)
            children.append(child)
        return children, place + 1

    level, widths = [node(0)[0]], []
    while level:
        widths += map(len, level)
        level = [child for bus in level for child in bus if child is not None]
    return widths


def fair_schedule(shape, turns=TURNS):
    """Round after round three turns of each hart, then every request, from the lowest bus up, then what comes down and
    every reply, from the top bus down; in each third round copies may leave."""
    widths = buses_of(shape)
    lines, number = [], 0
    while len(lines) < turns:
        lines += [f"h {hart} {number % 4}" for hart in range(shape.count("L")) for _ in range(3)]
        lines += [f"g {bus} q {child}" for bus in reversed(range(len(widths))) for child in range(widths[bus])]
        for bus, width in enumerate(widths):
            lines += [f"g {bus} d"] + [f"g {bus} r {child}" for child in range(width)]
        if number % 3 == 0:
            lines += [f"g {bus} l {child} {number % 5}" for bus, width in enumerate(widths) for child in range(width)]
        number += 1
    return ("\n".join(lines[:turns]) + "\nend\n").encode()


def write_inputs(folder, program):
    folder = pathlib.Path(folder)

    def printed(*words):
        return subprocess.run([program, *words], cwd=folder, stdout=subprocess.PIPE, check=True).stdout

    for name in TREES:
        (folder / name).write_bytes(tree(name))
    (folder / "loop").write_bytes(image(LOOP, 4, 0x20000, 4, bytes(4)))
    (folder / "made").write_bytes(made_image(42, ROUNDS))
    (folder / "retire").write_bytes(b"h 0 0\n" * TURNS + b"end\n")
    (folder / "nothing").write_bytes(b"end\n")
    for name in RECORDED:
        (folder / f"fair_{name}").write_bytes(fair_schedule(TREES[name][0]))
        (folder / f"seeded_{name}").write_bytes(printed("schedule", name, "42", str(TURNS)))
    (folder / "paged").write_bytes(fair_schedule(TREES["LL"][0], PAGED))
    for name, tree_file in (("busy_4", STENCIL[1]), ("busy_16", STENCIL[2])):
        (folder / name).write_bytes(printed("record", STENCIL[0], tree_file, "even", "42", str(BUSY)))
    report = printed("run", "loop", "L", "retire").splitlines(keepends=True)
    (folder / "witness").write_bytes(b"".join(line for line in report if line.startswith(b"op ")))
    (folder / "saved").write_bytes(printed("save", "loop", "L", "retire"))
