"""The tables behind `explain`: the keys of a deck, what limits mean, the causes of a bad dump, and the exit statuses, after
docs/FORMATS.md."""

THREE = "three whole numbers, along x, y and z"
MULTIPLIER = "a multiplier [n, k], which is the factor n / 2^k"
MULTIPLIERS = "n from -2147483647 to 2147483647, k from 0 to 62"
PLACE = "within the box, which has 4096 sub-cells a cell, in version 2 2^sub"
SIDES = " in version 1; in version 2 that is in proportion to 2^sub"
VELOCITY = "each from -16777216 to 16777216, which is one cell a step" + SIDES
SEED = "from 0 to 9223372036854775807"
DRIFT = "each from -8388608 to 8388608, which is half a cell a step" + SIDES
SPREAD = "each from 0 to 1048576, which is 1/16 cell a step" + SIDES
PARTICLES = "1048576, in version 2 4194304"
ROWS = "an array of rows [axis, i, j, k, value]"
ROW = "axis 0, 1 or 2, a cell of the grid, and any 64-bit value; at most 1048576 rows"


def drawn(table: str) -> dict[str, tuple[str, str]]:
    """The keys of a drawing."""
    return {f"{table}.seed": ("a whole number", SEED), f"{table}.stream": ("a whole number", SEED),
            f"{table}.drift": (THREE + ", the mean velocity", DRIFT),
            f"{table}.spread": (THREE + ", the deviation of the velocities", SPREAD)}


# By the path of a key, with [i] for each number in brackets: what it is, and its limits.
KEYS: dict[str, tuple[str, str]] = {
    "version": ("the version of the format, a whole number", "1 or 2"),
    "grid": ("a table: cells, tiles, and in version 2 sub", ""),
    "grid.cells": (THREE, "each from 2 to 64, in version 2 to 128"),
    "grid.tiles": (THREE, "each from 1 to half the cells of its axis, which it divides; their product is at most 512"),
    "grid.sub": ("a whole number, which a deck of version 2 has: a cell has 2^sub sub-cells along each axis", "from 8 to 14"),
    "run": ("a table: steps, every, and in version 2 filter, which may be left out", ""),
    "run.steps": ("a whole number", "from 0 to 1000000"),
    "run.every": ("a whole number", "from 1 to 1000000"),
    "run.filter": ("a whole number, which a deck of version 2 may have: 1 smooths the current", "0 or 1"),
    "scale": ("a table of four multipliers: e_to_b, b_to_e, e_force, b_force", ""),
    **{f"scale.{name}": (MULTIPLIER, MULTIPLIERS) for name in ("e_to_b", "b_to_e", "e_force", "b_force")},
    "field": ("a table: e, b, edges, faces, each of which may be left out", ""),
    "field.e": (THREE + ", the uniform part of E", "any 64-bit numbers"),
    "field.b": (THREE + ", the uniform part of B", "any 64-bit numbers"),
    "field.edges": (ROWS + ", added to E", ROW),
    "field.faces": (ROWS + ", added to B", ROW),
    "species": ("an array of tables, [[species]]", "at most 16"),
    "species[i]": ("a table: name, charge, mass, kick, turn, and one of points, lattice, random, pair, and in version 2 displace", ""),
    "species[i].name": ("a text", "1 to 32 letters, digits and _, other than the earlier names"),
    "species[i].charge": ("a whole number", "from -32768 to 32767"),
    "species[i].mass": ("a whole number", "from 1 to 65536"),
    "species[i].kick": (MULTIPLIER, MULTIPLIERS),
    "species[i].turn": (MULTIPLIER, MULTIPLIERS),
    "species[i].points": ("an array of rows [x, y, z, vx, vy, vz]", f"places {PLACE}, velocities {VELOCITY}"),
    "species[i].lattice": ("a table: first, gap, count, v", ""),
    "species[i].lattice.first": (THREE + ", the first place", PLACE),
    "species[i].lattice.gap": (THREE, "each from 0 to 64 cells in sub-cells, in version 2 to 128 cells"),
    "species[i].lattice.count": (THREE, f"each from 1 to {PARTICLES}, as their product"),
    "species[i].lattice.v": (THREE + ", the velocity of all", VELOCITY),
    "species[i].random": ("a table: count, seed, stream, drift, spread", ""),
    "species[i].random.count": ("a whole number", f"from 0 to {PARTICLES}"),
    **drawn("species[i].random"),
    "species[i].pair": ("a table: of, seed, stream, drift, spread", ""),
    "species[i].pair.of": ("a text", "the name of an earlier species"),
    **drawn("species[i].pair"),
    "species[i].displace": ("a table: of, by, v, which a species of a deck of version 2 may have", ""),
    "species[i].displace.of": ("a text", "the name of an earlier species"),
    "species[i].displace.by": (THREE + ", the way in sub-cells", "each from -4096 to 4096 for sub = 12, which is a cell"),
    "species[i].displace.v": (THREE + ", the velocity of all", VELOCITY),
    "drive": ("an array of tables, [[drive]], which a deck of version 2 may have: driven current loops", "at most 16"),
    "drive[i]": ("a table: axis, cell, wave", ""),
    "drive[i].axis": ("a whole number, the axis that the loop's face lies across", "0, 1 or 2"),
    "drive[i].cell": (THREE, "a cell of the grid"),
    "drive[i].wave": ("an array of 1 to 64 whole numbers, one a step", "each at most 1152921504606846976 in size"),
    "probe": ("a table, which a deck of version 2 may have: places, ids, each of which may be left out", ""),
    "probe.places": ("an array of rows [field, axis, i, j, k]", "field 0 for E or 1 for B, axis 0, 1 or 2, a cell of the grid; at most 64 "
                                                                "rows"),
    "probe.ids": ("an array of whole numbers, the identities of particles", "at most 64 of them"),
}

# By the path of a value that isn't within its limits, and these: what to change.
ADVICE: list[tuple[str, str]] = [
    (r"deck .*", "The deck is too long: a deck has at most 1048576 bytes, which some 30000 listed particles take. List fewer, "
                 "or let the program place them: lattice, random, pair."),
    (r"version 1 1", "This program knows the format of version 1 alone."),
    (r"version .*", "There are two versions of the format, 1 and 2."),
    (r"grid\.cells.*", "Choose 2 to 64 cells along each axis, in version 2 to 128; an axis that nothing is to vary along has 2."),
    (r"grid\.sub .*", "A cell has 2^sub sub-cells along each axis, 256 to 16384; 12 is what version 1 has."),
    (r"grid\.tiles\[i\] 0 0", "The value is what the cells of this axis leave when they are divided by its tiles: choose tiles "
                              "that divide them. Those of `resume` are --tiles-x, --tiles-y and --tiles-z."),
    (r"grid\.tiles\[i\] .*", "A tile has at least 2 cells along each axis: choose fewer tiles, or 1. Those of `resume` are "
                             "--tiles-x, --tiles-y and --tiles-z."),
    (r"grid\.tiles .*", "There are at most 512 tiles in all: choose fewer along an axis."),
    (r"run\.steps [1-9]\d* .*", "`resume` goes on to --steps steps in all, not so many more: at least as many as the dump says that "
                               "its own run has."),
    (r"run\.filter .*", "1 smooths the current by the binomial filter, 0 or no such key leaves it as it is; there is no other filter."),
    (r"run\..*", "Frames come at step 0, at the multiples of `every`, and at the last step."),
    (r"scale\.([eb])_force -17592186044416 17592186044416",
     "The value is a field at the start times this multiplier, as particles feel it, and at most 2^44 in size: choose a smaller "
     "`_force` and raise `kick` (of e_force) or `turn` (of b_force) as much, or a weaker field."),
    (r"(scale|species\[i\])\.\w+\[i\] .*", "A multiplier [n, k] is n / 2^k: for a larger factor lower k, for a smaller one "
                                           "raise it."),
    (r"species\[i\] .*", f"The value is the number of particles so far: a run has at most {PARTICLES}."),
    (r"species 0 16", "A run has at most 16 species."),
    (r"species\[i\]\.mass .*", "The mass counts in the kinetic energy alone; what a field does to a particle `kick` and `turn` "
                               "say."),
    (r"species\[i\]\.charge (-?\d+) \1", "A species that is displaced from another has its charge with the other sign, particle by "
                                         "particle."),
    (r"species\[i\]\.charge .*", "The charge counts in E and the current; for more charge take more particles, or a larger wp "
                                 "by `kick`."),
    (r"species\[i\]\.points\[i\]\[i\] 0 .*", "A place is from 0 to 4096 times the cells of its axis, in version 2 2^sub times, "
                                              "less 1."),
    (r"species\[i\]\.(points\[i\]\[i\]|(lattice|displace)\.v\[i\]) -.*", "The limit is one cell a step, the most that a particle may "
                                                                "move."),
    (r"species\[i\]\.(random|pair)\.spread\[i\] .*",
     "The limit is 1/16 cell a step: the program draws no larger thermal speed. Lower the plasma frequency and the speeds "
     "together (the Debye length stays), or list the particles as points: python3 -m pictools deck --start quiet."),
    (r"species\[i\]\.(random|pair)\.drift\[i\] .*", "The limit is half a cell a step: the program draws about no larger drift; "
                                                    "points may have one cell a step."),
    (r"species\[i\]\.displace\.by\[i\] .*", "A particle is displaced by at most a cell along each axis; one that is itself displaced from a "
                                            "displaced one goes further."),
    (r"drive 0 16", "A run has at most 16 loops."),
    (r"drive\[i\]\.wave 1 64", "The value is how many numbers the wave has: one for each step of its period, 1 to 64."),
    (r"drive\[i\]\.wave\[i\] .*", "A number of a wave is added to a scaled B, so it is in the unit of E, and at most 2^60 in size: lower "
                                   "e_force, and raise kick as much."),
    (r"(drive\[i\]|probe)\..*cell.*|drive\[i\]\.axis .*|probe\.places\[i\]\[i\] .*",
     "Axes are 0, 1 and 2, a field is 0 for E and 1 for B, and cells count from 0 along each axis."),
    (r"probe\.ids\[i\] .*", "Identities count from 0 through all species, in the order of the deck; a deck without particles has none."),
    (r"probe\.(places|ids) 0 64", "At most 64 places and as many particles are probed: choose fewer; frames have them all."),
]

CAUSES: dict[str, str] = {
    "1": "this byte isn't that of `PICDUMP1` or `PICDUMP2`, so it is no dump, or one of another version",
    "2": "a number or a name of the header is outside the limits of a deck",
    "3": "no record begins so: where a frame is due stands neither `F` nor, after a frame, `E`",
    "4": "the step isn't one that may stand here",
    "5": "a field value is above 2^90 in size, or its force value above 2^44",
    "6": "a place is outside the box, or a velocity above what a push leaves",
    "7": "an energy isn't that of its frame",
    "8": "a field of the end record is outside its values",
    "9": "the bytes end here, before the dump does",
    "10": "a byte follows the end record",
}

USAGE = ["What was typed is no command; nothing was read.",
         "run, check (or no word), verify, demo SEED, upgrade, resume --steps M and probe are commands; run, demo, resume and probe take "
         "--workers N with N from 1 to 64, resume also --tiles-x, --tiles-y and --tiles-z, 1 to 64 each; a SEED is from 0 to 4294967295, and M "
         "from 0 to 1000000. A deck and a dump come by standard input: ./pic run < DECK > DUMP"]
MENDED = "python3 -m pictools mend makes it that of a shorter run, and ./pic resume goes on from there."

STATUSES: dict[int, list[str]] = {
    0: ["Done: the run came to its last step, the deck can be run, or the dump is good."],
    1: ["A step was stopped; the last line of the report says by what: explain that line. The dump has the frames before it, "
        "and its end."],
    2: USAGE,
    3: ["The deck is refused, by the line on standard error: explain that line. Nothing was run."],
    4: ["Reading standard input failed: it is a folder, or its file or pipe has an error. Was it given as < DECK?"],
    5: ["A write failed, and no line could say so: the disk is full, or what took the output (a pipe) has ended. What was put "
        "before stands: the dump has its whole frames, perhaps a part of one more, and no end.",
        "python3 -m pictools info, plot and thin take its whole frames. Free the disk, or keep fewer: a larger run.every, or "
        "./pic run < DECK | python3 -m pictools thin 10 > DUMP. " + MENDED],
    6: ["There wasn't memory enough, and no line could say so; whole frames may stand in the dump. A run takes some 97 bytes a "
        "particle and 376 a cell, 48 more with a filter: choose fewer of them, or fewer --workers."],
    7: ["The dump leaves its format: explain the line `bad dump ..`."],
    8: ["A frame doesn't meet Gauss's law: explain the line `broken frame ..`."],
    70: ["./pic has no program to run: its build failed. What went wrong stands above."],
    130: ["Ctrl-C ended it. A dump that it was writing has its whole frames, perhaps a part of one more, and no end.", MENDED],
    137: ["A signal 9 ended it, mostly the system's for want of memory. A dump that it was writing has whole frames and no end.", MENDED],
    143: ["A signal 15 (TERM) ended it, such as that of a time limit. A dump that it was writing has whole frames and no end.", MENDED],
}
