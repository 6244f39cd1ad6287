"""Writes the decks whose rows are too many for a hand: light_wave.toml, plasma_oscillation.toml, antenna.toml, plasma_light.toml.

    python3 examples/make_decks.py decks
"""

import sys
from math import asin, cos, pi, sin, sqrt


def factor(mult):
    return mult[0] / 2 ** mult[1]


def rows(name, values):
    return f"{name} = [\n" + "".join(f"    {list(v)},\n" for v in values) + "]\n"


def head(comment, cells, tiles, steps, every, scale, sub=None):
    text = "".join(f"# {line}\n" for line in comment)
    text += f"version = {2 if sub else 1}\n\n[grid]\ncells = {cells}\ntiles = {tiles}\n" + (f"sub = {sub}\n\n" if sub else "\n")
    text += f"[run]\nsteps = {steps}\nevery = {every}\n\n[scale]\n"
    return text + "".join(f"{key} = {value}\n" for key, value in scale.items())


def light_wave(waves=(1, 2, 4, 8, 12), nx=32, high=10**12):
    """Plane waves along +x: Ey and Bz, with E at step 0 and B half a step before."""
    scale = {"e_to_b": [1, 4], "b_to_e": [1, 1], "e_force": [1, 20], "b_force": [1, 20]}
    c = sqrt(2 * factor(scale["e_to_b"]) * factor(scale["b_to_e"]))
    edges, faces = [], []
    for i in range(nx):
        ey = bz = 0
        for m in waves:
            k = 2 * pi * m / nx
            omega = 2 * asin(c * sin(k / 2))
            ey += high * cos(k * i)
            bz += high * c / factor(scale["b_to_e"]) * cos(k * (i + 0.5) + omega / 2)
        for z in range(2):
            for y in range(2):
                edges.append((1, i, y, z, round(ey)))
                faces.append((2, i, y, z, round(bz)))
    lengths = ", ".join(f"{nx}/{m}" for m in waves)
    comment = [
        "Light in vacuum: plane waves along x, all of one height, polarised along y.",
        f"Their lengths are {lengths} cells. The Courant number is {c:g}.",
        "Written by examples/make_decks.py.",
    ]
    text = head(comment, [nx, 2, 2], [4, 1, 1], 256, 4, scale)
    return text + "\n[field]\n" + rows("edges", edges) + rows("faces", faces)


def plasma_oscillation(nx=16, speed=100000):
    """An ion and an electron in the middle of each cell; the electrons start with vx = speed * sin(k x)."""
    scale = {"e_to_b": [1, 4], "b_to_e": [1, 1], "e_force": [1, 20], "b_force": [1, 20]}
    comment = [
        "Cold electrons on ions that stand still, one pair in the middle of each cell. The electrons start with a",
        "velocity along x that is one sine over the box, and swing at the plasma frequency.",
        "Written by examples/make_decks.py.",
    ]
    text = head(comment, [nx, 2, 2], [4, 1, 1], 290, 2, scale)
    for name, charge, mass, kick, fast in ("ion", 1, 1836, [0, 0], 0), ("electron", -1, 1, [-1, 1], speed):
        text += f'\n[[species]]\nname = "{name}"\ncharge = {charge}\nmass = {mass}\nkick = {kick}\nturn = [0, 0]\n'
        points = []
        for z in range(2):
            for y in range(2):
                for i in range(nx):
                    vx = round(fast * sin(2 * pi * (i + 0.5) / nx))
                    points.append((4096 * i + 2048, 4096 * y + 2048, 4096 * z + 2048, vx, 0, 0))
        text += rows("points", points)
    return text


def antenna(period=32, nx=128, high=10**12):
    """Four loops at the plane x = 0, with Ey probed at 64 cells to the right of it, from the second on."""
    scale = {"e_to_b": [1, 1], "b_to_e": [1, 2], "e_force": [1, 20], "b_force": [1, 20]}
    comment = [
        "An antenna in vacuum: driven loops at the four places of a plane launch light along x, both ways, with Ey.",
        f"It has a period of {period} steps. The Courant number is 0.5. `pic probe` puts Ey at 64 cells beside it.",
        "Written by examples/make_decks.py.",
    ]
    wave = [round(high * sin(2 * pi * n / period)) for n in range(period)]
    text = head(comment, [nx, 2, 2], [4, 1, 1], 190, 10, scale, 12)
    for z in range(2):
        for y in range(2):
            text += f"\n[[drive]]\naxis = 2\ncell = {[0, y, z]}\nwave = {wave}\n"
    return text + "\n[probe]\n" + rows("places", [(0, 1, i, 0, 0) for i in range(1, 65)])


def plasma_light(waves=(1, 2, 4, 8, 16), nx=64, high=10**13):
    """Cold electrons and ions on one lattice, four of each a cell, in standing waves of Ey; Ey is probed at all cells of a line."""
    scale = {"e_to_b": [1, 1], "b_to_e": [1, 2], "e_force": [1, 23], "b_force": [1, 23]}
    lengths = ", ".join(f"{nx}/{m}" for m in waves)
    comment = [
        f"Light in a cold plasma: standing waves of Ey along x, all of one height, {lengths} cells long. B and all speeds are 0 at the",
        "start. The Courant number is 0.5. `pic probe` puts Ey at each cell along x, and the orbit of an electron.",
        "Written by examples/make_decks.py.",
    ]
    text = head(comment, [nx, 2, 2], [4, 1, 1], 400, 100, scale, 14)
    heights = [round(sum(high * cos(2 * pi * m * i / nx) for m in waves)) for i in range(nx)]
    text += "\n[field]\n" + rows("edges", [(1, i, y, z, heights[i]) for z in range(2) for y in range(2) for i in range(nx)])
    text += ('\n[[species]]\nname = "ion"\ncharge = 1\nmass = 1836\nkick = [0, 0]\nturn = [0, 0]\n'
             f"lattice = {{ first = [2048, 8192, 8192], gap = [4096, 16384, 16384], count = [{4 * nx}, 2, 2], v = [0, 0, 0] }}\n")
    text += ('\n[[species]]\nname = "electron"\ncharge = -1\nmass = 1\nkick = [-1, 6]\nturn = [-1, 12]\n'
             'pair = { of = "ion", seed = 1, stream = 1, drift = [0, 0, 0], spread = [0, 0, 0] }\n')
    return text + "\n[probe]\n" + rows("places", [(0, 1, i, 0, 0) for i in range(nx)]) + f"ids = [{16 * nx}]\n"


if __name__ == "__main__":
    for make in light_wave, plasma_oscillation, antenna, plasma_light:
        with open(f"{sys.argv[1]}/{make.__name__}.toml", "w") as file:
            file.write(make())
