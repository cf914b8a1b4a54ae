"""Litmus tests that are made at random, the same for the same seed: two or three agents of a few accesses each."""
import random


def access(chosen, register):
    """An access of a block of 8 bytes, and whether it reads into the register."""
    view = chosen.choice(["U8", "U8", "U16", "U32"])
    place, value = chosen.randrange(2), chosen.choice([1, 1, 2, 3 if view == "U8" else 257])
    return chosen.choice([
        (f"{view}[{place}] = {value}", False), (f"{register} = {view}[{place}]", True),
        (f"Atomics.store({view}, {place}, {value})", False), (f"{register} = Atomics.load({view}, {place})", True),
        (f"{register} = Atomics.exchange({view}, {place}, {value})", True),
        (f"{register} = Atomics.compareExchange({view}, {place}, 0, {value})", True),
        (f"DV.setUint16({place}, {value}, true)", False), (f"{register} = DV.getUint8({place})", True),
    ])


def test_of(number, seed=1):
    """The text of a test with this number; each of its agents reads once at least."""
    chosen = random.Random(seed * 1_000_003 + number)
    lines, compared = [f"test generated{number}", "bytes 8"], []
    for agent in "ABC"[:chosen.choice([2, 2, 3])]:
        lines.append(f"agent {agent}")
        made = [access(chosen, f"r{place}") for place in range(chosen.choice([1, 2, 2]))]
        if not any(reads for _, reads in made):
            made.append((f"r{len(made)} = U8[{chosen.randrange(2)}]", True))
        lines += [line for line, _ in made]
        compared += [f"{agent}.r{place} == {chosen.choice([0, 1, 2])}" for place, (_, reads) in enumerate(made) if reads]
    return "\n".join([*lines, f"check {' && '.join(chosen.sample(compared, min(2, len(compared))))}", ""])


def write_tests(folder, count):
    """Writes so many tests into a new folder, and gives their files, by name."""
    folder.mkdir()
    files = [folder / f"{number:03}.lit" for number in range(count)]
    for number, path in enumerate(files):
        path.write_text(test_of(number))
    return files
