"""What the tests share: a count of what passed, the plants with their stored panels, and changed copies of them."""
import concurrent.futures
import glob
import os
import subprocess

import program

TOP = program.TOP
PLANTS = sorted(glob.glob(os.path.join(TOP, "plants/*.toml")))
CASES = os.path.join(TOP, "look/cases")


class Results:
    def __init__(self):
        self.passed, self.failed = 0, 0

    def note(self, name, is_right, *found):
        if is_right:
            self.passed += 1
        else:
            self.failed += 1
            print(f"look/check: {name}: {' '.join(str(one) for one in found)[:1000]}")

    def equal(self, name, wanted, found):
        self.note(name, wanted == found, f"wanted {wanted!r} and found {found!r}")


results = Results()


def read_text(name):
    with open(name, encoding="utf-8") as file:
        return file.read()


def panel_of(plant_file):
    """The stored panel of a plant, and how many scans it has."""
    text = read_text(plant_file[: -len("toml")] + "panel")
    return text, max(int(line.split()[1]) for line in text.splitlines() if line.startswith("S "))


def at_once(function, items):
    with concurrent.futures.ThreadPoolExecutor(os.cpu_count()) as pool:
        return list(pool.map(function, items))


def run_script(name, *words, stdin=None, environment=None):
    given = {**os.environ, **(environment or {})}
    done = subprocess.run([os.path.join(TOP, "look", name), *words], capture_output=True, text=True, check=False, input=stdin, env=given)
    return done.returncode, done.stdout, done.stderr


def changed(folder, name, old, new, plant):
    text = read_text(os.path.join(TOP, "plants", plant + ".toml"))
    if text.count(old) != 1:
        raise ValueError(f"{plant} has not '{old}' once")
    file = os.path.join(folder, name)
    with open(file, "w", encoding="utf-8") as out:
        out.write(text.replace(old, new))
    return file


def plant_file(name):
    return os.path.join(TOP, "plants", name + ".toml")
