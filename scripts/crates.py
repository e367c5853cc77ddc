"""What scripts read of the repository's crates: their list, in the order and layers of crates.txt, what each is for, and how long each is."""
import os
import re

TOP = os.path.dirname(os.path.dirname(os.path.realpath(__file__)))


def text_of(path):
    with open(path, encoding="utf-8") as it:
        return it.read()


def layers():
    """Returns the layers of crates.txt, lowest first: the comment above each, and the names of its crates."""
    found = []
    for line in text_of(f"{TOP}/crates.txt").splitlines():
        head, is_note, note = line.partition("#")
        if is_note and not head.strip():
            found.append((note.strip(), []))
        elif ":" in head:
            found = found or [("", [])]
            found[-1][1].append(head.split(":")[0].split()[0])
    return [it for it in found if it[1]]


def names():
    return [name for _, of_layer in layers() for name in of_layer]


def main_file(name):
    program = f"{TOP}/crates/{name}/src/main.rt"
    return program if os.path.isfile(program) else f"{TOP}/crates/{name}/src/lib.rt"


def is_for(name):
    """Returns the first sentence of the head of a crate's main file: what the crate is for."""
    lines = re.match(r"(?://!.*\n)*", text_of(main_file(name)))[0].splitlines()
    text = " ".join(it[3:].strip() or "\n" for it in lines).partition("\n")[0].strip()
    sentence = re.match(r".*?\.(?=\s|\Z)", text)
    return sentence[0] if sentence else text


def files(name, part, ending):
    """Returns the texts of the files with this ending in a part of a crate's folder."""
    walked = os.walk(f"{TOP}/crates/{name}/{part}")
    return [text_of(f"{at}/{it}") for at, _, found in walked for it in found if it.endswith(ending)]


def sizes(name):
    """Returns the lines of Rust that aren't empty, the lines of specs and of proofs, and how many tests and wrong bodies there are."""
    code = files(name, "src", ".rt")
    rust = sum(bool(line.strip()) for text in code for line in text.splitlines())
    ghost = [sum(len(text.splitlines()) for text in files(name, part, ".antt")) for part in ("specs", "proofs")]
    tests = sum(len(re.findall(r"(?m)^\s*#\[test\]", text)) for text in code)
    return rust, *ghost, tests, len(files(name, "must-fail", ".edit"))
