"""Calls of `validate` of which a proof can be stored: those of the folders of examples/, and those of documents of rows."""

import os
from collections import namedtuple

IMPORTS = {"clinical": ["http://ex.example/observations=observations.shex"]}  # the words for what the examples import


class Example(namedtuple("Example", "name words files")):
    """A call: the words of `validate` but its name and those for a proof, and the bytes of files by their names."""

    def check_words(self):
        """The words of a check but its name and those for a proof."""
        return without_option(without_option(self.words, "--map"), "--budget")

    def sources(self):
        """The names of the schema's and the data's files."""
        return [name for name in self.files if name in self.check_words()]


def without_option(words, option):
    """Words but those of an option and its value."""
    if option in words:
        place = words.index(option)
        words = [*words[:place], *words[place + 2 :]]
    return [word for word in words if not word.startswith(option + "=")]


def folder_example(folder):
    """The example of a folder."""
    name, files = os.path.basename(folder), {}
    for file in sorted(os.listdir(folder)):
        with open(os.path.join(folder, file), "rb") as stream:
            files[file] = stream.read()
    options = [(file.partition(".")[0], file) for file in files]
    words = [word for option, file in options if option in ("schema", "data", "map") for word in (f"--{option}", file)]
    return Example(name, words + IMPORTS.get(name, []), files)


# ---- documents of rows, as crates/row_format reads them


def entries_of(text):
    """The lines that say something: a first word, what is behind it, and the lines of the text that belongs to it."""
    entries = []
    for line in text.split("\n"):
        if line.startswith("|"):
            entries[-1][2].append(line[2:])
        elif line and not line.startswith("#"):
            word, _, rest = line.partition(" ")
            entries.append((word, rest, []))
    return entries


def file_of(word, rest, lines):
    """The name and the bytes of the file that an entry gives, or None."""
    text = "\n".join(lines)
    if word == "times":
        times, _, name = rest.partition(" ")
        return name, "".join(text.replace("§", str(number)) for number in range(int(times))).encode()
    contents = {"file": "".join(line + "\n" for line in lines), "text": text}
    if word == "bytes":
        return rest, bytes.fromhex("".join(lines))
    return (rest, contents[word].encode()) if word in contents else None


def row_examples(path):
    """The calls of `validate` of a document of rows whose words are understood, each once."""
    with open(path, encoding="utf-8", newline="") as stream:
        entries = entries_of(stream.read())
    title, files, words, shared, seen = None, {}, "", None, set()
    for word, rest, lines in entries:
        if word == "row":
            shared = shared or (dict(files), words)
            title, files, words = rest, dict(shared[0]), shared[1]
        elif word == "run":
            words = rest
        elif word == "status" and rest != "2" and words.startswith("validate "):
            example = Example(f"{os.path.basename(path)}: {title}", without_option(words.split(" ")[1:], "--proof"), dict(files))
            key = repr((example.words, example.files))
            if key not in seen:
                seen.add(key)
                yield example
        elif file_of(word, rest, lines):
            name, contents = file_of(word, rest, lines)
            files[name] = contents
