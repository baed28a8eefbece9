"""The last line of a refusal, which names a file."""


def names_file(line, words):
    """Whether a line names a file of the words of a command, the base of one, or a stream, as a refusal's last line does."""
    line = line.removeprefix("zztool: ")
    for word in [*words, *(f"{word}.base" for word in words), "stdin", "stdout"]:
        if line in (f"the last file read was {word}", f"the last file written was {word}", f"{word}: no such file"):
            return True
        if line.startswith((f"{word} can't be read: ", f"{word} can't be written: ")):
            return True
    return False


def refusal_in(complained, words):
    """What was complained, without the last line, if that names a file. Rows of their own compare such lines whole."""
    *lines, last = complained.splitlines(keepends=True) or [""]
    if lines and names_file(last.removesuffix("\n"), [str(word) for word in words]):
        return "".join(lines)
    return complained
