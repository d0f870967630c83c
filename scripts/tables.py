"""What the scripts `table` of the crates share. Each makes `stdin` and `stdout` of its crate, from answers by hand and by rule."""
import os
import sys

# The atoms that every program begins with.
FIRST_ATOMS = "true false error exit throw badarith badarg system_limit undef case_clause function_clause badfun badarity EXIT".split()


def marked(text, column=1):
    """A text without its mark `^`, and the column of the mark, where the text begins at this column."""
    prefix, mark, rest = text.partition("^")
    assert mark and "^" not in rest, text
    return prefix + rest, column + len(prefix)


def main(script, rows):
    """Writes the lines and the answers that `rows` gives beside the script, or, with --check, compares: the status of the script."""
    here = os.path.dirname(os.path.realpath(script))
    differ = False
    for name, lines in zip(["stdin", "stdout"], rows()):
        text = "".join(f"{line}\n" for line in lines)
        path = os.path.join(here, name)
        if sys.argv[1:] == ["--check"]:
            with open(path, encoding="utf-8") as file:
                differ |= file.read() != text
        else:
            with open(path, "w", encoding="utf-8") as file:
                file.write(text)
    return 1 if differ else 0
