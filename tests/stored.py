"""Where the stored input of a program crate and the lines that it must write are kept."""
import os


def store(crate, data, lines):
    here = os.path.dirname(os.path.abspath(__file__))
    folder = os.path.join(here, '..', 'crates', crate)
    with open(os.path.join(folder, 'stdin'), 'wb') as f:
        f.write(data)
    with open(os.path.join(folder, 'stdout'), 'w') as f:
        f.writelines(lines)
