"""`python3 -m akubolinfe` is the command `akubolinfe`."""
from .command import run

if __name__ == '__main__':
    run()
