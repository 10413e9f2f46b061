"""python -m gatebench check FILE.., and its other tasks."""
from .command_line import run

if __name__ == "__main__":
    run()
