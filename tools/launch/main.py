"""The commands behind ./apsim, ./apsview, ./prove, tools/fresh_program and .ci/run: `tools/launch/python COMMAND WORDS..`."""
import os
import sys

sys.path.insert(0, os.path.dirname(os.path.abspath(__file__)))

# Each command with the file that holds its `main`. A file is read only for its own command: a proved program starts at once.
COMMANDS = {
    "start": "start",
    "fresh": "fresh",
    "prove": "prove",
    "gate": "gate",
}

if __name__ == "__main__":
    sys.exit(__import__(COMMANDS[sys.argv[1]]).main(sys.argv[2:]))
