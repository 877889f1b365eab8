"""The program that starts two child processes, one after the other."""
import os
import subprocess
import sys

CHILD = os.path.join(os.path.dirname(os.path.abspath(__file__)), "child.py")

for item in ("tea", "milk"):
    subprocess.run([sys.executable, CHILD, item], check=True)
print("both have ended")
