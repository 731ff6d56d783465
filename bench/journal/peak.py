"""Runs a program and prints its line with its peak memory in KiB."""
import resource
import subprocess
import sys

out = subprocess.run(sys.argv[1:], check=True, capture_output=True, text=True).stdout.strip()
print(out, resource.getrusage(resource.RUSAGE_CHILDREN).ru_maxrss)
