"""What the program should do, said once more in Python: page files and trees, one worker's calls, the machine of the events."""
