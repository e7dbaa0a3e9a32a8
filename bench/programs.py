"""Programs that are built beside the crates of this repository, and the processor time that their parts take; for the scripts beside this file."""
import os
import subprocess


def build(folder, name, libraries, text):
    """A program with this text over these libraries, in a repository of its own with the crates of this one."""
    top = os.path.dirname(os.path.dirname(os.path.abspath(__file__)))
    crates = os.path.join(folder, "crates")
    source = os.path.join(crates, name, "src")
    os.makedirs(source)
    for crate in os.listdir(os.path.join(top, "crates")):
        os.symlink(os.path.join(top, "crates", crate), os.path.join(crates, crate))
    with open(os.path.join(top, "crates.txt")) as old, open(os.path.join(folder, "crates.txt"), "w") as new:
        new.write(old.read() + "%s: %s\n" % (name, libraries))
    with open(os.path.join(source, "main.rt"), "w") as file:
        file.write(text)
    subprocess.run(["rt", "run"], cwd=os.path.dirname(source), check=True, stdin=subprocess.DEVNULL, stdout=subprocess.DEVNULL)
    return os.path.join(crates, name, "out", name)


def used(process):
    """The processor time in seconds that a running process has taken."""
    with open("/proc/%d/schedstat" % process.pid) as file:
        return int(file.read().split()[0]) / 1e9


def parts(program, given):
    """What the program says, line by line, behind the first line, and how much processor time in seconds it took to say that behind the line before it."""
    with subprocess.Popen([program], stdin=subprocess.PIPE, stdout=subprocess.PIPE) as running:
        running.stdin.write(given)
        running.stdin.close()
        before, took = 0, []
        for line in running.stdout:
            now = used(running)
            took.append((line.decode().strip(), now - before))
            before = now
    return took[1:]
