"""The independent program and the calls that tests make: shared by the scripts beside it."""
import os, subprocess

top = os.path.dirname(os.path.dirname(os.path.abspath(__file__)))
program = os.path.join(top, 'reference', 'target', 'release', 'reference')


def build():
    subprocess.run(['cargo', 'build', '--release', '--quiet'], cwd=os.path.join(top, 'reference'), check=True)


def generate(seed, count, folder):
    """the paths of COUNT generated images"""
    subprocess.run([program, 'generate', str(seed), str(count), folder], check=True, stdout=subprocess.DEVNULL)
    return [os.path.join(folder, name) for name in sorted(os.listdir(folder))]


def queries(seed, path):
    """lines `CALL = ANSWER` for an image"""
    return subprocess.run([program, 'queries', str(seed), path], check=True, capture_output=True, text=True).stdout.splitlines()


def spread(lines, names, most, turn):
    """of each named call up to `most` answered and `most` refused lines, spread over the lines; turn varies which"""
    out = []
    for name in names:
        for refused in (False, True):
            of = [x for x in lines if x.split()[0] == name and (' = refuse ' in x) == refused]
            step = max(1, len(of) // most) if most else 1
            out += of[turn % step::step][:most]
    return out
