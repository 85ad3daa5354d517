"""pipe.py PAGESYNC IMAGE [LAYOUT]: speaks the requests of pagesync (docs/FORMATS.md), on an image of layout 4 or of LAYOUT, and checks its answers,
refusals and locks."""
import subprocess, sys
from images import new_image
program, path, layout = sys.argv[1], sys.argv[2], int(sys.argv[3]) if len(sys.argv) > 3 else 4
MOST = 4032 if layout == 4 else 1023  # pages of a commit: of a new pool all slots


def page(file, number, byte):
    return b"page %d %d\n" % (file, number) + bytes([byte]) * 4096


def ran(text):
    done = subprocess.run([program, path], input=text, capture_output=True)
    return done.returncode, done.stdout, done.stderr


def expect(text, status, answers):
    got = ran(text)
    assert got[:2] == (status, answers), (text[:40], got[0], got[1][:60], got[2])


def shown(file, number):
    status, answers, _ = ran(b"read %d %d\n" % (file, number))
    assert status == 0 and answers.startswith(b"ok\n") and len(answers) == 4099
    return answers[3:]


with open(path, "wb") as image:
    image.write(new_image([4100 * 4096, 5000, 1], read_only=[2], layout=layout))
expect(b"", 0, b"")
expect(page(0, 3, 7) + page(1, 1, 8) + b"commit\n" + b"read 0 3\n", 0, b"ok\nok\n" + bytes([7]) * 4096)
assert shown(1, 1) == bytes([8]) * 904 + bytes(4096 - 904)
expect(page(0, 3, 9) + page(2, 0, 9) + b"commit\n", 0, b"read-only\n")
for bad in (page(0, 3, 9) * 2, page(0, 3, 9) + page(1, 2, 9), page(0, 3, 9) + page(5, 0, 9), b"", b"".join(page(0, k, 9) for k in range(MOST + 1))):
    expect(bad + b"commit\n" + page(0, 4, 1) + b"commit\n", 0, b"bad-pages\nok\n")
expect(b"".join(page(0, k, 6) for k in range(10, 1033)) + b"commit\n", 0, b"ok\n")
expect(page(0, 3, 9), 1, b"")
expect(page(0, 3, 9)[:-1], 1, b"")
expect(page(0, 3, 9) + b"commit", 1, b"")
expect(b"page 0 3 \n", 1, b"bad-line\n")
expect(b"read 9 0\n", 0, b"bad-pages\n")
assert shown(0, 3) == bytes([7]) * 4096 and shown(0, 1032) == bytes([6]) * 4096
holder = subprocess.Popen([program, path], stdin=subprocess.PIPE, stdout=subprocess.PIPE)
holder.stdin.write(b"read 2 0\n")
holder.stdin.flush()
assert holder.stdout.read(3) == b"ok\n"
assert ran(b"")[0] == 1, "the image is not locked"
holder.communicate()
print(f"pagesync: layout {layout}, answers, refusals and the lock are as they should be")
