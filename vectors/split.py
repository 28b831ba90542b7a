"""split.py SAMPLE CASES ANSWERS: the sample's cases, as the drivers read them, and its answers, as they write them."""
import sys

sample = open(sys.argv[1], 'rb').read()
cases, answers, at = [], [], 0
while at < len(sample):
    line = sample.index(b'\n', at) + 1
    entry, length, room = sample[at:line].split()
    end = line + int(length)
    stop = sample.index(b'\n\n', end + 1) + 2
    cases.append(sample[at:end])
    answers.append(sample[end + 1:stop])
    at = stop
open(sys.argv[2], 'wb').write(b''.join(cases))
open(sys.argv[3], 'wb').write(b''.join(answers))
print(len(cases), 'cases')
