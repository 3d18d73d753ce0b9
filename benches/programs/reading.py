import sys

n = int(input())
count = 0
total = 0
for line in sys.stdin:
    count += 1
    total += int(line)
print('true' if count == n else 'false', total)
