n = int(input())
x = 1
seen = set()
for i in range(n):
    x = x * 16807 % 2147483647
    value = x // 1000 % 50
    for level in range(1, 201):
        value = (level, value)
    seen.add(value)
print(len(seen))

total = 0
for value in seen:
    here = value
    while isinstance(here, tuple):
        level, here = here
        total += level
    total += here
print(total)

nest = set()
for i in range(1, n + 1):
    level = frozenset({i})
    for k in range(1, 21):
        level = frozenset({level, k})
    nest.add(level)
print(len(nest), 'true' if frozenset({n}) in nest else 'false')
