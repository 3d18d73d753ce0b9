from collections import Counter

STEPS = [(dx, dy) for dx in (-1, 0, 1) for dy in (-1, 0, 1) if (dx, dy) != (0, 0)]


def next_cells(cells):
    near = Counter((x + dx, y + dy) for x, y in cells for dx, dy in STEPS)
    return {cell for cell, count in near.items() if count == 3 or count == 2 and cell in cells}


n = int(input())
x = 1
cells = set()
for column in range(1, n + 1):
    for row in range(1, n + 1):
        x = x * 16807 % 2147483647
        if x // 1000 % 3 == 0:
            cells.add((column, row))
print(len(cells))

for generation in range(1, 11):
    cells = next_cells(cells)
    print(generation, len(cells))
print(min(column for column, _ in cells), max(row for _, row in cells))
