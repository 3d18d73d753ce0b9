n = int(input())


def is_free(columns, row, column):
    return all(other != column and abs(other - column) != row - above for above, other in enumerate(columns))


def place(columns):
    row = len(columns)
    if row == n:
        print('[' + ' '.join(map(str, columns)) + ']')
        return
    for column in range(1, n + 1):
        if is_free(columns, row, column):
            place(columns + [column])


place([])
print('no more')
