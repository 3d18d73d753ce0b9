import sys


def sum_to(n):
    if n == 0:
        return 0
    return n + sum_to(n - 1)


def squares_to(n):
    if n == 0:
        return []
    squares = squares_to(n - 1)
    squares.append(n * n)
    return squares


def fib(n):
    return n if n < 2 else fib(n - 1) + fib(n - 2)


n = int(input())
sys.setrecursionlimit(n + 100)
squares = squares_to(n)
print(sum_to(n), len(squares), squares[n - 1])

total = 0
for i in range(1, n // 100 + 1):
    total += fib(14 + i % 3)
print(total)
