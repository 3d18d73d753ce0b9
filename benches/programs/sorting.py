def quicksort(t):
    if len(t) < 2:
        return t
    middle = t[len(t) // 2]
    low = [x for x in t if x < middle]
    same = [x for x in t if x == middle]
    high = [x for x in t if x > middle]
    return quicksort(low) + same + quicksort(high)


def merge_sort(t):
    if len(t) < 2:
        return t
    half = len(t) // 2
    return merged(merge_sort(t[:half]), merge_sort(t[half:]))


def merged(a, b):
    both = []
    i = 0
    j = 0
    while i < len(a) and j < len(b):
        if a[i] <= b[j]:
            both.append(a[i])
            i += 1
        else:
            both.append(b[j])
            j += 1
    return both + a[i:] + b[j:]


n = int(input())
x = 1
numbers = []
for i in range(n):
    x = x * 16807 % 2147483647
    numbers.append(x // 1000 % n)

rising = quicksort(numbers)
print(rising[0], rising[n // 2 - 1], rising[n - 1])
print('true' if merge_sort(numbers) == rising else 'false')
