n = int(input())
x = 1
takes = set()
held_in = {}
for i in range(1, n + 1):
    x = x * 16807 % 2147483647
    course = x // 1000 % (n // 4)
    x = x * 16807 % 2147483647
    takes.add((x // 1000 % (n // 2), course))
    x = x * 16807 % 2147483647
    if i % 2 == 0:
        held_in.setdefault(course, set()).add(x // 1000 % 100)
print(len(takes), sum(map(len, held_in.values())))

joined = {(person, course, room) for person, course in takes for room in held_in.get(course, ())}
print(len(joined), '[' + ' '.join(map(str, min(joined))) + ']')

enters = {}
for person, course, room in joined:
    enters.setdefault(room, set()).add(person)
most = max(map(len, enters.values()))
fullest = sorted(room for room, persons in enters.items() if len(persons) == most)
print(sum(map(len, enters.values())), most, '{' + ' '.join(map(str, fullest)) + '}')
print(sum(course not in held_in for person, course in takes))
