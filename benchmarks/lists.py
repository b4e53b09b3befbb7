def filled(n):
    l = []
    for i in range(n):
        l.append(i)
    return l


def main():
    t = 0
    for turn in range(300):
        l = filled(1000)
        for i in range(len(l)):
            t = (t * 31 + l[i]) % 1000003
    return t


print("main value", main())
