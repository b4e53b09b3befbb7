def main():
    t = 0
    for i in range(1000):
        for j in range(10000):
            t = (t * 31 + i + j) % 1000003
    return t


print("main value", main())
